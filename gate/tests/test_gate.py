"""Test the gate's parts, and the output of a run."""

import subprocess
from collections.abc import Callable
from pathlib import Path
from unittest import mock

import pytest

from gate import gate, runs
from gate.edits import edits, kit, record
from gate.tested import Result
from gate.tests.samples import CODE, repository, text, write, write_edit, write_program

# The output of a toolchain that proves one crate, keeps one and proves the tests of one; its output for another crate.
PROVED, FAILED = text("told_by_rt_ci"), "== high\nof high\nrt: high NOT PROVED\nwhat else failed\n"
SHOWN = FAILED.replace("what", "3 of 3 high NOT PROVED\nwhat")
ENDED, NOT_ALL, BROKE = "9 passed, 0 failed\n", "9 passed, 1 failed\n", "it broke off\n"


def test_an_edit_that_no_longer_fits_is_named(monkeypatch: pytest.MonkeyPatch) -> None:
    with repository(low=CODE) as room:
        monkeypatch.setattr(gate, "ROOT", Path(room))
        write_edit(room, "low", "one", "x - x", "x")
        assert gate.fitting() == (1, [], [])
        write_edit(room, "low", "two", "x - y", "x")
        assert gate.fitting() == (0, ["low/two no longer fits its code"], [])


def test_a_long_line_of_python_is_named(tmp_path: Path) -> None:
    file = write(f"#{'x' * 119}\n#{'x' * 120}\n#\n", tmp_path, "it.py")
    assert gate.wide(file) == [f"{file}:2: more than 120 columns"]
    write("\n", tmp_path, "out/it.py")
    assert gate.files_of("*.py", below=tmp_path) == [file]


@pytest.mark.parametrize(("status", "output", "lines", "wanted"), [
    (0, "", [], (1, [], [])), (1, "a.rt\n", [], (0, ["a.rt"], [])),
    (1, "", [], (0, ["the layout was not checked"], [])),
    (0, "", ["it.py:2: more than 120 columns"], (0, ["it.py:2: more than 120 columns"], [])),
])
def test_a_file_in_another_layout_fails(monkeypatch: pytest.MonkeyPatch, status: int, output: str, lines: list[str],
                                        wanted: Result) -> None:
    finished = mock.Mock(returncode=status, stdout=output, stderr="")
    monkeypatch.setattr(subprocess, "run", lambda *words, **how: finished)
    monkeypatch.setattr(gate, "wide", lambda file: lines)
    monkeypatch.setattr(kit, "folder", mock.Mock())
    assert gate.layout([Path("a.rt"), Path("it.py")]) == wanted


@pytest.mark.parametrize(("status", "counts"), [(0, (1, 0, 0)), (77, (0, 0, 1)), (1, (0, 1, 0)), (3, (0, 1, 0))])
def test_a_program_passes_by_its_exit_status(tmp_path: Path, status: int, counts: tuple[int, int, int]) -> None:
    write(f"raise SystemExit({status})\n", tmp_path, "check.py")
    passed, failed, skipped = gate.program("check", folder=tmp_path)
    assert (passed, len(failed), len(skipped)) == counts


def test_a_program_that_is_missing_fails(tmp_path: Path) -> None:
    assert gate.program("check", folder=tmp_path) == (0, ["check ended with status 1"], [])


@pytest.mark.parametrize(("failed", "skipped", "is_strict", "wanted", "status"), [
    ([], [], False, "2 passed, 0 failed\n", 0),
    ([], [], True, "2 passed, 0 failed\n", 0),
    ([], ["so"], False, "SKIPPED: so\n2 passed, 0 failed, 1 skipped\n", 0),
    ([], ["so"], True, "FAILED: not tried: so\n2 passed, 1 failed\n", 1),
    (["it"], ["so"], False, "FAILED: it\nSKIPPED: so\n2 passed, 1 failed, 1 skipped\n", 1),
])
def test_skips_are_named_and_fail_a_strict_run(
        capsys: pytest.CaptureFixture[str], failed: list[str], skipped: list[str], is_strict: bool, wanted: str,
        status: int) -> None:
    parts = gate.Parts()
    parts.passed, parts.failed, parts.skipped = 2, failed, skipped
    assert parts.conclude(is_strict) == status
    assert capsys.readouterr().out == wanted


def test_parts_are_counted_and_a_failed_one_stops_none() -> None:
    parts = gate.Parts()
    some: list[tuple[str, Callable[[], Result]]] = [
        ("one", lambda: (2, [], [])), ("two", lambda: (0, ["it"], ["so"])), ("three", lambda: (1, [], []))]
    assert [parts.run(*each) for each in some] == [True, False, True]
    assert (parts.passed, parts.failed, parts.skipped, len(parts.rows)) == (3, ["it"], ["so"], 3)


def test_all_edits_that_the_record_lacks_are_tried_and_some_of_others(
        monkeypatch: pytest.MonkeyPatch, tmp_path: Path) -> None:
    """The record does not cover one of the two picked crates; the copy gets the tried edits."""
    with repository(low=CODE, high=CODE) as room:
        monkeypatch.setattr(gate, "ROOT", Path(room))
        for name in ("two", "three"):
            write_edit(room, "low", name, "a", "b")
            write_edit(room, "high", name, "a", "b")
        every = [f"must-fail/{name}.edit" for name in ("one", "three", "two")]
        with (mock.patch.object(record, "uncovered", return_value=["low"]),
              mock.patch.object(record, "picked", return_value=["high", "low"]),
              mock.patch.object(record, "drawn", lambda root, name, commit: every[:1])):
            due = gate.due()
        assert due == {"high": every[:1], "low": every}
        for name in due:
            (tmp_path / "crates" / name).mkdir(parents=True)
        with mock.patch.object(edits, "try_crates", return_value={}) as tried:
            gate.some_edits(tmp_path, due)
        assert [*tried.call_args.args[1]] == ["high", "low"]
        assert {name: record.edits_of(tmp_path, name) for name in due} == due


@pytest.mark.parametrize(("output", "status", "counts", "shown"), [
    (PROVED + ENDED, 0, (9, 0), ENDED), (PROVED + FAILED + NOT_ALL, 1, (0, 1), SHOWN + NOT_ALL),
    (PROVED + ENDED, 1, (0, 1), ENDED), (PROVED + NOT_ALL, 0, (0, 1), NOT_ALL), (PROVED + BROKE, 0, (0, 1), BROKE),
])
def test_each_crate_is_named_and_a_failure_is_shown(
        tmp_path: Path, monkeypatch: pytest.MonkeyPatch, capsys: pytest.CaptureFixture[str], output: str, status: int,
        counts: tuple[int, int], shown: str) -> None:
    """An unproved crate's output is shown, and the last lines if the toolchain fails; the log has everything."""
    write_program(f"cat <<'END'\n{output}END\nexit {status}\n", tmp_path, "rt")
    monkeypatch.setattr(kit, "RT", str(tmp_path / "rt"))
    seconds = {"proofs": 54.4, "tests": 7.0}
    passed, failed, _ = runs.rt_ci(tmp_path, ["low", "middle", "high"], tmp_path / "log", lambda _, kind: seconds[kind])
    assert (passed, len(failed), (tmp_path / "log").read_text()) == (*counts, output)
    assert capsys.readouterr().out == f"1 of 3 low 54 s\n2 of 3 middle is kept\nthe tests of low 7 s\n{shown}"


@pytest.mark.parametrize(("processors", "with_tests", "wanted"), [
    (1, False, 240), (4, False, 170), (1, True, 540), (2, True, 270)])
def test_proofs_take_as_long_as_their_longest_chain_or_all_of_them(
        monkeypatch: pytest.MonkeyPatch, processors: int, with_tests: bool, wanted: float) -> None:
    table = {"proofs": 240, "tests": 300, "longest_chain_of_crates": 170}
    assert {*runs.table()} == {*table, "an_edit", "all_else"}
    monkeypatch.setattr(runs, "table", lambda: table)
    assert runs.proving(processors, with_tests) == wanted
