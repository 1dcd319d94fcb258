"""Test `make quick`: the parts and tests that run for a change, and its last line."""

import shutil
from pathlib import Path

import pytest

from gate import chosen, gate, quick, tested
from gate.chosen import Executed
from gate.edits import kit, record
from gate.tests.samples import write_program
from gate.tested import Result, line_of

TABLE = {"test_a.py": Executed(30, frozenset()), "test_b.py": Executed(90, frozenset()),
         "test_c.py": Executed(200, frozenset())}


class Change:
    """A change of some files that touches some test files, and `make quick` for it."""

    def __init__(self, room: Path, monkeypatch: pytest.MonkeyPatch, capsys: pytest.CaptureFixture[str]) -> None:
        self.room, self.monkeypatch, self.capsys = room, monkeypatch, capsys
        self.ran: list[list[str]] = []

    def run(self, names: list[str], touched: list[str], status: int = 0) -> tuple[int, list[str]]:
        """Return the exit status and the lines of a run; proofs end with `status`."""
        def run(words: list[str], folder: Path, lanes: int) -> Result:
            self.ran.append(words)
            return len(words) - 2, [], []

        write_program(f"exit {status}\n", self.room, "rt")
        self.monkeypatch.setattr(kit, "RT", str(self.room / "rt"))
        self.monkeypatch.setattr(kit, "lanes", lambda: 1)
        self.monkeypatch.setattr(quick, "check_texts", lambda parts, names: None)
        self.monkeypatch.setattr(chosen, "changed", lambda root: names)
        self.monkeypatch.setattr(chosen, "touched", lambda *_: touched)
        self.monkeypatch.setattr(record, "outdated", lambda root: ["rs_time", "rs_model"])
        self.monkeypatch.setattr(tested, "run", run)
        return quick.main(), self.capsys.readouterr().out.splitlines()


@pytest.fixture
def change(tmp_path: Path, monkeypatch: pytest.MonkeyPatch, capsys: pytest.CaptureFixture[str]) -> Change:
    """Return a change."""
    return Change(tmp_path, monkeypatch, capsys)


@pytest.mark.parametrize(("limit", "count"), [(0, 1), (30, 1), (119, 1), (120, 2), (400, 3)])
def test_the_nearest_tests_run_within_the_limit(limit: float, count: int) -> None:
    every = [*TABLE]
    assert quick.within(every, TABLE, limit) == (every[:count], every[count:])


def test_tests_that_did_not_run_are_named_and_leave_no_verdict(
        change: Change, monkeypatch: pytest.MonkeyPatch) -> None:
    monkeypatch.setenv("LIMIT", "10")
    monkeypatch.setattr(chosen, "recorded", lambda text: TABLE)
    status, lines = change.run(["docs/DISK.md"], [*TABLE])
    assert change.ran == [["test_a.py", "-m", "not alone"]]
    assert status == 0
    assert [line for line in lines if line.startswith("not run: ")] == ["not run: test_b.py", "not run: test_c.py"]
    assert lines[-2:] == ["1 passed, 0 failed", "2 files of tests not run: no verdict"]


def test_a_wrong_body_fails(change: Change) -> None:
    status, lines = change.run(["crates/rs_time/src/moment.rt"], ["test_a.py"], status=1)
    assert (status, lines[-2:]) == (1, ["FAILED: rt check of rs_time ended with status 1", "1 passed, 1 failed"])


def test_the_tests_of_a_crate_of_tests_run(change: Change) -> None:
    status, lines = change.run(["crates/rs_store_tests/src/lib.rt"], ["test_a.py"])
    assert (status, lines[-1]) == (0, "2 passed, 0 failed")


def test_a_changed_crate_needs_a_kit_and_a_page_does_not(change: Change, monkeypatch: pytest.MonkeyPatch) -> None:
    monkeypatch.setattr(shutil, "which", lambda command: None)
    with pytest.raises(SystemExit, match="^there is no Rattle kit here [^\\n]*$"):
        change.run(["crates/rs_time/src/moment.rt"], [])
    assert change.run(["docs/DISK.md"], [])[0] == 0
    lines = change.run(["crates/rs_time/must-fail/a.edit"], [])[1]
    assert f"SKIPPED: {line_of('the record of edits', 'there is no Rattle kit here')}" in lines


@pytest.mark.parametrize(("name", "count"), [
    ("crates/rs_time/src/moment.rt", 1), ("crates/rs_time/must-fail/a.edit", 1), ("gate/edits/record.txt", 1),
    ("crates/rs_time/README.md", 0), ("gate/gate.py", 0)])
def test_due_edits_are_named_and_fail_nothing(change: Change, name: str, count: int) -> None:
    status, lines = change.run([name], ["test_a.py"])
    assert (status, lines.count('due: make edits CRATES="rs_time rs_model"')) == (0, count)
