"""Test the verdict that a run of the gate leaves for a release."""

import contextlib
import io
import json
import subprocess
from pathlib import Path
from unittest import mock

import pytest
import re

from gate import gate
from gate.edits import kit
from gate.tests.samples import commit, write
from tests import verdict

MADE = verdict.Verdict("c" * 40, (), "kit-1 logic abc", 3, (), ("a: NOT TRIED: no root",),
                       "3 passed, 0 failed, 1 skipped")


@pytest.fixture
def root(tmp_path: Path, monkeypatch: pytest.MonkeyPatch) -> Path:
    """Return a repository with one commit of one file, which ignores out/."""
    write("a\n", tmp_path, "a")
    write("out/\n", tmp_path, ".gitignore")
    commit(tmp_path, "one")
    monkeypatch.setattr(gate, "ROOT", tmp_path)
    monkeypatch.setattr(kit, "identity", lambda: ("kit-1", "abc"))
    return tmp_path


def test_a_verdict_is_read_as_it_was_written(root: Path) -> None:
    verdict.write(root, MADE)
    assert verdict.read(root) == MADE


def test_what_is_no_verdict_is_refused(root: Path) -> None:
    with pytest.raises(verdict.NoVerdict, match="there is no out/verdict.json: make test"):
        verdict.read(root)
    verdict.write(root, MADE)
    right = json.loads((root / verdict.PLACE).read_text())
    wrong = [{**right, "passed": "3"}, {**right, "passed": True}, {**right, "failed": "none"},
             {**right, "skipped": [1]}, {**right, "more": 1}, {**right, "line": 1},
             {name: value for name, value in right.items() if name != "changes"}]
    for text in ["", "[", "[]", "1", "[" * 100_000, "\0", *map(json.dumps, wrong)]:
        (root / verdict.PLACE).write_text(text)
        with pytest.raises(verdict.NoVerdict, match="is no verdict of `make test`"):
            verdict.read(root)
    (root / verdict.PLACE).write_bytes(b"\xff\xfe")
    with pytest.raises(verdict.NoVerdict):
        verdict.read(root)


def test_green_is_something_passed_and_nothing_failed() -> None:
    for passed, failed, wanted in ((1, (), True), (0, (), False), (5, ("a",), False)):
        found = verdict.Verdict("", (), "", passed, failed, ("b",), "")
        assert found.is_green is wanted


def test_files_that_are_not_the_commits_are_told(root: Path) -> None:
    clean = verdict.state_of(root)
    assert re.search(r"\A[0-9a-f]{40}\Z", clean.commit)
    assert clean.changes == ()
    write("ignored\n", root, "out/log")
    assert verdict.state_of(root) == clean
    write("new\n", root, "b c")
    write("other\n", root, "a")
    assert verdict.state_of(root).changes == ("a", "b c")


def test_a_file_that_moved_is_told_by_both_names(root: Path) -> None:
    subprocess.run(["git", "mv", "a", "moved"], cwd=root, check=True)
    assert verdict.state_of(root).changes == ("a", "moved")


def test_what_changed_meanwhile_is_told(root: Path) -> None:
    before = verdict.state_of(root)
    assert verdict.joined(before, before) == before
    write("other\n", root, "a")
    changed = verdict.state_of(root)
    assert verdict.joined(before, changed) == verdict.State(before.commit, ("a",))
    assert verdict.joined(changed, before) == verdict.State(before.commit, ("a",))
    commit(root, "two")
    after = verdict.state_of(root)
    assert verdict.joined(before, after) == verdict.State(before.commit, (f"commit {after.commit}",))


def test_the_gate_writes_what_it_prints(root: Path) -> None:
    parts = gate.Parts()
    parts.passed, parts.skipped = 2, ["a: NOT TRIED: no root"]
    before = verdict.state_of(root)
    for is_strict, failed in ((False, 0), (True, 1)):
        with contextlib.redirect_stdout(io.StringIO()) as printed:
            gate.note(parts, is_strict, before)
            status = parts.conclude(is_strict)
        found = verdict.read(root)
        assert found.line == printed.getvalue().splitlines()[-1]
        assert (found.commit, found.changes, found.kit) == (before.commit, (), "kit-1 logic abc")
        assert (status, len(found.failed), len(found.skipped)) == (failed, failed, 1 - failed)
        assert found.is_green is (not is_strict)


def test_the_gate_notes_what_was_changed_when_it_began(root: Path) -> None:
    now = verdict.state_of(root)
    for before, wanted in ((verdict.State(now.commit, ("b",)), ("b",)),
                           (verdict.State("d" * 40, ()), (f"commit {now.commit}",))):
        gate.note(gate.Parts(), False, before)
        found = verdict.read(root)
        assert (found.commit, found.changes) == (before.commit, wanted)


def test_a_run_that_is_stopped_leaves_no_verdict(root: Path) -> None:
    verdict.write(root, MADE)
    stopped = mock.patch.object(subprocess, "run", side_effect=KeyboardInterrupt)
    with stopped, pytest.raises(KeyboardInterrupt):
        gate.main()
    assert not (root / verdict.PLACE).exists()
