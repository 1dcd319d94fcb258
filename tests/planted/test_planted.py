"""Tests must notice planted bugs. A run plants a few, drawn by the hash of the commit; --long plants all.

PLANTED=TEXT plants the bugs whose row contains the text. The plain program is built in PLANTED_FOLDER if it is set, so
that the next run builds only changed crates.
"""
from __future__ import annotations

import os
from collections.abc import Iterator
from pathlib import Path

import pytest

from rust.build import cargo
from rust.crates import Missing, vendored
from tests.planted.grounds import BUILDING, Ground, Tree, Workspace
from tests.planted.plants import Bug, all_bugs, drawn, wrong_rows
from tests.planted.runs import LONGEST, SEED
from tests.program import ROOT, room_in_memory
from tests.verdict import git


def seed() -> int:
    """Return the seed of the draw: the first digits of the commit, or a constant outside a clone."""
    return int(git(ROOT, "rev-parse", "HEAD")[:8] or f"{SEED:x}", 16)


def pytest_generate_tests(metafunc: pytest.Metafunc) -> None:
    """Select the bugs with the text in PLANTED, or else all; mark bugs that are not drawn as long."""
    if "bug" not in metafunc.fixturenames:
        return
    text = os.environ.get("PLANTED", "")
    bugs = [bug for bug in all_bugs() if text in bug.text]
    if not bugs:
        raise pytest.UsageError(f"no planted bug has the text {text!r}")
    quick = {bug.slug for bug in bugs} if text else {bug.slug for bug in drawn(bugs, seed())}
    long: dict[bool, list[pytest.MarkDecorator]] = {True: [], False: [pytest.mark.long]}
    metafunc.parametrize("bug", [pytest.param(bug, id=bug.slug, marks=[*long[bug.slug in quick], group_of(bug)])
                                 for bug in bugs])


def group_of(bug: Bug) -> pytest.MarkDecorator:
    """Return the mark that keeps bugs in one process: all of the program, and those with the same tests."""
    return pytest.mark.xdist_group("planted program" if bug.is_of_program else f"planted {bug.tests}")


@pytest.fixture(scope="session")
def tree(program: str) -> Iterator[Tree]:
    """Return a copy of the tree in memory."""
    with room_in_memory("planted-") as folder:
        yield Tree(Path(folder, "tree"), program)


@pytest.fixture(scope="session")
def workspace(tmp_path_factory: pytest.TempPathFactory) -> Workspace:
    """Return the plain program and its sources."""
    try:
        tool, _ = cargo(), list(vendored())
    except Missing as why:
        pytest.skip(str(why))
    return Workspace(Path(os.environ.get("PLANTED_FOLDER") or tmp_path_factory.mktemp("plain")).absolute(), tool)


@pytest.mark.timeout(2 * (BUILDING + LONGEST))
def test_tests_notice_a_planted_bug(bug: Bug, request: pytest.FixtureRequest) -> None:
    """The tests of a bug pass without it, and at least one fails by an assertion with it."""
    ground: Ground = request.getfixturevalue("workspace" if bug.is_of_program else "tree")
    ground.check_noticed(bug)


def test_rows_of_planted_bugs_fit_the_tree() -> None:
    """Every id is unique, every old text occurs once in its file, and every named test exists."""
    assert not wrong_rows(all_bugs(), ROOT)
