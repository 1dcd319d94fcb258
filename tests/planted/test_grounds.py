"""Tests of the planting itself: only a failure by an assertion notices a bug."""
from __future__ import annotations

from collections.abc import Iterator
from contextlib import contextmanager
from pathlib import Path

import pytest

from tests.planted.grounds import Ground
from tests.planted.plants import OF_OTHERS, OF_PROGRAM, Bug, Runner, Unfit, all_bugs, drawn, runner_of, wrong_rows
from tests.planted.runs import End, Outcome, run_tests

SUM, TEST = "def total(counts):\n    return sum(counts) + 1\n", "tests/test_sum.py::test_the_total_counts_all"
BUG = Bug("a total is short by one", "total.py", "sum(counts) + 1", "sum(counts)", TEST)
# Lines that make a test fail, and the result of a run with each.
ENDS = {
    "assert total([]) == 2": End.NOTICED,
    "assert total([]) == 2, 'a note'": End.NOTICED,
    "pytest.fail('too many')": End.NOTICED,
    "with pytest.raises(ValueError): total([])": End.NOTICED,
    "raise ExceptionGroup('two', [ValueError(), AssertionError()])": End.NOTICED,
    "raise ValueError": End.BROKEN,
    "raise TimeoutError": End.BROKEN,
    "import missing_module": End.BROKEN,
    "assert total([]) == 2, 'NameError: a command says so'": End.BROKEN,
    "time.sleep(9)": End.BROKEN,
    "os._exit(1)": End.BROKEN,
    "pytest.skip('it needs a browser')": End.SKIPPED,
    "assert total([]) == 1": End.PASSED,
}


class Made(Ground):
    """A ground whose tests have given results without and with a bug."""

    def __init__(self, sound: End, wrong: End) -> None:
        super().__init__()
        self.end, self.wrong = sound, wrong

    @contextmanager
    def planted(self, bug: Bug) -> Iterator[None]:
        """Plant a bug."""
        self.end, sound = self.wrong, self.end
        yield
        self.end = sound

    def run(self, tests: str) -> Outcome:
        """Return the result of the tests."""
        return Outcome(self.end, "")


@pytest.fixture
def folder(tmp_path: Path) -> Path:
    """Return a tree with a function, its test, and the plugin that notes assertions."""
    (tmp_path / "tests/planted").mkdir(parents=True)
    plugin = Path(__file__).with_name("assertions.py")
    (tmp_path / "tests/planted/assertions.py").write_text(plugin.read_text())
    (tmp_path / "total.py").write_text(SUM)
    return tmp_path


def write_test(folder: Path, line: str) -> None:
    """Write a test with this line into the tree."""
    (folder / "tests/test_sum.py").write_text("import os, time\nimport pytest\nfrom total import total\n\n"
                                              "@pytest.mark.timeout(2)\ndef test_the_total_counts_all():\n"
                                              f"    {line}\n")


@pytest.mark.parametrize("line", ENDS)
def test_only_an_assertion_notices_a_bug(folder: Path, line: str) -> None:
    write_test(folder, line)
    assert run_tests(TEST, folder, "").end is ENDS[line]


def test_a_missing_test_or_a_broken_file_notices_nothing(folder: Path) -> None:
    write_test(folder, "assert total([]) == 1")
    assert run_tests(f"{TEST}_of_nothing", folder, "").end is End.BROKEN
    (folder / "total.py").write_text("def total(:")
    assert run_tests(TEST, folder, "").end is End.BROKEN


def test_a_bug_counts_as_noticed_only_if_its_tests_pass_without_it() -> None:
    Made(End.PASSED, End.NOTICED).check_noticed(BUG)
    for sound in (End.NOTICED, End.BROKEN):
        with pytest.raises(AssertionError, match="without the bug"):
            Made(sound, End.NOTICED).check_noticed(BUG)
    for wrong in (End.PASSED, End.BROKEN, End.SKIPPED):
        with pytest.raises(AssertionError, match="with the bug"):
            Made(End.PASSED, wrong).check_noticed(BUG)
    with pytest.raises(pytest.skip.Exception):
        Made(End.SKIPPED, End.NOTICED).check_noticed(BUG)


def test_a_row_that_does_not_fit_the_tree_is_reported(folder: Path) -> None:
    write_test(folder, "pass")
    assert wrong_rows([BUG], folder) == []
    assert wrong_rows([BUG, BUG], folder) == ["a-total-is-short-by-one is the id of 2 bugs"]
    for file, old, new, tests in [("missing.py", BUG.old, BUG.new, TEST), (BUG.file, "sum(counts) + 2", "", TEST),
                                  (BUG.file, "counts", "", TEST), (BUG.file, "def total", "def", TEST),
                                  (BUG.file, BUG.old, BUG.new, f"{TEST}_of_nothing"),
                                  (BUG.file, BUG.old, BUG.new, "tests/test_product.py::test_it"),
                                  (BUG.file, BUG.old, BUG.new, "tests/test_sum.py -k product"),
                                  (BUG.file, BUG.old, BUG.new, "tests.sums a_row"),
                                  (BUG.file, BUG.old, BUG.new, "cargo rs_sum_tests many")]:
        assert len(wrong_rows([Bug(BUG.what, file, old, new, tests)], folder)) == 1, (file, old, tests)
    assert wrong_rows([Bug(BUG.what, BUG.file, BUG.old, BUG.new, "tests/test_sum.py -k 'total and not none'")],
                      folder) == ["a total is short by one: no test has none in its name"]


def test_an_old_text_occurs_once() -> None:
    assert BUG.planted(SUM) == SUM.replace(" + 1", "")
    for text in ("", SUM + SUM):
        with pytest.raises(Unfit):
            BUG.planted(text)


def test_a_seed_draws_the_same_bugs_again() -> None:
    bugs = all_bugs()
    first = drawn(bugs, 4)
    assert first == drawn(bugs, 4) != drawn(bugs, 5)
    assert [bug.is_of_program for bug in first] == [True] * OF_PROGRAM + [False] * OF_OTHERS
    assert not any(bug.is_long for bug in first)


@pytest.mark.parametrize(("tests", "runner"), [
    (TEST, Runner.PYTEST), (f"pytest {TEST}", Runner.PYTEST), ("-k total", Runner.PYTEST),
    ("cargo rs_store_tests many", Runner.CARGO)])
def test_the_form_of_the_words_names_their_runner(tests: str, runner: Runner) -> None:
    assert runner_of(tests) is runner
