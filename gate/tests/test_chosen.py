"""Test the choice of tests that a change touches."""

from collections.abc import Iterator
from pathlib import Path

import pytest

from gate import chosen
from gate.chosen import Executed
from gate.tests.samples import commit, write
from tests import modules

TEST = "tests/rows/test_rows.py"
FILES = {
    TEST: "from tests.reading import reader\nPAGE = 'docs/A.md'\nROOM = 'operations/install'\n",
    "tests/reading/reader.py": "import tests.low\n",
    "operations/ropepeach/fill/send.py": "from ropepeach.faults import Fault\n",
    "operations/ropepeach/faults.py": "class Fault(Exception): pass\n",
    ".gitignore": "out/\n",
    **dict.fromkeys(("tests/__init__.py", "tests/reading/__init__.py", "tests/low.py", "tests/other.py", "docs/A.md",
                     "docs/B.md", "operations/install/site/page.js", "tests/test_other.py",
                     "tests/house/test_words.py"), ""),
}
TABLE = {"tests/test_other.py": Executed(3, frozenset(["operations/ropepeach/fill/send"])),
         TEST: Executed(1, frozenset())}


@pytest.fixture
def repository(tmp_path: Path) -> Iterator[Path]:
    """Return a repository of a few tests, a page and a command."""
    for name, text in FILES.items():
        write(text, tmp_path, name)
    commit(tmp_path, "all")
    modules.imported.cache_clear()
    chosen.texts_in.cache_clear()
    yield tmp_path


def test_changed_new_and_removed_files_are_changed(repository: Path) -> None:
    assert chosen.changed(repository) == []
    write("x = 1\n", repository, "tests/low.py")
    write("", repository, "tests/new file.py")
    write("", repository, "out/built.py")
    (repository / "docs/A.md").unlink()
    assert chosen.changed(repository) == ["docs/A.md", "tests/low.py", "tests/new file.py"]


def test_a_moved_file_is_changed_by_both_names(repository: Path) -> None:
    write("# a text of some length, by which git knows the file again\n", repository, "tests/low.py")
    commit(repository, "a text")
    (repository / "tests/low.py").rename(repository / "tests/lower.py")
    assert chosen.changed(repository) == ["tests/low.py", "tests/lower.py"]


@pytest.mark.parametrize(("name", "wanted"), [
    (TEST, 0), ("tests/reading/reader.py", 1), ("tests/low.py", 2), ("docs/A.md", 2),
    ("operations/install/site/page.js", 2), ("tests/other.py", None), ("docs/B.md", None), ("docs/A.md.old", None),
])
def test_a_test_is_touched_by_its_imports_and_the_files_that_it_names(
        repository: Path, name: str, wanted: float | None) -> None:
    assert chosen.nearness(repository, TEST, name, TABLE) == wanted


def test_a_module_of_the_command_touches_the_tests_that_execute_it(repository: Path) -> None:
    send, faults = "operations/ropepeach/fill/send.py", "operations/ropepeach/faults.py"
    assert chosen.touched(repository, [TEST, "tests/test_other.py"], [send], TABLE) == ["tests/test_other.py"]
    assert chosen.touched(repository, [TEST, "tests/test_other.py"], [faults], TABLE) == []


def test_a_test_without_a_line_is_touched_by_each_module_of_the_command(repository: Path) -> None:
    assert chosen.touched(repository, [TEST], ["operations/ropepeach/faults.py"], {}) == [TEST]


def test_the_nearest_tests_are_first_and_the_house_is_always_touched(repository: Path) -> None:
    every = ["tests/house/test_words.py", "tests/test_other.py", TEST]
    assert chosen.touched(repository, every, ["tests/low.py"], TABLE) == ["tests/house/test_words.py", TEST]
    assert chosen.touched(repository, every, [TEST], TABLE) == [TEST, "tests/house/test_words.py"]


def test_a_crate_is_changed_by_its_code_and_proofs() -> None:
    names = ["crates/high/proofs/a/B.antt", "crates/low/src/lib.rt", "crates/mid/README.md",
             "crates/mid/must-fail/a.edit", "docs/A.md"]
    assert chosen.crates(["low", "mid", "high"], names) == ["low", "high"]


def test_lines_of_the_table_are_read() -> None:
    found = chosen.recorded("# a comment\ntests/test_a.py 1.5 fill.send faults\ntests/test_b.py 0.1\n")
    modules = frozenset(["operations/ropepeach/fill/send", "operations/ropepeach/faults"])
    assert found == {"tests/test_a.py": Executed(1.5, modules), "tests/test_b.py": Executed(0.1, frozenset())}
