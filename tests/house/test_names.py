"""Test that a public name of the command has one home."""
import tempfile
from pathlib import Path

from tests.house.names import PACKAGE, homes_in, names_in


def test_each_name_of_the_command_has_one_home() -> None:
    assert {} == homes_in(PACKAGE)


def test_functions_classes_and_constants_are_names() -> None:
    text = "import os\nA, B = 1, 2\nC: int = 3\ndef d(): e = 4\nclass F: g = 5\nif A: h = 6\n"
    assert ["A", "B", "C", "d", "F"] == list(names_in(text))


def test_a_name_with_two_homes_is_found() -> None:
    with tempfile.TemporaryDirectory() as folder:
        Path(folder, "inner").mkdir()
        Path(folder, "a.py").write_text("def look(): pass\ndef run(): pass\n_LEAST = 1\nMOST = 2\n")
        Path(folder, "inner/b.py").write_text("look = 1\ndef run(): pass\n_LEAST = 1\nLEAST = 1\n")
        assert {"look": ["a.py", "inner/b.py"]} == homes_in(Path(folder))
