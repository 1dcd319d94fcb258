"""Test the check of imports for cycles."""
import tempfile
from pathlib import Path

from tests.house import imports


def test_the_files_of_python_have_no_fault() -> None:
    assert imports.faults() == []


def test_python_is_known_without_its_suffix() -> None:
    assert imports.is_python(imports.DEMO)
    with tempfile.TemporaryDirectory() as room:
        for name, text, wanted in (("a.py", "", True), ("a", "#!/usr/bin/env python3\n", True),
                                   ("a.sh", "#!/bin/sh\npython3\n", False), ("a.script", "put a 61 b/c\n", False)):
            file = Path(room, name)
            file.write_text(text)
            assert imports.is_python(file) == wanted, name


def test_each_package_is_looked_at() -> None:
    found = {module.partition(".")[0] for module in imports.ours(imports.FILES)}
    assert found == {"bench", "gate", "operations", "rattle", "ropepeach", "rust", "statement", "tests"}


def found(**texts: str) -> set[str]:
    """Return the modules of a cycle in a package of files with these texts."""
    with tempfile.TemporaryDirectory() as room:
        files = [Path(room, "p", f"{name}.py") for name in texts]
        files[0].parent.mkdir()
        for file, text in zip(files, texts.values()):
            file.write_text(text)
        return set(imports.cycle_in(imports.ours(files, Path(room))))


def test_a_cycle_is_found_of_each_length_and_form() -> None:
    assert found(a="import p.b", b="import p.a") == {"p.a", "p.b"}
    assert found(a="from p import b", b="from p.c import x", c="from p.a import y") == {"p.a", "p.b", "p.c"}


def test_an_import_within_a_function_counts() -> None:
    assert found(a="from p import b", b="def run():\n    from p import a\n") == {"p.a", "p.b"}


def test_what_is_no_cycle_is_none() -> None:
    assert found(a="from p import b, c", b="from p import c", c="import sys", __init__="from p import a") == set()
