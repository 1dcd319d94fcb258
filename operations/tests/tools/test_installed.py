"""Test that `ropepeach look` names the program of a machine by its digest in the file PROVED of a package."""
from __future__ import annotations

import hashlib
import os
from collections.abc import Callable
from pathlib import Path
from unittest import mock

import pytest

from operations.package import rules
from operations.tests.tools.command_runs import json_of, lines_of, run_command
from ropepeach.disk import installed
from tests.disks import disks

PROGRAM = b"\x7fELF a program"
OTHER = b"\x7fELF another"


def digest(content: bytes) -> str:
    """Return the SHA-256 of some bytes."""
    return hashlib.sha256(content).hexdigest()


def page(package: str, built: bytes, packed: bytes) -> str:
    """Return the file PROVED of a package."""
    text = rules.PLAIN_TEXT if package == "ropepeach-plain" else rules.TEXT
    return text.format(version="0.1.0", commit="c" * 40, changes="", date="today", kit="rustc 1.0", machine="arm64",
                       built=digest(built), packed=digest(packed), needs="no C library")


def machine(room: Path, program: bytes | None, **pages: str) -> installed.Installed | None:
    """Return the program of a machine with this program and these packages."""
    for name in ("bin", "doc"):
        (room / name).mkdir(exist_ok=True)
    if program is not None:
        (room / "bin/rs_source").write_bytes(program)
        (room / "bin/rs_source").chmod(0o755)
    for package, text in pages.items():
        folder = room / "doc" / package.replace("_", "-")
        folder.mkdir(exist_ok=True)
        (folder / "PROVED").write_text(text)
    with mock.patch.dict(os.environ, PATH=str(room / "bin")), mock.patch.object(installed, "DOCUMENTS", room / "doc"):
        return installed.program()


@pytest.mark.parametrize("content, package, is_proved, words", [
    (PROGRAM, "ropepeach", True, "proved"), (OTHER, "ropepeach-plain", False, "the plain build, not proved"),
    (b"unstripped", "", False, "of no package"), (b"", "", False, "of no package"),
    (b"\x7fELF", "", False, "of no package")])
def test_a_program_has_the_name_of_its_package(content: bytes, package: str, is_proved: bool, words: str,
                                               room: Path) -> None:
    """The file PROVED of the package has the digest of the program."""
    assert machine(room, None) is None
    found = machine(room, content, ropepeach=page("ropepeach", b"unstripped", PROGRAM),
                    ropepeach_plain=page("ropepeach-plain", b"unstripped", OTHER))
    assert found and (found.package, found.is_proved) == (package, is_proved)
    assert words in found.text


RIGHT, EMPTY = page("ropepeach", b"unstripped", PROGRAM), page("ropepeach", b"", b"")
WRONG_PAGES = {
    "another digest": page("ropepeach", PROGRAM, OTHER), "other words": RIGHT.replace("in the package", "as it was"),
    "cut": RIGHT[:-170], "no text": "", "zeros": "\0" * 100,
    "a shorter digest": RIGHT.replace(digest(PROGRAM), digest(PROGRAM)[:-1]),
    "upper case": RIGHT.replace(digest(PROGRAM), digest(PROGRAM).upper()),
    "a longer digest": RIGHT.replace(digest(PROGRAM), digest(PROGRAM) + "0"),
    "a space": RIGHT.replace("SHA-256 of the program in", " SHA-256 of the program in"),
    "too long": " " * installed.LARGEST_PAGE + RIGHT, "no program": EMPTY,
}


@pytest.mark.parametrize("text", WRONG_PAGES.values(), ids=WRONG_PAGES)
def test_a_wrong_page_makes_no_program_proved(text: str, room: Path) -> None:
    """The program belongs to no package."""
    found = machine(room, PROGRAM, ropepeach=text)
    assert found and not found.package and not found.is_proved


@pytest.mark.parametrize("make", [Path.mkdir, os.mkfifo])
def test_a_page_that_is_no_file_makes_no_program_proved(make: Callable[[Path], object], room: Path) -> None:
    """The page is a folder or a pipe."""
    (room / "doc/ropepeach").mkdir(parents=True)
    make(room / "doc/ropepeach/PROVED")
    found = machine(room, PROGRAM)
    assert found and not found.package


def test_an_empty_or_too_long_program_is_not_proved(room: Path) -> None:
    """The page has the digest of the empty or too long program."""
    assert machine(room, b"", ropepeach=EMPTY) == installed.Installed(str(room / "bin/rs_source"), "", False)
    with mock.patch.object(installed, "LARGEST", len(PROGRAM) - 1):
        found = machine(room, PROGRAM, ropepeach=RIGHT)
    assert found and not found.package


def test_look_prints_the_program(room: Path) -> None:
    """The JSON object has the path, the package and whether the program is proved."""
    disks.disk(room, "after_update", "a.disk")
    (room / "bin").mkdir()
    (room / "bin/rs_source").write_bytes(PROGRAM)
    (room / "bin/rs_source").chmod(0o755)
    with mock.patch.dict(os.environ, PATH=f"{room}/bin:{os.environ['PATH']}"):
        lines = lines_of(run_command("look", str(room / "a.disk")))
        found = json_of("look", str(room / "a.disk"), "--json")["program"]
    assert f"program: {room}/bin/rs_source, of no package: nobody says whether it is proved" in lines, f"{lines}"
    assert found == {"path": f"{room}/bin/rs_source", "package": "", "is_proved": False}, f"{found}"
