"""Return the stamp of a program for tests that make packages: its own, or a stamp made by a test."""
from __future__ import annotations

from pathlib import Path

from operations.package import stamp
from operations.package.program_facts import Unfit

KIT = "none: a test made this stamp, and nobody proved the program"


def stamp_of(program: Path | str) -> stamp.Stamp:
    """Return the stamp of a program."""
    try:
        return stamp.read(Path(program))
    except Unfit:
        return stamp.made(Path(program), KIT)
