"""The installed program of Ropepeach: the package's proved program, the plain program, or another program."""
from __future__ import annotations

import hashlib
import os
import re
import stat
from dataclasses import dataclass
from pathlib import Path

PROGRAM, DOCUMENTS = "rs_source", Path("/usr/share/doc")
# The packages with programs, and their command lines.
PACKAGES = {"ropepeach": "proved", "ropepeach-plain": "the plain build, not proved"}
# No program of ours, and no page about it, is larger.
LARGEST, LARGEST_PAGE = 64 << 20, 1 << 16
DIGEST = re.compile(r"^SHA-256 of the program in the package: +([0-9a-f]{64})$", re.MULTILINE)


@dataclass(frozen=True)
class Installed:
    """A program: its path, its package, and whether its functions are proved."""

    path: str
    package: str
    is_proved: bool

    @property
    def text(self) -> str:
        """Return the line about the program."""
        if not self.package:
            return f"program: {self.path}, of no package: nobody says whether it is proved"
        return f"program: {self.path}, of the package {self.package}: {PACKAGES[self.package]}"


def read_up_to(path: Path, size: int) -> bytes:
    """Return the bytes of a file, empty if it is no regular file, unreadable or larger."""
    try:
        with open(os.open(path, os.O_RDONLY | os.O_NONBLOCK), "rb") as file:
            if not stat.S_ISREG(os.fstat(file.fileno()).st_mode):
                return b""
            content = file.read(size + 1)
    except OSError:
        return b""
    return content if len(content) <= size else b""


def digest_in(page: bytes) -> str:
    """Return the digest of a package's program, by the package's page PROVED."""
    match = DIGEST.search(page.decode(errors="replace"))
    return match[1] if match else ""


def program_path() -> str:
    """Return the path by which a shell finds the program, or an empty text."""
    # (few runs get here)
    import shutil

    return shutil.which(PROGRAM) or ""


def program() -> Installed | None:
    """Return the program that a shell finds, if there is one."""
    path = program_path()
    if not path:
        return None
    content = read_up_to(Path(path), LARGEST)
    digest = hashlib.sha256(content).hexdigest()
    for package in PACKAGES:
        if content and digest_in(read_up_to(DOCUMENTS / package / "PROVED", LARGEST_PAGE)) == digest:
            return Installed(path, package, package == "ropepeach")
    return Installed(path, "", False)
