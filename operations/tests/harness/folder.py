"""Read the folder of a mirror as its user does: files by resource, and the lines of --on-change."""
from __future__ import annotations

import json
import pathlib
import re
from typing import Any

from operations.tests.harness.command import FOLDER
from operations.tests.harness.source import FakeSource

# Replacements in file names for characters that a file name cannot have.
ESCAPE = re.compile(r"!([0-9A-F]{2})")


def files_in(folder: pathlib.Path) -> dict[str, bytes]:
    """Return the files of a folder by path, without the mirror's own (`#...` at the top)."""
    found = {path.relative_to(folder).as_posix(): path for path in folder.rglob("*") if path.is_file()}
    return {name: path.read_bytes() for name, path in sorted(found.items()) if not name.startswith("#")}


class Mirror:
    """The folder of a mirror, and the lines written by --on-change."""

    def __init__(self, folder: pathlib.Path, name: str = FOLDER) -> None:
        self.path = folder / name
        self.lines = folder / f"{name}.lines"
        # Options that append the lines of --on-change to a file.
        self.on_change = ("--on-change", f"cat >> '{self.lines}'")

    def place(self, source: FakeSource, name: str) -> pathlib.Path:
        """Return the path of the file of a resource (plain names only)."""
        return self.path / f"http+{source.base.removeprefix('http://')}{source.style.resources}{name}"

    def held(self, source: FakeSource) -> dict[str, bytes]:
        """Return the files of a source's set by name; any other file is named by its path in the folder."""
        front = f"http+{source.base.removeprefix('http://')}{source.style.resources}"
        return {plain(name.removeprefix(front)): body for name, body in files_in(self.path).items()}

    def damage(self, path: pathlib.Path) -> bytes:
        """Invert the first byte of a file, without a change of its length; return its old bytes."""
        body = path.read_bytes()
        path.write_bytes(bytes([body[0] ^ 0xFF]) + body[1:])
        return body

    def reported(self) -> list[dict[str, Any]]:
        """Return the changes that --on-change reported, in order."""
        text = self.lines.read_text() if self.lines.exists() else ""
        return [json.loads(line) for line in text.splitlines()]

    def changes(self, source: FakeSource) -> list[tuple[str, str]]:
        """Return the pairs of change and name that --on-change reported."""
        front = source.url("")
        return [(line["change"], line["address"].removeprefix(front)) for line in self.reported()]


def plain(name: str) -> str:
    """Return the name of a resource from the name of its file."""
    return ESCAPE.sub(lambda found: chr(int(found[1], 16)), name)
