"""A sample crate, repositories of these crates, and the tables in texts/, for the tests of the gate."""

import contextlib
import subprocess
import tempfile
from collections.abc import Iterator
from pathlib import Path

HERE = Path(__file__).resolve().parent

def text(name: str) -> str:
    """Return the text of this name in texts/."""
    return (HERE / "texts" / f"{name}.txt").read_text()


def rows(name: str) -> list[list[str]]:
    """Return the rows of a table after its first line, which names the columns."""
    return [[cell.strip() for cell in row.split(" |")] for row in text(name).splitlines()[1:]]


# A crate, and a crate above it.
CODE, ABOVE = text("sample"), text("above")


@contextlib.contextmanager
def repository(**crates: str) -> Iterator[str]:
    """Yield a repository of these crates, with one edit per crate; a crate uses all crates before it."""
    names = [*crates]
    with tempfile.TemporaryDirectory() as room:
        write("".join(f"{name}: {' '.join(names[:at])}\n" for at, name in enumerate(names)), room, "crates.txt")
        for name, code in crates.items():
            write(code, room, "crates", name, "src/lib.rt")
            write_edit(room, name, "one", "a", "b")
        write("", room, "gate/edits/goals.txt")
        yield room


def write(text: str, *path: str | Path) -> Path:
    """Write a text to the file of this path, and make its folders."""
    file = Path(*path)
    file.parent.mkdir(parents=True, exist_ok=True)
    file.write_text(text)
    return file


def write_program(text: str, *path: str | Path) -> None:
    """Write a shell program."""
    write(f"#!/bin/sh\n{text}", *path).chmod(0o755)


def write_edit(room: str, crate: str, name: str, old: str, new: str) -> None:
    """Write an edit of a crate."""
    write(f"file: src/lib.rt\nold: {old}\nnew: {new}\n", room, "crates", crate, "must-fail", f"{name}.edit")


def commit(folder: Path, subject: str) -> None:
    """Commit all files of a folder."""
    author = ["-c", "user.name=a", "-c", "user.email=a@example.org", "-c", "commit.gpgsign=false"]
    for words in (["init", "-q"], ["add", "-A"], [*author, "commit", "-q", "-m", subject]):
        subprocess.run(["git", *words], cwd=folder, check=True, capture_output=True)
