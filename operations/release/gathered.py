"""Gather the artifacts of a release in one folder, in one step, with their digests."""
from __future__ import annotations

import hashlib
import os
import shutil
import tempfile
from collections.abc import Callable, Sequence
from dataclasses import dataclass
from pathlib import Path

from operations.package.program_facts import Unfit

SUMS = "SHA256SUMS"
# Makes files in a folder of its own.
Make = Callable[[Path], None]


@dataclass(frozen=True)
class Part:
    """Some artifacts: their names, the programs among them, and the function that makes them."""

    names: tuple[str, ...]
    make: Make
    programs: tuple[str, ...] = ()


def digest(path: Path) -> str:
    """Return the SHA-256 of a file."""
    with path.open("rb") as file:
        return hashlib.file_digest(file, "sha256").hexdigest()


def take(part: Part, room: Path, to: Path) -> None:
    """Make the artifacts of a part, and take exactly the named ones."""
    folder = Path(tempfile.mkdtemp(prefix="part-", dir=room))
    part.make(folder)
    for name in part.names:
        made = folder / name
        if made.is_symlink() or not made.is_file():
            raise Unfit(f"{name} was not made")
        if (to / name).exists():
            raise Unfit(f"{name} was made twice")
        shutil.move(made, to / name)
        (to / name).chmod(0o755 if name in part.programs else 0o644)
    shutil.rmtree(folder)


def gather(parts: Sequence[Part], to: Path, moment: int) -> list[Path]:
    """Make all parts, and replace a folder by one with them and their digests."""
    to = to.absolute()
    to.parent.mkdir(parents=True, exist_ok=True)
    with tempfile.TemporaryDirectory(prefix=".release-", dir=to.parent) as name:
        room, new = Path(name), Path(name, "release")
        new.mkdir()
        for part in parts:
            take(part, room, new)
        files = sorted(new.iterdir())
        (new / SUMS).write_text("".join(f"{digest(path)}  {path.name}\n" for path in files))
        (new / SUMS).chmod(0o644)
        new.chmod(0o755)
        for path in [*new.iterdir(), new]:
            os.utime(path, (moment, moment))
        if to.exists():
            to.rename(room / "before")
        new.rename(to)
    return [*(to / path.name for path in files), to / SUMS]
