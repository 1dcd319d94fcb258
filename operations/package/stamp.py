"""The stamp of a built program: the commit and the prover from which `make build` made it. A package needs a stamp.

usage: python3 -m operations.package.stamp PROGRAM     writes PROGRAM.stamp; `make build` calls it
"""
from __future__ import annotations

import dataclasses
import hashlib
import json
import os
import subprocess
import sys
from pathlib import Path

from operations.package.program_facts import Unfit

ROOT = Path(__file__).resolve().parents[2]
# The timeout of git and of the kit, in seconds.
SECONDS = 60


@dataclasses.dataclass(frozen=True)
class Stamp:
    """A program's SHA-256, its commit, whether there were uncommitted changes, its date, and its prover."""

    sha256: str
    commit: str
    has_changes: bool
    date: int
    kit: str

    def write(self, program: Path) -> None:
        """Write the stamp next to its program."""
        path_of(program).write_text(json.dumps(dataclasses.asdict(self), indent=2) + "\n")


def path_of(program: Path) -> Path:
    """Return the path of a program's stamp."""
    return program.with_name(f"{program.name}.stamp")


def digest(program: Path) -> str:
    """Return the SHA-256 of a program."""
    return hashlib.sha256(program.read_bytes()).hexdigest()


def read(program: Path) -> Stamp:
    """Return the stamp of a program, which must match its bytes."""
    if not program.is_file():
        raise Unfit(f"there is no program yet, {program}: make build")
    path = path_of(program)
    try:
        stamp = Stamp(**json.loads(path.read_text()))
    except FileNotFoundError:
        raise Unfit(f"{program} has no stamp ({path.name}), so nobody knows of which commit it is: make "
                    f"build") from None
    except (OSError, ValueError, TypeError) as fault:
        raise Unfit(f"{path} is no stamp of `make build`: {type(fault).__name__}") from None
    if stamp.sha256 != digest(program):
        raise Unfit(f"{program} is not the program that its stamp is of: make build")
    return stamp


def git(*words: str) -> str:
    """Return the output of git about the repository, or nothing without a repository."""
    process = subprocess.run(["git", "-C", ROOT, *words], capture_output=True, text=True, timeout=SECONDS)
    return process.stdout.strip() if process.returncode == 0 else ""


def kit() -> str:
    """Return the kit's line with its name and logic."""
    try:
        words = [os.environ.get("RT", "rt"), "version"]
        return subprocess.run(words, capture_output=True, text=True, check=True,
                              timeout=SECONDS).stdout.strip()
    except (OSError, subprocess.SubprocessError):
        raise Unfit("there is no rt here, which tells by which prover the program was proved") from None


def made(program: Path, prover: str) -> Stamp:
    """Return the stamp of a program that was built from the current repository."""
    changes = git("status", "--porcelain", "--untracked-files=no")
    return Stamp(digest(program), git("rev-parse", "HEAD"), bool(changes),
                 int(git("log", "-1", "--format=%ct") or 0), prover)


def main() -> str | None:
    """Write a stamp, or return an error text."""
    program = Path(sys.argv[1])
    try:
        made(program, kit()).write(program)
    except (Unfit, OSError) as why:
        return f"package: {why}"
    return None


if __name__ == "__main__":
    sys.exit(main())
