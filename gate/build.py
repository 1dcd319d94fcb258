"""Proves and builds the program as the gate does: `rt ci` in a copy of the program's crates, without must-fail edits.

`rt ci` keeps proofs on this machine by the checksums of all that it read. So after `make test` this proves nothing
again, and after this `make test` proves only the crates of tests. Nothing runs if the program is already made of these
files.
"""

import hashlib
import os
import shutil
import sys
import tempfile
from pathlib import Path

from gate import runs
from gate.edits import kit
from rattle.crates import below, crates_of

ROOT = Path(__file__).resolve().parent.parent
LOG = ROOT / "out" / "build.log"
PROGRAM = "rs_source"
BUILT = ROOT / "crates" / PROGRAM / "out" / PROGRAM
# The sum of the files that the program is made of, and its own: lines of `sha256sum`.
MADE_OF = BUILT.with_suffix(".made_of")


def copied(root: Path, room: str, names: list[str]) -> Path:
    """Copy these crates without must-fail edits, with their list, without ignored files; return the copy."""
    places = tuple(f"crates/{name}/" for name in names)
    copy = runs.copied(root, room, lambda file: file == "HANDLES" or (
        file.startswith(places) and "/must-fail/" not in file))
    lines = Path(root, "crates.txt").read_text().splitlines(keepends=True)
    listed = [line for line in lines if {*line.partition(":")[0].split()[:1]} & {*names}]
    Path(copy, "crates.txt").write_text("".join(listed))
    return copy


def sum_of(copy: Path) -> str:
    """Return a sum of everything that the program is made of: the files of a copy, and the kit."""
    total = hashlib.sha256(" ".join(kit.identity()).encode())
    for file in sorted(path for path in copy.rglob("*") if path.is_file()):
        total.update(f"{file.relative_to(copy)}\0{hashlib.sha256(file.read_bytes()).hexdigest()}\0".encode())
    return total.hexdigest()


def note(made_of: str, program: Path) -> str:
    """Return the note of a program: the sum of its files, and its own sum."""
    return f"{made_of}  its files and the kit\n{hashlib.sha256(program.read_bytes()).hexdigest()}  {program.name}\n"


def is_made(made_of: str) -> bool:
    """Return whether the program exists, and is made of these files."""
    return BUILT.is_file() and MADE_OF.is_file() and MADE_OF.read_text() == note(made_of, BUILT)


def take(copy: Path, made_of: str) -> None:
    """Move the program out of a copy, in one step, and write its note."""
    BUILT.parent.mkdir(parents=True, exist_ok=True)
    new = BUILT.with_suffix(".new")
    shutil.copyfile(copy / "crates" / PROGRAM / "out" / PROGRAM, new)
    new.chmod(0o755)
    MADE_OF.unlink(missing_ok=True)
    os.replace(new, BUILT)
    MADE_OF.write_text(note(made_of, BUILT))


def build(names: list[str], copy: Path, room: str) -> list[str]:
    """Prove and build in the copy; return the failures."""
    LOG.parent.mkdir(exist_ok=True)
    jobs = kit.lanes()
    what = f"make build: proves {len(names)} crates, those that no earlier run here proved, and builds the program."
    runs.announce(what, runs.proving(jobs), jobs, LOG)
    with runs.Meter(room) as meter:
        return runs.rt_ci(copy, names, LOG, meter.seconds)[1]


def main() -> int:
    """Builds the program, if it is not made of these files already; its path is printed last."""
    kit.require()
    names = [*below(crates_of(ROOT), PROGRAM), PROGRAM]
    with tempfile.TemporaryDirectory(prefix="build-") as room:
        # The toolchain runs programs as nobody, on copies below this folder.
        os.chmod(room, 0o711)
        copy = copied(ROOT, room, names)
        made_of = sum_of(copy)
        if not is_made(made_of):
            if failed := build(names, copy, room):
                print("\n".join(failed), file=sys.stderr)
                return 1
            take(copy, made_of)
    print(BUILT.relative_to(ROOT))
    return 0


if __name__ == "__main__":
    sys.exit(main())
