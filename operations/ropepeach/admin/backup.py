"""Copies the file of a source of this machine, also while it is served, and verifies the copy.

The copy is the file at one moment: a clone if the file system shares blocks (reflink); else the program is stopped
(SIGSTOP) while its file is copied, and requests wait. The copy gets its name after it was opened and its bodies were
compared with their digests.
"""
from __future__ import annotations

import argparse
import contextlib
import os
import re
import signal
import subprocess
import time
from collections.abc import Iterator
from pathlib import Path

from ropepeach.admin import machine
from ropepeach.admin.programs import run_to_end
from ropepeach.cli import output
from ropepeach.cli.files import file_at
from ropepeach.cli.statuses import Status
from ropepeach.faults import Fault, Unusable, printable

# The last line of a verification: the number of bodies.
VERIFIED = re.compile(r"verified (\d+)")
VERIFY_SECONDS = 24 * 3600
# How long a program may take to stop, and the seconds between looks.
STOP_SECONDS, STOP_PAUSE = 30, 0.02
# A second process: it reads a pipe that only this process can close, at its end at the latest, and then lets the
# program go on.
GUARD = 'cat > /dev/null; kill -CONT "$1"'
PROGRAM_ENDED = "the source's program ended meanwhile; run it again"


def add_arguments(parser: argparse.ArgumentParser) -> None:
    """Add the arguments of the command."""
    machine.add_source(parser)
    parser.add_argument("to", metavar="TO", help="the file of the copy, which must not exist")
    parser.add_argument("--dry-run", action="store_true", help="check whether the copy can be made, and make none")


def main_process(unit: str) -> int | None:
    """Return the process of a unit's program, or None if it does not run."""
    ended = run_to_end("systemctl", "show", "--property=MainPID", "--value", unit)
    if ended.returncode:
        raise Fault(f"{unit}: can't be asked for: {ended.stderr.strip()}")
    shown = ended.stdout.strip()
    return int(shown) if shown.isdecimal() and int(shown) else None


def process_state(process: int) -> str:
    """Return the letter of a process's state (proc(5)). Raise `Fault` if the process has ended."""
    try:
        return Path(f"/proc/{process}/stat").read_text("ascii", "replace").rpartition(")")[2].split()[0]
    except (OSError, IndexError):
        raise Fault(PROGRAM_ENDED) from None


def wait_until_still(process: int) -> None:
    """Wait until every thread of a process has stopped after SIGSTOP."""
    end = time.monotonic() + STOP_SECONDS
    while process_state(process) not in ("T", "t"):
        if time.monotonic() > end:
            raise Fault(f"the source's program did not stop within {STOP_SECONDS} seconds; nothing was copied")
        time.sleep(STOP_PAUSE)


@contextlib.contextmanager
def held_still(process: int | None) -> Iterator[None]:
    """Stop a process (SIGSTOP) during a `with` block, and continue it even if this process dies."""
    if process is None:
        yield
        return
    guard = subprocess.Popen(["sh", "-c", GUARD, "sh", str(process)], stdin=subprocess.PIPE, start_new_session=True)
    assert guard.stdin is not None
    try:
        os.kill(process, signal.SIGSTOP)
        wait_until_still(process)
        yield
    except ProcessLookupError:
        raise Fault(PROGRAM_ENDED) from None
    finally:
        guard.stdin.close()
        guard.wait()


def copy_at_one_moment(source: Path, copy: int, unit: str) -> None:
    """Copy the file of a unit's program into an open file: a clone if the file system can make one."""
    words = ("--", str(source), f"/proc/self/fd/{copy}")
    if not run_to_end("cp", "--reflink=always", *words, open_files=[copy]).returncode:
        return
    with held_still(main_process(unit)):
        ended = run_to_end("cp", "--sparse=always", *words, open_files=[copy])
    if ended.returncode:
        raise Fault(f"{source}: can't be copied: {printable(ended.stderr.strip())}")


def tested(file: Path, prefix: tuple[str, ...] = (), copy: int | None = None) -> str:
    """Open a copy and compare each body with its digest; return the program's summary.

    The copy is at the path of a file, or it is an open file that is going to be there.
    """
    path, open_files = (str(file), []) if copy is None else (f"/proc/self/fd/{copy}", [copy])
    ended = run_to_end(*prefix, "rs_source", "run", path, lines="status\nverify\n", seconds=VERIFY_SECONDS,
                       open_files=open_files)
    if ended.returncode:
        raise Fault(f"{file}: the copy does not open: {printable(ended.stderr.strip())}")
    status, *bodies = ended.stdout.splitlines() or [""]
    damaged = [line.partition(" ")[2] for line in bodies if line.startswith("damaged ")]
    if damaged:
        names = ", ".join(damaged[:5]) + (" .." if len(damaged) > 5 else "")
        raise Fault(f"{file}: {len(damaged)} damaged: {names}: put these again, then make the copy again")
    if not bodies or not VERIFIED.fullmatch(bodies[-1]):
        raise Fault(f"{file}: its bodies were not compared: {bodies[-1] if bodies else 'no answer'}")
    return f"{status}; {bodies[-1]}"


def run(arguments: argparse.Namespace) -> int:
    """Make the copy, verify it, and give it its name."""
    machine.wants("systemctl", "rs_source", "cp")
    place, to = machine.Place(arguments.name), Path(arguments.to)
    file = place.served().file
    if os.path.lexists(to):
        raise Unusable(f"{to} is there already: name another file")
    if not to.parent.is_dir():
        raise Unusable(f"{to.parent}: there is no such folder")
    if arguments.dry_run:
        output.result(f"copy {file} to {to}, {os.stat(file).st_size:,} bytes, and compare each body with its digest")
        return Status.DONE
    try:
        with file_at(to, is_new=True, mode=0o600) as copy:
            copy_at_one_moment(file, copy.fileno(), place.unit())
            output.message(f"{to}: copied; now each body is compared with its digest")
            summary = tested(to, copy=copy.fileno())
    except FileExistsError:
        raise Unusable(f"{to} is there already: name another file") from None
    except FileNotFoundError:
        raise Unusable(f"{to}: another program changes the folder: take a folder of root") from None
    output.result(f"{to}: {summary}")
    return Status.DONE
