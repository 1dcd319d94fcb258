"""Takes a source over from another machine, on a CephFS that both can mount: checks each step of
operations/docs/REPLICAS.md in turn.

It asks this machine's mount whether it caches old bytes, and the store whether OTHER is fenced and its copies
agree. Then it opens FILE, and prints the program's summary of it. It ends at the first step that is not done, and
fences, mounts and starts nothing. By default OTHER is lost: its whole address must be fenced, since it may
come back. With --planned OTHER has been shut down in order, and the store must be healthy.
"""
from __future__ import annotations

import argparse
import datetime
import os
import stat
import time
from collections.abc import Callable

from ropepeach.admin.programs import run_to_end
from ropepeach.admin.takeover_store import CephFS, Refused
from ropepeach.cli import numbers, output
from ropepeach.cli.statuses import Status
from ropepeach.faults import Unusable

SOCKETS, STEP_SECONDS = "/run/ceph", 60
# How many seconds the program may take to open a file, and to copy the longest one.
OPEN_SECONDS, COPY_SECONDS = 120, 3_600


def add_arguments(parser: argparse.ArgumentParser) -> None:
    """Add the arguments of the command."""
    parser.add_argument("file", metavar="FILE", help="the file of the source, on this machine's mount")
    parser.add_argument("other", metavar="OTHER",
                        help="the address of the machine that had the source, as the store knows it")
    parser.add_argument("--planned", action="store_true", help="OTHER has shut down its program and its mount")
    parser.add_argument("--copy", action="store_true",
                        help="the store's copies may differ: copy the source, and keep the old file")
    parser.add_argument("--dry-run", action="store_true", help="check each step, and copy nothing")
    parser.add_argument("--wait", metavar="SECONDS", type=numbers.seconds, default=STEP_SECONDS,
                        help=f"how long to wait for a step ({STEP_SECONDS})")
    parser.add_argument("--program", metavar="PROGRAM", default="rs_source",
                        help="the program that opens the file (rs_source)")
    parser.add_argument("--sockets", metavar="FOLDER", default=SOCKETS,
                        help=f"the folder of the sockets of this machine's mounts ({SOCKETS})")


def waited(step: Callable[[], str], seconds: float) -> str:
    """Retry a step until it is done, for this many seconds at most; return its text."""
    end = time.monotonic() + seconds
    while True:
        try:
            return step()
        except (Refused, Unusable):
            if time.monotonic() >= end:
                raise
        time.sleep(min(1, max(0, end - time.monotonic())))


def run_program(words: list[str], lines: str, seconds: float) -> tuple[str, str]:
    """Run the program; return its output, and its messages, which are empty if it did well."""
    process = run_to_end(*words, lines=lines, seconds=seconds, if_late="look at the store (ceph status)",
                         if_absent="name the program (--program)")
    failure = f"status {process.returncode}" if process.returncode else ""
    return process.stdout.strip(), process.stderr.strip() or failure


def contents(program: str, path: str) -> str:
    """Return the program's summary of a file."""
    answer, messages = run_program([program, "run", path], "status\n", OPEN_SECONDS)
    if answer.startswith("resources ") and not messages:
        return answer
    raise Refused(f"{path} does not open, {messages or answer or 'without a word'}: `ropepeach why {path}` "
                  "names a cause of Device; keep the file, and restore a backup, where it is Damaged or NotASource")


def copy_source(arguments: argparse.Namespace, wanted: str) -> str:
    """Copy the source, and replace the file by the copy; return the new name of the old file.

    Other users with write access to the folder may make links there meanwhile: the copy follows no link, and only the
    copy itself gets the owner of the old file.
    """
    where, name = os.path.split(os.path.abspath(arguments.file))
    made, now = f"{name}.taken-over", datetime.datetime.now(datetime.timezone.utc)
    old_name = f"{name}.before-{now:%Y%m%dT%H%M%SZ}"
    folder = os.open(where, os.O_RDONLY | os.O_DIRECTORY)
    try:
        old = regular(folder, name, where)
        for other in (made, old_name):
            if is_there(folder, other):
                raise Refused(f"{arguments.file}{other.removeprefix(name)} is there, of an earlier copy: "
                              "look at it, and move it away")
        if arguments.dry_run:
            return os.path.join(where, old_name)
        path = os.path.join(where, made)
        words = [arguments.program, "copy", arguments.file, path, str(old.st_size)]
        _, messages = run_program(words, "", COPY_SECONDS)
        if messages:
            raise Refused(f"the copy {path} failed, {messages}: remove it; the old file is as it was")
        give_away(folder, made, path, old)
        if (found := contents(arguments.program, path)) != wanted:
            raise Refused(f"the copy {path} holds {found}, and the old file {wanted}: start neither, and look at the "
                          "store")
        # (the name always has a file)
        os.link(name, old_name, src_dir_fd=folder, dst_dir_fd=folder, follow_symlinks=False)
        os.rename(made, name, src_dir_fd=folder, dst_dir_fd=folder)
        os.fsync(folder)
    finally:
        os.close(folder)
    return os.path.join(where, old_name)


def is_there(folder: int, name: str) -> bool:
    """Return whether an open folder has a file or a link of a name."""
    try:
        os.stat(name, dir_fd=folder, follow_symlinks=False)
    except FileNotFoundError:
        return False
    return True


def regular(folder: int, name: str, where: str) -> os.stat_result:
    """Return the status (stat(2)) of a regular file of an open folder."""
    found = os.stat(name, dir_fd=folder, follow_symlinks=False)
    if not stat.S_ISREG(found.st_mode):
        raise Refused(f"{os.path.join(where, name)} is a link, or no regular file: name the file itself")
    return found


def give_away(folder: int, name: str, path: str, old: os.stat_result) -> None:
    """Give the copy the owner and the mode of the old file."""
    try:
        file = os.open(name, os.O_RDWR | os.O_NOFOLLOW | os.O_NONBLOCK, dir_fd=folder)
    except OSError as fault:
        raise Refused(f"{path} is not the copy that was made, {fault.strerror}: somebody else changes this "
                      "folder") from None
    try:
        found = os.fstat(file)
        if not stat.S_ISREG(found.st_mode) or found.st_nlink != 1 or found.st_uid != os.geteuid():
            raise Refused(f"{path} is not the copy that was made: somebody else changes this folder")
        os.fchown(file, old.st_uid, old.st_gid)
        os.fchmod(file, old.st_mode & 0o7777)
    finally:
        os.close(file)


def done(step: str, what: str) -> None:
    """Print the line of a step that is done."""
    output.result(f"{step}: {what}", step=step, what=what)


def take_steps(arguments: argparse.Namespace) -> None:
    """Do the steps in order, and print a line for each."""
    if not os.path.exists(arguments.file):
        raise Unusable(f"{arguments.file}: there is no such file: mount the store's file system first")
    store = CephFS(arguments.file, arguments.sockets)
    done("mount", store.look_at_mount(arguments.other))
    done("fence", waited(lambda: store.look_at_fence(arguments.other, arguments.planned), arguments.wait))
    done("copies", waited(lambda: store.look_at_copies(arguments.planned), arguments.wait))
    holds = waited(lambda: contents(arguments.program, arguments.file), arguments.wait)
    if arguments.copy:
        done("copy", f"the old file {'would be' if arguments.dry_run else 'is'} {copy_source(arguments, holds)}")
        holds = contents(arguments.program, arguments.file)
    done("source", holds)


def run(arguments: argparse.Namespace) -> int:
    """Check each step; return the exit status."""
    try:
        take_steps(arguments)
    except OSError as fault:
        raise Unusable(fault) from None
    except (LookupError, TypeError, ValueError, AttributeError) as fault:
        raise Unusable(f"the store answers in a form that is not known: {type(fault).__name__} {fault}") from None
    if not arguments.dry_run:
        output.result(f"every step is done: start the program (systemctl start ropepeach), and move the "
                      f"address of {arguments.other}")
    return Status.DONE
