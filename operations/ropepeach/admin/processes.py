"""The processes that have a file locked or open, or that listen on a port, by the tables of /proc (proc(5)).

A line of a table may be outdated: the process that took a lock may have ended and left it to a child. So a
process counts only if it has the file, or the socket, open; if its open files cannot be read, the table decides.
"""
from __future__ import annotations

import contextlib
import os
import pathlib
from collections.abc import Callable, Iterator

# The state of a listening socket, and the addresses that occupy 127.0.0.1: itself, and any.
LISTEN_STATE = "0A"
LOOPBACK_TAKERS = {"0100007F", "00000000", "0" * 32, "0000000000000000FFFF00000100007F"}


class Unseen(Exception):
    """A process whose open files only its own user, or root, may read."""


class Processes:
    """The processes of this machine, as far as the current user may read them."""

    def __init__(self, proc: str | os.PathLike[str] = "/proc") -> None:
        self.proc = pathlib.Path(proc)

    def lines(self, table: str) -> list[str]:
        """Return the lines of a table; they are empty if the table is missing."""
        try:
            return (self.proc / table).read_text().splitlines()
        except OSError:
            return []

    def numbers(self) -> list[int]:
        """Return the numbers of all processes."""
        return [int(folder.name) for folder in self.proc.iterdir() if folder.name.isdigit()]

    def open_files(self, number: int) -> list[pathlib.Path]:
        """Return the paths below /proc of the open files of a process; an ended process has no paths."""
        try:
            return list((self.proc / str(number) / "fd").iterdir())
        except PermissionError:
            raise Unseen from None
        except OSError:
            return []

    def has_open(self, number: int, is_it: Callable[[pathlib.Path], bool]) -> bool:
        """Return whether a process has an open file for which `is_it` is true."""
        for path in self.open_files(number):
            # (files are closed meanwhile)
            with contextlib.suppress(OSError):
                if is_it(path):
                    return True
        return False

    def find(self, is_it: Callable[[pathlib.Path], bool]) -> int:
        """Return the first process with an open file for which `is_it` holds, or 0."""
        for number in self.numbers():
            with contextlib.suppress(Unseen):
                if self.has_open(number, is_it):
                    return number
        return 0

    def lockers(self, file: os.stat_result) -> Iterator[tuple[int, bool]]:
        """Yield the processes that /proc/locks has for a file, and whether their line has the file's device.

        A file system of several devices may have another device there. A line with an arrow after its number
        waits for a lock.
        """
        for line in self.lines("locks"):
            words = line.split()
            if len(words) == 8 and words[1] == "FLOCK":
                major, minor, inode = words[5].split(":")
                if int(inode) == file.st_ino:
                    yield int(words[4]), os.makedev(int(major, 16), int(minor, 16)) == file.st_dev

    def locker(self, file: os.stat_result) -> int | None:
        """Return the process that has locked a file: None if the table has no lock, 0 if the process is unknown."""
        def is_file(path: pathlib.Path) -> bool:
            """Return whether an open file is this one."""
            return os.path.samestat(path.stat(), file)

        listed: int | None = None
        for number, is_device in self.lockers(file):
            try:
                if self.has_open(number, is_file):
                    return number
                # The process has ended, or its number belongs to another one.
                listed = listed or (0 if is_device else None)
            except Unseen:
                listed = number if is_device else listed
        return self.find(is_file) if listed == 0 else listed

    def listener(self, port: int) -> int | None:
        """Return the process that listens on a port of 127.0.0.1: None if the port is free, 0 if it is unknown."""
        for table in ("net/tcp", "net/tcp6"):
            for words in (line.split() for line in self.lines(table)[1:]):
                address, _, number = words[1].partition(":")
                if words[3] == LISTEN_STATE and int(number, 16) == port and address in LOOPBACK_TAKERS:
                    return self.find(lambda path: os.readlink(path) == f"socket:[{words[9]}]")
        return None

    def describe(self, number: int | None) -> str:
        """Return a process on one line: its number, its command and its unit of systemd."""
        if not number:
            return "a process that can't be seen from here (root sees more, and outside of a container)"
        try:
            line = (self.proc / str(number) / "cmdline").read_bytes()
            words = line.replace(b"\0", b" ").decode(errors="replace").split()
        except OSError:
            words = ["ended", "meanwhile"]
        unit = self.unit(number)
        return f"process {number} ({' '.join(words)[:100] or 'of the system'}{', of ' + unit if unit else ''})"

    def unit(self, number: int | None) -> str:
        """Return the systemd unit of a process, or an empty text."""
        return next((line.rpartition("/")[2] for line in self.lines(f"{number}/cgroup")
                     if line.endswith(".service")), "")
