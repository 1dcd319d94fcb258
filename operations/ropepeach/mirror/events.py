"""The changes of a mirror's files, for a program that follows them: JSON lines in the file `#changes`, until the
command of --on-change takes them.

A run writes the lines before its state, and then runs the command. After a stop the next run writes them again, so that
the command gets every change at least once.
"""
from __future__ import annotations

import json
import os
import shutil
from collections.abc import Iterable
from typing import IO

from ropepeach.cli import output
from ropepeach.faults import Fault
from ropepeach.mirror.catalogue import Row
from ropepeach.mirror.folder import Folder
from ropepeach.mirror.tree import PIECE
from ropepeach.resync.places import address_at

CHANGES_FILE = "#changes"
CREATED, UPDATED, DELETED = "created", "updated", "deleted"
STANDARD_ERROR = 2
News = dict[str, object]


def change_between(before: Row | None, after: Row | None) -> str:
    """Return the change of a file between two rows, or an empty text."""
    if before is None or after is None:
        return "" if before is after else CREATED if before is None else DELETED
    facts = [(row.modified, row.kind, row.length, row.sha256) for row in (before, after)]
    return UPDATED if facts[0] != facts[1] else ""


class Events:
    """The changes of a run, for a command or --json."""

    def __init__(self, folder: Folder, base: str, command: str | None) -> None:
        """Store the settings. `base` is the base of a Ropepeach, whose rows have no addresses."""
        self.folder, self.base, self.command = folder, base, command
        self.is_wanted = command is not None or output.current.journal is not None
        # Changes that are not reported yet.
        self.waiting: list[tuple[str, Row]] = []

    def note(self, change: str, row: Row) -> None:
        """Note a change, unless its text is empty."""
        if change and self.is_wanted:
            self.waiting.append((change, row))

    def news_of(self, change: str, row: Row) -> News:
        """Return the report of a change."""
        address = row.address or (f"{self.base}/resource/{row.place}" if self.base else address_at(row.place))
        news: News = {"change": change, "name": row.place, "path": self.folder.place(row.place), "address": address,
                      "moment": row.modified}
        return news | ({} if change == DELETED else {"length": row.length, "sha256": row.sha256.hex(),
                                                     "type": row.kind})

    def report(self) -> None:
        """Report the changes, for the command in `#changes`."""
        if not self.waiting:
            return
        news = [self.news_of(change, row) for change, row in self.waiting]
        self.waiting.clear()
        if self.command is not None:
            self.folder.write_own(CHANGES_FILE, lambda file: self.write(file, news))
        if output.current.journal is not None:
            for line in news:
                output.results((), line)

    def write(self, file: IO[bytes], news: Iterable[News]) -> None:
        """Write the lines that the command has not taken yet, and these."""
        if self.folder.tree.is_there(CHANGES_FILE):
            with open(self.folder.tree.regular(CHANGES_FILE), "rb") as earlier:
                shutil.copyfileobj(earlier, file, PIECE)
        file.writelines(json.dumps(line).encode() + b"\n" for line in news)

    def hand_over(self) -> None:
        """Run the command with the lines of `#changes`, if there are any."""
        if self.command is None or not self.folder.is_open or not self.folder.tree.is_there(CHANGES_FILE):
            return
        with open(self.folder.tree.regular(CHANGES_FILE), "rb") as file:
            if os.fstat(file.fileno()).st_size:
                # (few runs have a command)
                import subprocess

                # (standard output is for the results of this run)
                status = subprocess.run(self.command, shell=True, stdin=file, stdout=STANDARD_ERROR).returncode
                if status:
                    raise Fault(f"the command of --on-change ended with status {status}: the next run gives it "
                                f"the same lines")
        self.folder.tree.remove(CHANGES_FILE)
        os.fsync(self.folder.tree.top)

    def hand_over_what_is_left(self) -> None:
        """Run the command after a failed run, whose fault is the more important one."""
        try:
            self.hand_over()
        except Fault as why:
            output.message(str(why))
