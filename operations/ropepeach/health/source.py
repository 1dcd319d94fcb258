"""The state of a source, by its lists and, if its file is on this machine, by the file."""
from __future__ import annotations

import argparse
import contextlib
import os
import re
import stat
import time
from dataclasses import dataclass
from typing import NamedTuple

from ropepeach.disk import formula
from ropepeach.faults import Fault, Misused, Silent
from ropepeach.health.capacity import FileContents, Quantity, changes_of, contents_of, file_system_of, resources_of
from ropepeach.http.client import Client
from ropepeach.resync.lists import Several, Source, Unheld, list_address, strict_moment
from ropepeach.resync.moments import milliseconds
from ropepeach.resync.sitemaps import Document

# How often a list is read if publications drop parts of it meanwhile.
LIST_READINGS = 3
# The suffix of the file of a verification, and how many of its bytes are read: a good one is a short line.
VERIFIED_SUFFIX, LONGEST_VERIFIED = ".verified", 65_536
GOOD = re.compile(r"verified [0-9]+\n")
# This many names are shown.
DAMAGED_SHOWN = 5
FLAGS = os.O_RDONLY | os.O_CLOEXEC | os.O_NOFOLLOW | os.O_NONBLOCK | os.O_NOCTTY


class Subject(NamedTuple):
    """A source to examine, and its file, if it is to be examined too."""

    url: str
    file: str = ""


class Verification(NamedTuple):
    """A verification of a source's file: its moment in milliseconds, whether every body was right, and else why not."""

    moment: int
    is_good: bool
    fault: str = ""


@dataclass
class SourceHealth:
    """The state of a source: whether it is up, or else the reason, and whether it answered `Closed`."""

    subject: Subject
    begun: float = 0.0
    fault: str = ""
    seconds: float = 0.0
    is_up: bool = False
    is_closed: bool = False
    change_count: int = 0
    published_count: int = 0
    # The moments of the last change and of the last publication, in milliseconds, or 0.
    changed: int = 0
    published: int = 0
    # The bytes that the file system has not reserved for the file, and its free bytes.
    unreserved: int | None = None
    free: int = 0
    size: int = 0
    file_fault: str = ""
    # What the file holds, and the use of its file system.
    contents: FileContents | None = None
    file_system: Quantity | None = None
    verification: Verification | None = None

    def ask(self, arguments: argparse.Namespace) -> None:
        """Request the lists of the source."""
        self.begun, started = time.time(), time.monotonic()
        try:
            source = Source(Client(self.subject.url, arguments.patience, arguments.certificate, arguments.max_time))
            self.change_count, changed = entry_count(source, "changelist", "datetime", "from")
            self.published_count, published = entry_count(source, "resourcelist", "at", "at")
            self.changed, self.published = milliseconds(changed), milliseconds(published)
            self.is_up = True
        except (Misused, Several):
            raise
        except Fault as fault:
            self.fault = " ".join(str(fault).replace(" for 0 seconds", "").split())
            self.is_closed = isinstance(fault, Silent) and self.fault.endswith("503 Closed")
        self.seconds = time.monotonic() - started

    def look(self) -> None:
        """Examine the file, if one is named."""
        if not self.subject.file:
            return
        try:
            status = os.stat(self.subject.file)
            self.unreserved, self.size = formula.unreserved(status), status.st_size
            self.free = formula.free_bytes(self.subject.file)
            self.file_system = file_system_of(self.subject.file)
            self.verification = last_verification(self.subject.file)
            self.contents = contents_of(self.subject.file, time.time_ns() // 1_000_000)
        except OSError as fault:
            self.file_fault = f"{self.subject.file} can't be looked at: {fault.strerror}"
        except Fault as fault:
            self.file_fault = f"{self.subject.file} can't be looked at: {' '.join(fault.lines())}"

    def quantities(self) -> list[Quantity]:
        """Return the bounded quantities: the resources by the file, or else as published."""
        by_file = self.contents.quantities if self.contents else []
        by_lists = [changes_of(self.change_count)] if self.is_up else []
        if self.is_up and not by_file:
            by_lists.append(resources_of(self.published_count, "published"))
        return [*by_lists, *by_file, *([self.file_system] if self.file_system else [])]


def examined(subject: Subject, arguments: argparse.Namespace) -> SourceHealth:
    """Examine a source."""
    finding = SourceHealth(subject)
    finding.ask(arguments)
    finding.look()
    return finding


def entry_count(source: Source, capability: str, last: str, front: str) -> tuple[int, str]:
    """Return the number of entries of a list, and the moment in the attribute `last` of its last entry, or in the
    attribute `front` of its head.
    """
    for turn in range(LIST_READINGS):
        head = source.document(list_address(source.lists, capability))
        try:
            return entry_count_once(source, head, last, front)
        except Unheld:
            # A publication dropped this part meanwhile.
            if turn == LIST_READINGS - 1:
                raise
    raise AssertionError


def entry_count_once(source: Source, head: Document, last: str, front: str) -> tuple[int, str]:
    """Count the entries of a list by its head: all parts but the last are as long as the first."""
    addresses = [part.loc for part in head.entries] if head.is_index else []
    entries = (source.document(addresses[-1]) if addresses else head).entries
    full = len(source.document(addresses[0]).entries) if len(addresses) > 1 else 0
    moment = entries[-1].attributes.get(last) if entries else None
    return full * (len(addresses) - 1) + len(entries), strict_moment(moment or head.attributes.get(front))


def last_verification(file: str) -> Verification | None:
    """Return the last verification of a source's file as recorded by the unit ropepeach-verify, or None."""
    try:
        number = os.open(file + VERIFIED_SUFFIX, FLAGS)
    except FileNotFoundError:
        return None
    with contextlib.closing(os.fdopen(number, "rb")) as record:
        status = os.fstat(number)
        if not stat.S_ISREG(status.st_mode):
            return Verification(0, False, f"{file}{VERIFIED_SUFFIX} is no regular file")
        text = record.read(LONGEST_VERIFIED + 1).decode("ascii", "replace")
    return Verification(status.st_mtime_ns // 1_000_000, bool(GOOD.fullmatch(text)), fault_of(text))


def fault_of(text: str) -> str:
    """Return a short text of a failed verification."""
    damaged = re.findall(r"(?m)^damaged (\S{1,240})$", text)
    if damaged:
        more = f" and {len(damaged) - DAMAGED_SHOWN:,} more" if len(damaged) > DAMAGED_SHOWN else ""
        return f"damaged {', '.join(damaged[:DAMAGED_SHOWN])}{more}{' at least' * (len(text) > LONGEST_VERIFIED)}"
    return f"it did not end: {' '.join(text.split())[:100] or 'it was stopped'}"
