"""The bounded quantities of a source, and how much of each is used."""
from __future__ import annotations

import os
from collections.abc import Iterator
from typing import NamedTuple

from ropepeach.disk import formula
from ropepeach.http.response import REMEDIES, TOO_MANY_CHANGES

# The percentages of a quantity from which its use is a warning, and critical.
WARNING, CRITICAL = 90, 98
# The longest body of this many milliseconds must fit again.
RECENT, RECENT_TEXT = 30 * 86_400_000, "30 days"


class Quantity(NamedTuple):
    """A bounded quantity: the name of its figure and the word for its use, how much is used of how much, the refusal
    if nothing is left, its remedy, and the amounts from which the use is a warning, and critical.
    """

    name: str
    word: str
    text: str
    used: int
    most: int
    refusal: str
    remedy: str
    warning: int
    critical: int


def quantity(name: str, word: str, text: str, used: int, most: int, refusal: str, remedy: str = "") -> Quantity:
    """Return a quantity with the usual percentages, and the remedy of its refusal."""
    return Quantity(name, word, text, used, most, refusal, remedy or REMEDIES[refusal],
                    -(-most * WARNING // 100), -(-most * CRITICAL // 100))


def changes_of(count: int) -> Quantity:
    """Return the kept changes."""
    return quantity("changes", "kept", f"{count:,} changes kept of {formula.MOST_CHANGES:,}", count,
                    formula.MOST_CHANGES, TOO_MANY_CHANGES)


def resources_of(count: int, word: str) -> Quantity:
    """Return the resources, which are `held` or `published`."""
    return quantity("resources", word, f"{count:,} resources {word} of {formula.MOST_RESOURCES:,}", count,
                    formula.MOST_RESOURCES, "TooManyResources")


def file_system_of(path: str | os.PathLike[str]) -> Quantity:
    """Return the bytes of the file system of a path, with the share that `df` prints."""
    system = os.statvfs(path)
    used = (system.f_blocks - system.f_bfree) * system.f_frsize
    most = used + system.f_bavail * system.f_frsize
    return quantity("room", "used", f"{used:,} bytes used of {most:,} on the file system of {path}", used, most,
                    "No space left on the device", "make room there")


class FileContents(NamedTuple):
    """The state of a source by its file: the earliest moment in it (`now` if it holds nothing), and its quantities."""

    earliest: int
    quantities: list[Quantity]


def contents_of(path: str, now: int) -> FileContents:
    """Read the file of a source. `now` is a moment in milliseconds."""
    from ropepeach.disk import file as disk_file, room
    from ropepeach.disk.formats import Image, items_of

    def blocks_of(source: Image) -> Iterator[Quantity]:
        """Yield the used blocks, and the share of the longest free run that the longest recent body needs."""
        used = sum(extent.blocks for extent in source.extents)
        yield quantity("blocks", "used", f"{used:,} blocks used of {source.blocks:,}", used, source.blocks, "Full")
        run = max((run.blocks for run in room.free_runs(source.extents, source.blocks)), default=0)
        longest = max((formula.blocks_of(change.length) for change in items_of(source.changes)
                       if change.moment > now - RECENT), default=0)
        if longest:
            yield quantity("run", "needed", f"the longest body of {RECENT_TEXT} has {longest:,} blocks, and the "
                           f"longest free run {run:,}", longest, run, "Full")

    with disk_file.File(path) as opened:
        source = opened.read()
    records, changes = items_of(source.catalogue), items_of(source.changes)
    moments = [source.header.begin, *(record.moment for record in records), *(change.moment for change in changes)]
    # (a file is formatted at moment 0)
    earliest = min(filter(None, moments), default=now)
    return FileContents(earliest, [resources_of(len(records), "held"), *blocks_of(source)])
