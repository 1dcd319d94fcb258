"""Read the log of a device (device.c), and find the writes in question at any place of it.

A flush settles a write if it began after the write had ended, and if it succeeds. All other begun writes are in
question: a flush does not settle writes in progress at its beginning, and a failed flush settles no write.
"""
import os
import struct
from collections.abc import Callable, Iterator
from pathlib import Path
from typing import NamedTuple

HEAD = struct.Struct("cc6xQQQ")
GOOD, FAILED, LOST = b"g", b"f", b"l"


class Entry(NamedTuple):
    """An entry of the log: the beginning (W, F) or the end (w, f) of a write or flush, its result, number and place on
    the device, the bytes of a beginning write, and the end of the entry in the log.
    """

    kind: bytes
    result: bytes
    number: int
    at: int
    data: bytes
    end: int


class Write(NamedTuple):
    """A write in question, and whether it has ended."""

    at: int
    data: bytes
    has_ended: bool


class Cut(NamedTuple):
    """A place in the log, and the writes in question there, in order."""

    place: int
    writes: list[Write]


def entries(log: bytes) -> Iterator[Entry]:
    """Yield the entries of a log."""
    at = 0
    while at < len(log):
        kind, result, number, place, length = HEAD.unpack_from(log, at)
        at += HEAD.size
        data = log[at : at + length] if kind == b"W" else b""
        at += len(data)
        yield Entry(kind, result, number, place, data, at)


class Settling:
    """Find the settled writes of a log, entry by entry; call `settle` with their places and bytes.

    `cache` is the number of writes that a device with a lying cache keeps in question, or None if flushes work.
    """

    def __init__(self, settle: Callable[[int, bytes], object], cache: int | None = None) -> None:
        self.settle, self.cache = settle, cache
        self.writes: dict[int, Write] = {}
        self.covered: dict[int, list[int]] = {}

    def go_on(self, entry: Entry) -> None:
        """Process the next entry of the log."""
        if entry.kind == b"W":
            self.writes[entry.number] = Write(entry.at, entry.data, False)
        elif entry.kind == b"w" and entry.result == LOST:
            del self.writes[entry.number]
        elif entry.kind == b"w":
            begun = self.writes.pop(entry.number)
            data = begun.data if entry.result == GOOD else begun.data[: len(begun.data) // 1024 * 512]
            self.writes[entry.number] = Write(begun.at, data, True)
        elif entry.kind == b"F":
            self.covered[entry.number] = [number for number, write in self.writes.items() if write.has_ended]
        elif entry.kind == b"f":
            covered = self.covered.pop(entry.number)
            if entry.result == GOOD and self.cache is None:
                self.settled(covered)
        if self.cache is not None:
            self.settled([number for number, write in self.writes.items() if write.has_ended][: -self.cache or None])

    def settled(self, numbers: list[int]) -> None:
        """Settle these writes, in order."""
        for number in numbers:
            if number in self.writes:
                write = self.writes.pop(number)
                self.settle(write.at, write.data)

    def cut(self, place: int) -> Cut:
        """Return the cut at this place."""
        return Cut(place, list(self.writes.values()))


class Settled:
    """A file with the settled bytes of a log up to a place, which only advances."""

    def __init__(self, path: str | Path, log: bytes, cache: int | None = None) -> None:
        self.file = os.open(path, os.O_RDWR)
        self.settling = Settling(lambda at, data: os.pwrite(self.file, data, at), cache)
        self.entries, self.place = entries(log), 0

    def cut_at(self, place: int) -> Cut:
        """Return the cut after the entry that ends at this place; places must not decrease."""
        while self.place < place:
            entry = next(self.entries)
            self.settling.go_on(entry)
            self.place = entry.end
        return self.settling.cut(place)

    def close(self) -> None:
        """Close the file."""
        os.close(self.file)
