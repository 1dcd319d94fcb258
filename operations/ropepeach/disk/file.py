"""Read a source from its file, without writing or locking, even while the program serves it.

The blocks of a root keep their bytes until there is a later root (docs/DISK.md, "How the root is changed"), and the
directory and all pages have a SHA-256. So a complete reading gives one consistent state. If a page was overwritten
meanwhile, the file has a later root and is read again. Each page is read once, and bodies are not read.
"""
from __future__ import annotations

import dataclasses
import hashlib
import os
import time
from collections.abc import Callable, Iterable

from ropepeach.cli.statuses import Status
from ropepeach.disk import rules
from ropepeach.disk.formats import (
    MOST_BLOCKS, PAGE_OF_CHANGES, PAGE_OF_RECORDS, VERSIONS, Broken, FieldReader, Image, Item, KeptChange, NotRead,
    Page, Record, Reference, Root, directory_of, extents_of, hold, kept_change_of, page_of, record_of, slot_of,
)
from ropepeach.disk.formula import BLOCK, blocks_of

# How often a file is read that changes meanwhile; how often slots are read that have no root, and the seconds between.
IMAGE_READINGS, SLOT_READINGS, SLOT_PAUSE = 20, 3, 0.02
# A page of 50,000 of the longest records, and a directory of the longest base and three lists of 50,000 pages.
MOST_PAGE_BYTES, MOST_DIRECTORY_BYTES = 20_500_005, 6_600_191


class NoSource(NotRead):
    """The reason why a file holds no source at all."""

    status, word = Status.NO_SOURCE, "no source: "


class Moves(NotRead):
    """The file changed during every attempt to read it."""


def root_of(slots: Iterable[bytes]) -> Root:
    """Return the root of two slots: that of the open slot of the greater generation."""
    opened = [root for root in map(slot_of, slots) if root]
    if not opened:
        raise NoSource("neither slot of the file is open")
    for root in opened:
        if root.version not in VERSIONS:
            raise NoSource(f"an open slot has the version {root.version}, which is none")
    if len(opened) > 1 and opened[0].generation == opened[1].generation:
        raise NoSource("both slots are open with one generation")
    return max(opened)


class File:
    """A file that is open for reading."""

    def __init__(self, path: str | os.PathLike[str]) -> None:
        self.number = os.open(path, os.O_RDONLY | os.O_CLOEXEC | os.O_NONBLOCK)
        # The pages that have been read.
        self.records: dict[Reference, Page[Record]] = {}
        self.changes: dict[Reference, Page[KeptChange]] = {}

    def __enter__(self) -> File:
        return self

    def __exit__(self, *_: object) -> None:
        os.close(self.number)

    def part(self, first: int, length: int) -> bytes:
        """Return this many bytes from a block on, or as many as there are."""
        pieces, at = [], first * BLOCK
        while length and (piece := os.pread(self.number, min(length, 1 << 24), at)):
            pieces.append(piece)
            at, length = at + len(piece), length - len(piece)
        return b"".join(pieces)

    def root(self) -> Root:
        """Return the root by the slots as they are now."""
        return root_of([self.part(0, BLOCK), self.part(1, BLOCK)])

    def blocks(self) -> int:
        """Return the number of usable blocks."""
        return min(os.fstat(self.number).st_size // BLOCK, MOST_BLOCKS)

    def referred(self, entry: Reference, what: str, limit: int) -> bytes:
        """Return the bytes of a reference. More than the limit would cost memory, and break a rule of the lists."""
        first, blocks, length, sha256 = entry
        hold(blocks == blocks_of(length),
             "{} lies in exactly the blocks of its length, and that in block {} has {} for {:,} bytes",
             what, first, blocks, length)
        hold(first + blocks <= self.blocks(), "{} lies within the file, and that in block {} does not", what, first)
        hold(length <= limit, "{} has {:,} bytes at most, and that in block {} has {:,}", what, limit, first, length)
        data = self.part(first, length)
        hold(hashlib.sha256(data).digest() == sha256,
             "{} has the SHA-256 of its reference, and that in block {} has another", what, first)
        return data

    def pages(self, entries: list[Reference], known: dict[Reference, Page[Item]], kind: int,
              take: Callable[[FieldReader], Item]) -> list[Page[Item]]:
        """Return the pages of a list. A page that was read before is still right: it has its SHA-256."""
        for entry in entries:
            if entry not in known:
                known[entry] = page_of(self.referred(entry, "a page", MOST_PAGE_BYTES), entry, kind, take)
        return [known[entry] for entry in entries]

    def source(self, root: Root) -> Image:
        """Return the source of a root."""
        header, entries = directory_of(self.referred(root.directory, "the directory", MOST_DIRECTORY_BYTES),
                                       root.version)
        catalogue = self.pages(entries[0], self.records, PAGE_OF_RECORDS, record_of)
        changes = self.pages(entries[1], self.changes, PAGE_OF_CHANGES, kept_change_of)
        published = self.pages(entries[2], self.records, PAGE_OF_RECORDS, record_of)
        source = Image(root, header, catalogue, changes, published, extents_of(root, catalogue, changes, published),
                       self.blocks())
        rules.check_image(source)
        return source

    def read(self) -> Image:
        """Return the source in the file, read again while it changes. Raise `Moves` if it changes every time."""
        for number in range(1, IMAGE_READINGS + 1):
            root = self.steady_root()
            try:
                source = self.source(root)
            except Broken:
                if self.steady_root() == root:
                    raise
                continue
            return dataclasses.replace(source, tries=number, is_changed=self.steady_root() != root)
        raise Moves(f"the file changed {IMAGE_READINGS} times while it was read")

    def steady_root(self) -> Root:
        """Return the root, also while a slot is half written."""
        for _ in range(SLOT_READINGS - 1):
            try:
                return self.root()
            except NoSource:
                time.sleep(SLOT_PAUSE)
        return self.root()
