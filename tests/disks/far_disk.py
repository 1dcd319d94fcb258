"""Disks of 4 GiB, the most that a source uses, made from docs/DISK.md: their data lies in the last blocks.

The files are sparse: a hole reads as zeros and takes no room. `Holes` reads the current content of a sparse file like
bytes.
"""
import os
import pathlib
from typing import SupportsIndex, overload

from tests.disks.made_disks import laid_behind
from tests.reading import disk_parts as parts_of
from tests.reading.disk_formats import BLOCK, body_fields, extent_fields, number, short_fields, spelled

# The blocks of the disk, the blocks of the largest body, and the number of these bodies that fill the blocks below 2
# GiB, and almost all blocks.
BLOCKS, LARGEST, FILLERS, MOST_FILLERS = 8_388_608, 32_768, 128, 254
# The resources whose bodies lie last.
BODIES = {b"x0": b"far", b"x1": b"further" * 3_000, b"x2": b"z" * 512}

Part = tuple[int, bytes]


class Holes:
    """The content of a sparse file at the time of reading."""

    def __init__(self, path: pathlib.Path) -> None:
        self.parts: list[tuple[int, bytes]] = []
        with open(path, "rb") as file:
            self.size, at = os.fstat(file.fileno()).st_size, 0
            while at < self.size:
                try:
                    begin = os.lseek(file.fileno(), at, os.SEEK_DATA)
                except OSError:
                    break
                at = os.lseek(file.fileno(), begin, os.SEEK_HOLE)
                self.parts.append((begin, os.pread(file.fileno(), at - begin, begin)))

    def __len__(self) -> int:
        return self.size

    @overload
    def __getitem__(self, at: slice) -> bytes: ...

    @overload
    def __getitem__(self, at: SupportsIndex) -> int: ...

    def __getitem__(self, at: slice | SupportsIndex) -> bytes | int:
        if not isinstance(at, slice):
            return self[at.__index__() : at.__index__() + 1][0]
        first, end, _ = at.indices(self.size)
        found = bytearray(max(end - first, 0))
        for begin, data in self.parts:
            low, high = max(first, begin), min(end, begin + len(data))
            if low < high:
                found[low - first : high - first] = data[low - begin : high - begin]
        return bytes(found)


def written(path: pathlib.Path, parts: list[Part]) -> None:
    """Write a sparse file with these parts; a part has its first block and its bytes."""
    path.unlink(missing_ok=True)
    with open(path, "wb") as file:
        file.truncate(BLOCKS * BLOCK)
        for first, data in parts:
            file.seek(first * BLOCK)
            file.write(data)


def blocks_of(data: bytes) -> int:
    """Return the number of blocks for some bytes."""
    return -(-len(data) // BLOCK)


def fillers(count: int) -> list[bytes]:
    """Return the records of bodies of zeros, which lie one after the other from block 2 on."""
    length = LARGEST * BLOCK
    facts = body_fields(b"text/plain", bytes(length)) if count else {}
    found = []
    for at in range(count):
        fields = {**short_fields("name", b"f%03d" % at), **facts, "moment": number(at + 1, 8)}
        found.append(spelled({**fields, **extent_fields(2 + at * LARGEST, length)}))
    return found


def parts(filled: int, end: int = BLOCKS) -> list[Part]:
    """Return the parts of a disk: `filled` bodies of zeros first, the slots, then all others in blocks up to `end`."""
    bodies, records = list[Part](), fillers(filled)
    for at, (name, body) in enumerate(BODIES.items(), filled + 1):
        end -= blocks_of(body)
        bodies.append((end, body))
        records.append(parts_of.record(name, body, at, end))
    pages = [parts_of.page(1, records[at : at + 32]) for at in range(0, len(records), 32)]
    end -= sum(map(blocks_of, pages))
    placed = laid_behind(end, pages)
    entries = [parts_of.entry(*page) for page in placed]
    last = len(records)
    directory = parts_of.directory(last, number=1, at=last, lists=(entries, [], entries), limit=100)
    end -= blocks_of(directory)
    return [(0, parts_of.slot(1, last, end, directory)), (1, b"\0\2"), (end, directory), *placed, *bodies]
