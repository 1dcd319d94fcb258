"""The calls that a source must make on its file by docs/DISK.md, docs/CRASH.md and docs/FILE-DISK.md, computed
independently of the program.

The lists have the texts of noted_calls.py. These functions compute the places of the parts: the lowest run of free
blocks that fits, one part after another. They read the lengths of the parts, and the set of new pages, from the disk
after the command (disk_reader.py).
"""
import os
from collections.abc import Iterable
from typing import Any

from tests.reading import disk_reader
from tests.reading.disk_formats import BLOCK

# The size of the pieces in which `verify`, a copy and a request read a body, and in which HTTP writes it, in bytes.
LOOKED, SHOWN, CAME = 16_384, 262_144, 4_096
# The bytes of a slot that an opening reads, and those of a new root.
SLOT, GATE, PAYLOAD = 54, 1, 53
# The lock of a file: exclusive and without waiting.
ALONE = 2 | 4


# The bytes of a disk, perhaps sparse.
Disk = Any


class Blocks:
    """The free blocks of a disk."""

    def __init__(self, size: int, extents: Iterable[tuple[int, int]] = ()) -> None:
        self.used = bytearray(size // BLOCK)
        for first, blocks in [(0, 2), *extents]:
            self.used[first : first + blocks] = b"\1" * blocks

    def place(self, length: int) -> int:
        """Allocate blocks for this many bytes; return the offset of the first."""
        blocks = -(-length // BLOCK)
        first = self.used.index(bytes(blocks))
        self.used[first : first + blocks] = b"\1" * blocks
        return first * BLOCK


def pieces(call: str, name: str, at: int, length: int, size: int | None = None) -> list[str]:
    """Return the calls that transfer a body from an offset on, in pieces of a size. An empty body has none."""
    size = size or max(length, 1)
    return [f"{call} {name} {at + begin} {min(size, length - begin)}" for begin in range(0, length, size)]


def settled(name: str, length: int | None = None) -> list[str]:
    """Return the calls that check, lock, extend (a new file), sync and measure an opened file."""
    made = [] if length is None else [f"length {name} {length}"]
    dropping = f"advise {name} 0 0 {os.POSIX_FADV_DONTNEED}"
    return [f"measure {name}", f"lock {name} {ALONE}", *made, f"sync {name}", dropping, f"measure {name}"]


def making(name: str, size: int, folder: str = ".") -> list[str]:
    """Return the calls that make a file and sync its folder."""
    return [f"make {name}", *settled(name, size), f"open {folder}", f"sync {folder}", f"close {folder}"]


def gate(name: str, at: int) -> list[str]:
    """Return the calls that open the gate of a slot."""
    return [f"write {name} {at} {GATE}", f"sync {name}"]


def formatting(name: str, disk: Disk, folder: str = ".") -> list[str]:
    """Return the calls that make a source on a new file."""
    length = disk_reader.root(disk).directory.length
    first = [f"write {name} {2 * BLOCK} {length}", f"write {name} 0 {BLOCK}", f"write {name} {BLOCK} {BLOCK}",
             f"sync {name}"]
    return [*making(name, len(disk), folder), *first, *gate(name, 0)]


def opening(name: str, disk: Disk) -> list[str]:
    """Return the calls that open a source. A published page that is also a page of the catalogue is read once."""
    source = disk_reader.source_of(disk)
    catalogue = {page.entry for page in source.catalogue}
    listed = [page for page in source.published if page.entry not in catalogue]
    entries = [source.directory, *(page.entry for page in [*source.catalogue, *source.changes, *listed])]
    reads = [f"read {name} {entry.first * BLOCK} {entry.length}" for entry in entries]
    return [f"open {name}", *settled(name), f"sync {name}", f"read {name} 0 {SLOT}", f"read {name} {BLOCK} {SLOT}",
            *reads]


def committing(name: str, before: Disk) -> list[str]:
    """Return the calls that change the root: close the spare if it is open, write it, open it."""
    generation = disk_reader.root(before).generation.to_bytes(8, "big")
    spare = BLOCK if before[0] == 1 and before[2:10] == generation else 0
    closing = gate(name, spare) if before[spare] == 1 else []
    return [*closing, f"write {name} {spare + GATE} {PAYLOAD}", f"sync {name}", *gate(name, spare)]


def changing(name: str, before: Disk, after: Disk, bodies: Iterable[int] = (), piece: int | None = None) -> list[str]:
    """Return the calls of an accepted command with bodies of these lengths: one write per part, and the commit."""
    old, new = disk_reader.source_of(before), disk_reader.source_of(after)
    shared = {page.entry for pages in (old.catalogue, old.changes, old.published) for page in pages}
    pages = [page.entry.length for page in [*new.catalogue, *new.changes] if page.entry not in shared]
    blocks = Blocks(len(before), disk_reader.extents(old))
    # The body of a put comes in pieces; the other parts of its plan follow it.
    placed = [(blocks.place(length), length, piece) for length in bodies]
    placed += [(blocks.place(length), length, None) for length in [*pages, new.directory.length]]
    writes = [call for at, length, size in placed for call in pieces("write", name, at, length, size)]
    return writes + committing(name, before)


def records_of(disk: Disk) -> list[Any]:
    """Return the records of a disk."""
    return [record for page in disk_reader.source_of(disk).catalogue for record in page.items]


def verifying(name: str, disk: Disk) -> list[str]:
    """Return the calls that read every body once, in pieces."""
    return [call for record in records_of(disk)
            for call in pieces("read", name, record.first * BLOCK, record.length, LOOKED)]


def showing(name: str, disk: Disk, resource: bytes) -> list[str]:
    """Return the calls that read the body of a resource once, in pieces."""
    found = [record for record in records_of(disk) if record.name == resource]
    return [call for record in found for call in pieces("read", name, record.first * BLOCK, record.length, SHOWN)]


def copying_bodies(name: str, disk: Disk, to: str, blocks: Blocks, last: bytes | None = None) -> list[str]:
    """Return the calls that copy bodies to a new file of this many blocks, up to `last`: reads and writes in turn."""
    calls = [*making(to, len(blocks.used) * BLOCK), f"write {to} 0 {GATE}", *gate(to, BLOCK)]
    records = records_of(disk)
    places = [blocks.place(record.length) for record in records]
    for record, place in zip(records, places):
        read = pieces("read", name, record.first * BLOCK, record.length, LOOKED)
        written = pieces("write", to, place, record.length, LOOKED)
        calls += [call for pair in zip(read, written) for call in pair]
        if record.name == last:
            break
    return calls


def copying(name: str, disk: Disk, to: str, copy: Disk) -> list[str]:
    """Return the calls that copy an open source to a new file."""
    new, blocks = disk_reader.source_of(copy), Blocks(len(copy))
    calls = copying_bodies(name, disk, to, blocks)
    pages = [page.entry.length for page in [*new.catalogue, *new.changes, *new.published]]
    for length in [*pages, new.directory.length]:
        calls += pieces("write", to, blocks.place(length), length)
    return [*calls, f"write {to} {GATE} {BLOCK - GATE}", f"sync {to}", *gate(to, 0)]


def closes(calls: Iterable[str]) -> list[str]:
    """Return the calls that close the files that these calls opened."""
    open_now = list[str]()
    for call in calls:
        name, path = call.split(" ")[:2] if " " in call else (call, "")
        if name in ("open", "make") and not call.endswith(" fails"):
            open_now.append(f"close {path}")
        elif name == "close":
            open_now.remove(call)
    return sorted(open_now)
