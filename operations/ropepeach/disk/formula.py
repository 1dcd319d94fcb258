"""The size of a source's disk, by the formula of operations/docs/OPERATING.md, and the bounds of a source."""
import os
from collections.abc import Iterable, Sized
from typing import NamedTuple

BLOCK = 512
MOST_RESOURCES = MOST_CHANGES = 50_000
MOST_BYTES = 4 << 30
LONGEST_BODY, LONGEST_NAME = 16_777_216, 240
# The mean lengths of names and of media types in the table of operations/docs/OPERATING.md.
USUAL_NAME, USUAL_TYPE = 40, 25


class Holdings(NamedTuple):
    """The figures of a set of resources: their number, their bytes, the blocks of their bodies, the bytes of the
    longest body, the mean bytes of a name and of a media type.
    """

    count: int  # type: ignore[assignment]
    bytes: int
    blocks: int
    longest: int
    name: int
    kind: int


def holdings_of(files: Iterable[tuple[Sized, int, Sized]]) -> Holdings:
    """Return the figures of resources by their names, lengths and media types. Means are rounded up; those of no
    resource are usual ones.
    """
    count = size = blocks = longest = names = kinds = 0
    for name, length, kind in files:
        count, size, blocks = count + 1, size + length, blocks + blocks_of(length)
        longest, names, kinds = max(longest, length), names + len(name), kinds + len(kind)
    if not count:
        return Holdings(0, 0, 0, 0, USUAL_NAME, USUAL_TYPE)
    name_mean, kind_mean = (-(-total // count) for total in (names, kinds))
    return Holdings(count, size, blocks, longest, name_mean, kind_mean)


def blocks_of(size: int) -> int:
    """Return the number of blocks for this many bytes."""
    return -(-size // BLOCK)


def pages(count: int, on_one: int) -> int:
    """Return the number of pages for this many items."""
    return -(-count // on_one)


def used(bodies: Holdings, base: int, changes: int = MOST_CHANGES) -> int:
    """Return the blocks of a source of these resources, with a base of this many bytes and this many changes."""
    record_pages, change_pages = 2 * pages(bodies.count, 32), pages(changes, 64)
    directories = 2 * blocks_of(63 + base + 44 * (record_pages + change_pages))
    texts = bodies.name + bodies.kind
    lists = record_pages * blocks_of(5 + 32 * (70 + texts)) + change_pages * blocks_of(5 + 64 * (63 + texts))
    return bodies.blocks + lists + directories + blocks_of(bodies.longest) + 64


def needed(bodies: Holdings, base: int, changes: int = MOST_CHANGES) -> int:
    """Return the bytes of the disk, with a third of it free."""
    return -(-used(bodies, base, changes) * BLOCK * 3 // 2)


def free_bytes(path: str | os.PathLike[str]) -> int:
    """Return the bytes that a user may still write to the file system of a path."""
    system = os.statvfs(path)
    return system.f_bavail * system.f_frsize


def unreserved(status: os.stat_result) -> int:
    """Return the bytes of a file that its file system has not reserved: a write there may fail for lack of room."""
    return max(0, status.st_size - BLOCK * status.st_blocks)
