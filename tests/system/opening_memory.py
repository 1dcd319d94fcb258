"""Limits of the bytes that an opening may allocate, as constants independent of the tested program.

An opening reads the directory and its pages, and may allocate memory for these. A list that grows item by item first
allocates 4 items, then doubles whenever it is full. The constants were measured on the built program, and have a
margin.
"""
from typing import Any

from tests.reading import disk_reader
from tests.reading.disk_formats import BLOCK, sha256

# The bytes and the number of allocations at the start of the program; the largest one holds the lines of a script.
BEGUN, GROWTHS, LINES = 12_288, 16, 8_192
# The set of used blocks takes one byte of memory for this many bytes of the file.
OF_FILE = 1_024
# The bytes of an item, and of a page without its items: its entry, its place, and its part in three lists.
ITEM, PAGE = 160, 208
# The bytes of a page with one short record whose moments are not yet checked; four times they include its place, which
# has 80 bytes in the proved program and 72 in the plain one.
OF_A_SHORT_PAGE, PLACE, PLACES = 1_100, 80, 4
# Read bytes are allocated once, and the texts in them once more.
READ = 2
# The bytes of the shortest item of a page, and of the header before the items.
SHORTEST, HEAD = 11, 5

# The entry of a page in the directory.
Entry = Any


def grown(count: int) -> int:
    """Return the number of items that a list of this length allocates in all while it grows."""
    room, total = 0, 0
    while room < count:
        room = 2 * room or 4
        total += room
    return total


def is_placed(entry: Entry, size: int) -> bool:
    """Return whether an entry has the right number of blocks, after the slots and within the disk."""
    has_blocks = entry.blocks == -(-entry.length // BLOCK)
    return entry.first >= 2 and has_blocks and entry.first + entry.blocks <= size // BLOCK


def lists_of(disk: bytes) -> tuple[int, list[list[Entry]]]:
    """Return the length of the directory and the entries of its pages, as far as the disk is well-formed."""
    try:
        root = disk_reader.root(disk)
    except disk_reader.NoRoot:
        return 0, []
    entry = root.directory
    if not is_placed(entry, len(disk)):
        return 0, []
    data = disk[entry.first * BLOCK : entry.first * BLOCK + entry.length]
    if sha256(data) != entry.sha256:
        return entry.length, []
    fields = disk_reader.Fields(data)
    try:
        fields.taken(2)
        fields.short()
        fields.taken(8 * (4 if root.version == 1 else 6))
        counts = [fields.number() for _ in range(3)]
        # The remaining bytes limit the number of entries.
        return entry.length, [[fields.entry() for _ in range(count)] for count in counts]
    except disk_reader.Unread:
        return entry.length, []


def items_of(disk: bytes, entry: Entry) -> int:
    """Return the number of items that a page claims, limited by its bytes."""
    count = int.from_bytes(disk[entry.first * BLOCK + 1 : entry.first * BLOCK + HEAD], "big")
    return max(min(count, (entry.length - HEAD) // SHORTEST), 0)


def of_short_pages(pages: int, largest: int) -> int:
    """Return the limit for as many pages with one short record; the largest allocation is a list of their places."""
    place = min(largest // (1 << (pages // 2 - 1).bit_length()), PLACE)
    return BEGUN + pages * (OF_A_SHORT_PAGE - PLACES * (PLACE - place))


def allowed(disk: bytes) -> int:
    """Return the limit of the bytes that an opening of this disk may allocate."""
    length, lists = lists_of(disk)
    pages = [entry for entries in lists for entry in entries]
    every = BEGUN + len(disk) // OF_FILE + READ * length + PAGE * sum(grown(len(entries)) for entries in lists)
    if not all(is_placed(page, len(disk)) for page in pages):
        return every
    catalogue = set(lists[0]) if lists else set()
    read = [entry for entries in lists[:2] for entry in entries]
    read += [entry for entries in lists[2:] for entry in entries if entry not in catalogue]
    return every + sum(READ * entry.length + ITEM * grown(items_of(disk, entry)) for entry in read)


def largest(disk: bytes) -> int:
    """Return the bytes of the largest list that an opening of this disk must grow."""
    _, lists = lists_of(disk)
    sizes = [2 * max(PAGE * len(entries), *(ITEM * items_of(disk, entry) for entry in entries)) for entries in lists
             if entries]
    return max(sizes, default=0)
