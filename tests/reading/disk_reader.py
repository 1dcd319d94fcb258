"""Read a source from the bytes of a disk by the tables of docs/DISK.md, independent of the program.

The reader follows the open slot with the greater generation to the directory, and the directory to every page; lengths
and SHA-256 must match. The caller checks the order of items and that no block has two uses.
"""
import collections

from tests.reading.disk_formats import BLOCK, CHANGES, DELETED, RECORDS, sha256

# The reference to a page or to the directory: its first block, its number of blocks, its length, and its SHA-256.
Entry = collections.namedtuple("Entry", "first blocks length sha256")
Record = collections.namedtuple("Record", "name kind length md5 sha256 moment first blocks")
# A deletion has no facts.
Change = collections.namedtuple("Change", "what name moment kind length md5 sha256", defaults=[None] * 4)
Page = collections.namedtuple("Page", "entry items")
# `directory` is its entry in the slot, and `version` the format version in the slot.
Source = collections.namedtuple(
    "Source", "directory version limit base start last number at first begin catalogue changes published")
# The root in a slot.
Root = collections.namedtuple("Root", "generation version directory")
# All versions. A directory of version 1 has no first part and no begin: it keeps all changes.
VERSIONS = (1, 2)
# The most blocks that a source uses of a disk.
MOST_BLOCKS = 8_388_608


class Unread(Exception):
    """The bytes hold no source."""


class NoRoot(Unread):
    """No slot has a root."""


class Fields:
    """The bytes of some fields, read from the front."""

    def __init__(self, data):
        self.data, self.at = data, 0

    def taken(self, size):
        """Return the next bytes."""
        self.at += size
        if self.at > len(self.data):
            raise Unread(f"a field ends at byte {self.at} of {len(self.data)}")
        return self.data[self.at - size : self.at]

    def number(self, size=4):
        """Return the next number."""
        return int.from_bytes(self.taken(size), "big")

    def short(self):
        """Return the next text, which has its length in front."""
        return self.taken(self.number(1))

    def entry(self):
        """Return the next entry of a page."""
        return Entry(self.number(), self.number(), self.number(), self.taken(32))

    def facts(self):
        """Return the next facts: type, length, MD5 and SHA-256 of a body."""
        return self.short(), self.number(), self.taken(16), self.taken(32)

    def record(self):
        """Return the next record."""
        return Record(self.short(), *self.facts(), self.number(8), self.number(), self.number())

    def change(self):
        """Return the next change."""
        what, name, moment = self.number(1), self.short(), self.number(8)
        return Change(what, name, moment) if what == DELETED else Change(what, name, moment, *self.facts())

    def ended(self, what):
        """Raise Unread unless all bytes are read."""
        if self.at < len(self.data):
            raise Unread(f"{len(self.data) - self.at} bytes follow {what}")


def bytes_of(disk, entry, what):
    """Return exactly the bytes that an entry refers to."""
    data = disk[entry.first * BLOCK : entry.first * BLOCK + entry.length]
    if len(data) != entry.length or entry.blocks != (entry.length + BLOCK - 1) // BLOCK:
        raise Unread(f"{what} of {entry.length} bytes lies in {entry.blocks} blocks from {entry.first} on")
    if sha256(data) != entry.sha256:
        raise Unread(f"{what} in block {entry.first} has another SHA-256 than its entry")
    return data


def page_of(disk, entry, kind):
    """Return the page of an entry, which must be of this kind."""
    fields = Fields(bytes_of(disk, entry, "a page"))
    if fields.number(1) != kind:
        raise Unread(f"the page in block {entry.first} is not of the kind {kind}")
    take = fields.record if kind == RECORDS else fields.change
    items = [take() for _ in range(fields.number())]
    fields.ended("the last item of a page")
    return Page(entry, items)


def root(disk):
    """Return the root of the open slot of the greater generation. A slot is a whole block."""
    opened = []
    for slot in (disk[:BLOCK], disk[BLOCK : 2 * BLOCK]):
        fields = Fields(slot)
        if len(slot) == BLOCK and fields.number(1) == 1:
            version = fields.number(1)
            if version not in VERSIONS:
                raise NoRoot(f"an open slot has the version {version}")
            opened.append(Root(fields.number(8), version, fields.entry()))
    if len({root.generation for root in opened}) != len(opened) or not opened:
        raise NoRoot("there is no open slot of the greater generation")
    return max(opened)


def source_of(disk):
    """Return the source on a disk of these bytes."""
    _, version, entry = root(disk)
    fields = Fields(bytes_of(disk, entry, "the directory"))
    limit, base, start = fields.number(2), fields.short(), fields.number(8)
    last, number, at = (fields.number(8) for _ in range(3))
    first, begin = (0, start) if version == 1 else (fields.number(8), fields.number(8))
    counts = [fields.number() for _ in range(3)]
    entries = [[fields.entry() for _ in range(count)] for count in counts]
    fields.ended("the directory")
    kinds = (RECORDS, CHANGES, RECORDS)
    lists = [[page_of(disk, entry, kind) for entry in each] for each, kind in zip(entries, kinds)]
    return Source(entry, version, limit, base, start, last, number, at, first, begin, *lists)


def extents(source):
    """Return all extents that the root reaches; a published page that is also a catalogue page counts once."""
    lists = [source.catalogue, source.changes, source.published]
    resources = {page.entry for page in source.catalogue}
    pages = [page.entry for part in lists for page in part
             if part is not source.published or page.entry not in resources]
    bodies = [record for page in source.catalogue for record in page.items]
    return [(extent.first, extent.blocks) for extent in [source.directory, *pages, *bodies] if extent.blocks]


def fault(disk, source):
    """Return the fault if an extent overlaps the slots or another extent, or ends past the disk; otherwise ''."""
    behind = 2
    for first, blocks in sorted(extents(source)):
        if first < behind:
            return f"what lies in block {first} begins within the slots or what is before it"
        behind = first + blocks
    return f"the disk ends before block {behind}" if behind > min(len(disk) // BLOCK, MOST_BLOCKS) else ""
