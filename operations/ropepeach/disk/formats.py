"""The formats of a source's file by docs/DISK.md: a slot, the directory, a page, a record and a change.

A reader checks the rules of its own format, and raises `Broken` with the broken rule. The rules between these parts are
in disk/rules.py.
"""
from __future__ import annotations

import re
import struct
from collections.abc import Callable, Iterable
from dataclasses import dataclass
from typing import Generic, NamedTuple, TypeVar

from ropepeach.cli.statuses import Status
from ropepeach.disk.formula import BLOCK, LONGEST_BODY, LONGEST_NAME, blocks_of
from ropepeach.faults import Fault

SLOT = struct.Struct(">BBQIII32s")
# The two versions of a slot. A directory of the first has no first part and no begin: no change was dropped.
VERSIONS = 1, 2
PAGE_OF_RECORDS, PAGE_OF_CHANGES = 1, 2
CREATION, UPDATE, DELETION = 1, 2, 3
MOST_ITEMS = 50_000
# 9999-12-31T23:59:59.999Z
LAST_MOMENT = 253_402_300_799_999
# The most usable blocks of a file; the first two are the slots.
MOST_BLOCKS, SLOTS = 8_388_608, 2
USES = "slots", "directory", "records", "changes", "published", "bodies"
# The fields after the media type of a record and of a change: the length, the digests, which are passed over, and of a
# record its moment and its blocks.
RECORD_TAIL, CHANGE_TAIL = struct.Struct(">I48xQII"), struct.Struct(">I48x")
# A name is segments of RFC 3986, none of which is `.` or `..`; a media type begins with two tokens; a base
# has no `/` at its end.
CHARACTER = rb"(?:[\w.~!$&'()*+,;=:@-]|%[0-9A-Fa-f]{2})"
LAWFUL_NAME = re.compile(rb"(?:(?!\.\.?(?:/|$))" + CHARACTER + rb"+/)*(?!\.\.?$)" + CHARACTER + rb"+")
LAWFUL_KIND = re.compile(rb"[\w!#$%&'*+.^`|~-]+/[\w!#$%&'*+.^`|~-]+(?:[ -~]*[!-~])?")
LAWFUL_BASE = re.compile(rb"https?://[\w.:/~-]*[\w.:~-]")

Item = TypeVar("Item")


class Reference(NamedTuple):
    """A reference: the first block, the blocks, the bytes and the SHA-256 of a directory or a page."""

    first: int
    blocks: int
    length: int
    sha256: bytes


class Root(NamedTuple):
    """The root of an open slot. Of two roots that of the greater generation counts."""

    generation: int
    version: int
    directory: Reference


class Record(NamedTuple):
    """A current or a published resource; `size` is that of the record in its page."""

    name: bytes
    kind: bytes
    length: int
    moment: int
    first: int
    blocks: int
    size: int


class KeptChange(NamedTuple):
    """A kept change; `size` is that of the change in its page."""

    what: int
    name: bytes
    moment: int
    kind: bytes
    length: int
    size: int


@dataclass(frozen=True, slots=True)
class Page(Generic[Item]):
    """A page: its reference, and its records or changes."""

    entry: Reference
    items: list[Item]


class Header(NamedTuple):
    """The fields of a directory, without its entries."""

    limit: int
    base: str
    start: int
    last: int
    number: int
    at: int
    first: int
    begin: int


class Extent(NamedTuple):
    """A run of blocks, and its use: `kind` is one of USES."""

    first: int
    blocks: int
    kind: str


@dataclass(frozen=True)
class Image:
    """The source of a file. `blocks` is the number of usable blocks; `is_changed` means that a later root came."""

    root: Root
    header: Header
    catalogue: list[Page[Record]]
    changes: list[Page[KeptChange]]
    published: list[Page[Record]]
    extents: list[Extent]
    blocks: int
    tries: int = 1
    is_changed: bool = False


class NotRead(Fault):
    """The reason why no source was read from a file, after a word about its kind."""

    word = ""


class Broken(NotRead):
    """A file that breaks a rule, which is given in one sentence."""

    status, word = Status.DAMAGED, "damaged, by this rule: "


def hold(is_so: object, rule: str, *values: bytes | str | int) -> None:
    """Raise `Broken` if a rule does not hold. The values fill the places of the rule."""
    if not is_so:
        raise Broken(rule.format(*(in_backticks(value) if isinstance(value, bytes) else value for value in values)))


def in_backticks(text: bytes) -> str:
    """Return a name or a media type as a person reads it."""
    return f"`{text.decode('ascii', 'backslashreplace')}`"


def slot_of(data: bytes) -> Root | None:
    """Return the root in the whole block of a slot, or None if its gate is closed."""
    if len(data) < BLOCK or data[0] != 1:
        return None
    _, version, generation, first, blocks, length, sha256 = SLOT.unpack_from(data)
    return Root(generation, version, Reference(first, blocks, length, sha256))


class FieldReader:
    """Bytes that are taken field by field from the front."""

    def __init__(self, data: bytes, what: str) -> None:
        self.data, self.at, self.what = data, 0, what

    def taken(self, size: int) -> bytes:
        """Take this many bytes."""
        part = self.data[self.at : self.at + size]
        hold(len(part) == size, "{} ends within a field", self.what)
        self.at += size
        return part

    def number(self, size: int) -> int:
        """Take this many bytes as a number."""
        return int.from_bytes(self.taken(size), "big")

    def short(self) -> bytes:
        """Take a text, which follows a byte with its length."""
        return self.taken(self.number(1))

    def unpacked(self, form: struct.Struct) -> tuple[int, ...]:
        """Take the numbers of a form."""
        return form.unpack(self.taken(form.size))

    def ended(self) -> None:
        """Check that all bytes were read."""
        hold(self.at == len(self.data), "nothing follows the last item of {}, and here bytes do", self.what)


def reference_of(fields: FieldReader) -> Reference:
    """Take an entry of a directory."""
    return Reference(fields.number(4), fields.number(4), fields.number(4), fields.taken(32))


def directory_of(data: bytes, version: int) -> tuple[Header, list[list[Reference]]]:
    """Return the header and the entries of the three lists of a directory."""
    fields = FieldReader(data, "the directory")
    limit, base = fields.number(2), fields.short()
    start, last, number, at = (fields.number(8) for _ in range(4))
    first, begin = (0, start) if version == VERSIONS[0] else (fields.number(8), fields.number(8))
    counts = [fields.number(4) for _ in range(3)]
    hold(44 * sum(counts) == len(data) - fields.at, "the directory has as many entries as it says")
    entries = [[reference_of(fields) for _ in range(count)] for count in counts]
    fields.ended()
    hold(2 <= limit <= 4_000, "the item limit is 2 to 4,000, and this one is {:,}", limit)
    hold(8 <= len(base) <= 128 and LAWFUL_BASE.fullmatch(base),
         "the base is an address of 8 to 128 bytes, and this one is {}", base)
    return Header(limit, base.decode(), start, last, number, at, first, begin), entries


def look_at_body(kind: bytes, length: int) -> None:
    """Check the rules of a media type and a length."""
    hold(3 <= len(kind) <= 100 and LAWFUL_KIND.fullmatch(kind), "a media type is lawful, and this one is {}", kind)
    hold(length <= LONGEST_BODY, "a body has at most 16,777,216 bytes, and this one has {:,}", length)


def look_at_item(name: bytes, moment: int) -> None:
    """Check the rules that records and changes share."""
    hold(1 <= len(name) <= LONGEST_NAME and LAWFUL_NAME.fullmatch(name), "a name is lawful, and this one is {}", name)
    hold(moment <= LAST_MOMENT, "a moment is in the year 9999 at the latest, and that of {} is not", name)


def record_of(fields: FieldReader) -> Record:
    """Take a record."""
    begun, name, kind = fields.at, fields.short(), fields.short()
    length, moment, first, blocks = fields.unpacked(RECORD_TAIL)
    look_at_item(name, moment)
    look_at_body(kind, length)
    hold(blocks == blocks_of(length),
         "a body lies in exactly the blocks of its length, and that of {} has {} for {:,} bytes", name,
         blocks, length)
    hold(length or not first, "a body of no bytes has no first block, and that of {} has block {}", name, first)
    return Record(name, kind, length, moment, first, blocks, fields.at - begun)


def kept_change_of(fields: FieldReader) -> KeptChange:
    """Take a change."""
    begun, what, name = fields.at, fields.number(1), fields.short()
    moment = fields.number(8)
    hold(what in (CREATION, UPDATE, DELETION),
         "a change creates, updates or deletes, and that of {} is of the kind {}", name, what)
    look_at_item(name, moment)
    if what == DELETION:
        return KeptChange(what, name, moment, b"", 0, fields.at - begun)
    kind, (length,) = fields.short(), fields.unpacked(CHANGE_TAIL)
    look_at_body(kind, length)
    return KeptChange(what, name, moment, kind, length, fields.at - begun)


def page_of(data: bytes, entry: Reference, kind: int, take: Callable[[FieldReader], Item]) -> Page[Item]:
    """Return the page of these bytes, of this kind, whose items `take` takes."""
    fields = FieldReader(data, f"the page in block {entry.first}")
    found, count = fields.number(1), fields.number(4)
    hold(found == kind, "a page is of the kind of its list, and that in block {} is of another", entry.first)
    hold(1 <= count <= MOST_ITEMS, "a page has 1 to 50,000 items, and that in block {} has {:,}", entry.first,
         count)
    items = [take(fields) for _ in range(count)]
    fields.ended()
    return Page(entry, items)


def items_of(pages: Iterable[Page[Item]]) -> list[Item]:
    """Return the items of all pages of a list."""
    return [item for page in pages for item in page.items]


def extents_of(root: Root, catalogue: list[Page[Record]], changes: list[Page[KeptChange]],
               published: list[Page[Record]]) -> list[Extent]:
    """Return the extents of all used blocks, in order. A published page that is also in the catalogue counts once."""
    catalogued = {page.entry for page in catalogue}
    extents = [Extent(root.directory.first, root.directory.blocks, "directory")]
    extents += [Extent(page.entry.first, page.entry.blocks, "records") for page in catalogue]
    extents += [Extent(page.entry.first, page.entry.blocks, "changes") for page in changes]
    extents += [Extent(page.entry.first, page.entry.blocks, "published")
                for page in published if page.entry not in catalogued]
    extents += [Extent(record.first, record.blocks, "bodies") for record in items_of(catalogue) if record.blocks]
    return [Extent(0, SLOTS, "slots"), *sorted(extents)]
