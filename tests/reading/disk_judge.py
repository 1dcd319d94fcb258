"""The verdict on any bytes as a disk, by the rules of docs/DISK.md, independent of the program.

`verdict_of` reports that the bytes hold no source, that they are damaged, or that they open, and then also returns the
source. `damaged_names` are the held names whose body does not have its recorded SHA-256. `state_of` is the source as a
state of crash_model.py, which gives the text of every document.
"""
import itertools
import re

from tests.reading import crash_model, disk_reader
from tests.reading.disk_formats import BLOCK, CREATED, DELETED, UPDATED, sha256

NO_SOURCE, DAMAGED, OPENS = "NotASource", "Damaged", "opens"
WHAT = {CREATED: "created", UPDATED: "updated", DELETED: "deleted"}
# 9999-12-31T23:59:59.999Z
LAST_MOMENT = 253_402_300_799_999
MOST_ITEMS, LONGEST_BODY = 50_000, 16_777_216
LIMITS = range(2, 4_001)
# Segments of RFC 3986, except the empty one, `.` and `..`.
SEGMENT = rb"(?!\.{1,2}(?:/|\Z))(?:[A-Za-z0-9\-._~!$&'()*+,;=:@]|%[0-9A-Fa-f]{2})+"
NAME = re.compile(SEGMENT + rb"(?:/" + SEGMENT + rb")*")
TOKEN = rb"[A-Za-z0-9!#$%&'*+\-.^_`|~]+"
TYPE = re.compile(TOKEN + rb"/" + TOKEN + rb"(?:[\x20-\x7e]*[\x21-\x7e])?")
BASE = re.compile(rb"https?://[A-Za-z0-9.:/_~\-]*[A-Za-z0-9.:_~\-]")


class Broken(Exception):
    """The source on a disk breaks a rule."""


def hold(rule, holds):
    """Raise Broken with the name of the rule unless it holds."""
    if not holds:
        raise Broken(rule)


def is_lawful(pattern, shortest, longest, text):
    """Return whether a text has a lawful length and matches the pattern."""
    return shortest <= len(text) <= longest and pattern.fullmatch(text) is not None


def items_of(pages):
    """Return all items of some pages."""
    return [item for page in pages for item in page.items]


def strictly_rise(values):
    """Return whether the values strictly rise."""
    return all(a < b for a, b in itertools.pairwise(values))


def blocks_of(length):
    """Return the number of blocks for this many bytes."""
    return (length + BLOCK - 1) // BLOCK


def look_at_facts(item):
    """Check the rules of a body's facts."""
    hold("a media type is lawful", is_lawful(TYPE, 3, 100, item.kind))
    hold("a body has 16,777,216 bytes at most", item.length <= LONGEST_BODY)


def look_at_records(source, pages, latest):
    """Check the rules of a list of records, whose moments are at most `latest`."""
    records = items_of(pages)
    hold("a list has 50,000 records at most", len(records) <= MOST_ITEMS)
    hold("the names of records strictly ascend", strictly_rise([record.name for record in records]))
    for record in records:
        hold("the name of a record is lawful", is_lawful(NAME, 1, 240, record.name))
        look_at_facts(record)
        hold("the moment of a record is in its bounds", source.start < record.moment <= latest)
        hold("a body has exactly the blocks of its length", record.blocks == blocks_of(record.length))
        hold("no bytes begin in block 0", record.length > 0 or record.first == 0)


def look_at_changes(source):
    """Check the rules of the changes and of the last moment; the last change may have that moment."""
    changes = items_of(source.changes)
    hold("there are 50,000 changes at most", len(changes) <= MOST_ITEMS)
    hold("the moments of changes strictly rise", strictly_rise([change.moment for change in changes]))
    for change in changes:
        hold("a change creates, updates or deletes", change.what in WHAT)
        hold("the name of a change is lawful", is_lawful(NAME, 1, 240, change.name))
        hold("the moment of a change is in its bounds", source.begin < change.moment <= source.last)
        if change.what != DELETED:
            look_at_facts(change)
    newest = max([source.at, *(change.moment for change in changes)])
    hold("last is the greater of at and the last change's moment", source.last == newest)


def look_at_begin(source):
    """Check the rules of the first kept part and of the moment at which the kept changes begin."""
    hold("the kept changes begin at the start or later, and no later than the publication",
         source.start <= source.begin <= source.at)
    hold("no more parts were dropped than there are moments from start to begin",
         source.first <= source.begin - source.start)
    hold("where no part was dropped begin is the start", source.first > 0 or source.begin == source.start)


def look(disk, source):
    """Check every rule except those of the formats, which the reader checks."""
    hold("the item limit is 2 to 4,000", source.limit in LIMITS)
    hold("the base is lawful", is_lawful(BASE, 8, 128, source.base))
    hold("start <= at <= last, and last is a moment", source.start <= source.at <= source.last <= LAST_MOMENT)
    look_at_begin(source)
    pages = [*source.catalogue, *source.changes, *source.published]
    hold("a page has an item", all(page.items for page in pages))
    look_at_records(source, source.catalogue, source.last)
    look_at_records(source, source.published, source.at)
    look_at_changes(source)
    why = disk_reader.fault(disk, source)
    hold(why, not why)


def verdict_of(disk):
    """Return `NotASource` or `Damaged` with the cause, or `opens` with the source."""
    try:
        source = disk_reader.source_of(disk)
        look(disk, source)
    except disk_reader.NoRoot as why:
        return NO_SOURCE, why
    except (disk_reader.Unread, Broken) as why:
        return DAMAGED, why
    return OPENS, source


def body_of(disk, record):
    """Return the bytes of a body, or nothing if they do not have the recorded SHA-256."""
    body = disk[record.first * BLOCK : record.first * BLOCK + record.length]
    return body if sha256(body) == record.sha256 else None


def damaged_names(disk, source):
    """Return the held names whose body does not have its recorded SHA-256, in order."""
    return [record.name.decode() for record in items_of(source.catalogue) if body_of(disk, record) is None]


def entry_of(item):
    """Return the entry of a document for a body."""
    digests = f"md5:{item.md5.hex()} sha-256:{item.sha256.hex()}"
    return crash_model.Entry(item.kind.decode(), item.length, digests, item.moment)


def change_of(item):
    """Return a change of the model."""
    entry = None if item.what == DELETED else entry_of(item)
    return crash_model.Change(WHAT[item.what], item.name.decode(), item.moment, entry)


def state_of(disk, source):
    """Return the state of a source that opens. A damaged body is None."""
    return crash_model.State(
        base=source.base.decode(),
        limit=source.limit,
        last=source.last,
        held={record.name.decode(): (body_of(disk, record), entry_of(record)) for record in items_of(source.catalogue)},
        changes=tuple(change_of(change) for change in items_of(source.changes)),
        number=source.number,
        at=source.at,
        listed={record.name.decode(): entry_of(record) for record in items_of(source.published)},
        first=source.first,
        begin=source.begin,
    )
