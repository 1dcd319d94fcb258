"""The rules between the parts of a source's file (lists, moments and blocks) by docs/DISK.md ("What an image stands
for"). The rules of the formats are in disk/formats.py.
"""
from __future__ import annotations

import itertools
from collections.abc import Sequence

from ropepeach.disk.formats import (
    LAST_MOMENT, MOST_ITEMS, Extent, Header, Image, KeptChange, Page, Record, hold, items_of,
)


def check_moments(header: Header) -> None:
    """Check the moments and the dropped parts of the directory."""
    hold(header.last <= LAST_MOMENT, "the last moment is in the year 9999 at the latest")
    hold(header.start <= header.begin <= header.at <= header.last,
         "the moments of formatting, of the begin of the changes, of the publication and of the last command "
         "follow in this order")
    hold(header.first <= header.begin - header.start,
         "no more parts of the changes were dropped than there are milliseconds before their begin")
    hold(header.first or header.begin == header.start, "where no part was dropped, the changes begin at the formatting")


def check_records(header: Header, pages: Sequence[Page[Record]], latest: int, what: str) -> None:
    """Check the current resources, or the published ones."""
    records = items_of(pages)
    hold(len(records) <= MOST_ITEMS, "{} has at most 50,000 records, and this one has {:,}", what,
         len(records))
    for before, record in itertools.pairwise(records):
        hold(before.name < record.name, "the names of {} ascend, and {} comes behind {}", what, record.name,
             before.name)
    for record in records:
        hold(header.start < record.moment <= latest,
             "the moments of {} are in their bounds, and that of {} is not", what, record.name)


def check_changes(header: Header, pages: Sequence[Page[KeptChange]]) -> None:
    """Check the kept changes."""
    changes = items_of(pages)
    hold(len(changes) <= MOST_ITEMS, "at most 50,000 changes are kept, and these are {:,}", len(changes))
    for before, change in itertools.pairwise(changes):
        hold(before.moment < change.moment, "the moments of changes rise, and that of {} does not behind {}",
             change.name, before.name)
    for change in changes:
        hold(header.begin < change.moment <= header.last,
             "the moments of changes are in their bounds, and that of {} is not", change.name)
    newest = max(header.at, changes[-1].moment if changes else 0)
    hold(header.last == newest, "the last moment is that of the last change or of the publication, whichever is later")


def check_blocks(extents: Sequence[Extent], total: int) -> None:
    """Check that a used block belongs to one part, and is in the usable part of the file."""
    behind = 0
    for extent in extents:
        hold(extent.first >= behind, "no two things have a block in common, and block {} is used twice", extent.first)
        behind = extent.first + extent.blocks
    hold(behind <= total, "all that is used lies in the {:,} blocks of the file, and something ends before block {:,}",
         total, behind)


def check_image(source: Image) -> None:
    """Check every rule between the parts."""
    check_moments(source.header)
    check_records(source.header, source.catalogue, source.header.last, "the list of what is held")
    check_records(source.header, source.published, source.header.at, "the list of what is published")
    check_changes(source.header, source.changes)
    check_blocks(source.extents, source.blocks)
