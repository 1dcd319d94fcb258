"""Disks of any number of resources with empty bodies, in pages by the page rule; the items are cached."""
from functools import cache

from tests.disks.made_disks import laid_behind
from tests.disks.paged_disk import name
from tests.reading import disk_parts as parts_of
from tests.reading import page_rule
from tests.reading.disk_formats import BLOCK, laid_out

# The blocks left for commands, and the item limit.
ROOM, LIMIT = 4_096, 4_000


@cache
def items(count: int, longer: int) -> tuple[list[bytes], list[bytes]]:
    """Return the records and the changes of `count` puts at the moments 1, 2, ...; `longer` lengthens their names."""
    names = [name(at) + b"x" * longer for at in range(count)]
    records = [parts_of.record(resource, b"", moment, 0) for moment, resource in enumerate(names, 1)]
    return records, [parts_of.change(1, resource, moment, b"") for moment, resource in enumerate(names, 1)]


def cut(records: list[bytes]) -> list[list[bytes]]:
    """Cut records into pages; all pages except the last have as many records as a cut leaves."""
    whole = max(len(records) - page_rule.MOST + page_rule.CUT - 1, 0) // page_rule.CUT * page_rule.CUT
    pages = [records[at : at + page_rule.CUT] for at in range(0, whole, page_rule.CUT)]
    return pages + ([records[whole:]] if records[whole:] else [])


def spelled(resources: int, last_changes: int, limit: int, longer: int = 0) -> bytes:
    """Return a disk with `resources` published resources and their last `last_changes` changes.

    `limit`, at least `resources`, is the number of cached items.
    """
    records, changes = items(limit, longer)
    catalogue = [parts_of.page(1, page) for page in cut(records[:resources])]
    history = [parts_of.page(2, changes[at : min(at + page_rule.MOST, resources)])
               for at in range(resources - last_changes, resources, page_rule.MOST)]
    pages = laid_behind(2, [*catalogue, *history])
    entries = [parts_of.entry(*page) for page in pages]
    ours, theirs = entries[: len(catalogue)], entries[len(catalogue) :]
    directory = parts_of.directory(resources + 1, number=1, at=resources + 1, lists=(ours, theirs, ours), limit=LIMIT)
    first = pages[-1][0] + -(-len(pages[-1][1]) // BLOCK) if pages else 2
    end = first + -(-len(directory) // BLOCK) + ROOM
    slot = parts_of.slot(1, resources + 1, first, directory)
    disk: bytes = laid_out(end, [(0, slot), (1, b"\0\2"), *pages, (first, directory)])
    return disk
