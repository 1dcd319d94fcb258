"""Small disks that hold a source, and changes of their fields that may damage them.

A disk is built from the bottom up: its pages, the directory that names them, and the slot that points to the directory.
A change is applied before the part that refers to it is built, so lengths and SHA-256 match it, and it breaks one rule
only:
  PART.FIELD=VALUE    a field of a page (`held`, `changes`, `listed`), of `directory`, of `slot` (block 0) or of
                      `spare` (block 1)
  PART.block=N        the part lies in this block, and references to it say so
  PART.front=N        the part ends after this many bytes
A VALUE is a number of the field's width, `x` and bytes in hexadecimal, or a text. The field `end` is the bytes after a
part.
"""
from tests.reading.disk_formats import CHANGES, CREATED, DELETED, OLD_VERSION, RECORDS, VERSION, change_fields
from tests.reading.disk_formats import entry_fields, header_fields, laid_out, number, page_fields
from tests.reading.disk_formats import record_fields, slot_fields, spelled

# The pages of every list of a directory, and their blocks.
LISTS = {
    "held": {"held": 3, "more_held": 6},
    "changes": {"changes": 4, "more_changes": 7},
    "listed": {"listed": 5, "more_listed": 11},
}


def value_of(text, width):
    """Return the bytes of a VALUE in a field of this width."""
    if text.isdigit():
        return number(int(text), width)
    return bytes.fromhex(text[1:]) if text.startswith("x") else text.encode()


class Changes(dict):
    """Changes not yet applied, and in `met` the fields of the parts before their changes."""

    def __init__(self, changes=()):
        super().__init__(change.split("=", 1) for change in changes)
        self.met = {}

    def part(self, name, fields, block):
        """Apply the changes of a part, and return its block and its bytes."""
        fields = {**fields, "end": b""}
        self.met[name] = fields.copy()
        for field in fields:
            if (value := self.pop(f"{name}.{field}", None)) is not None:
                fields[field] = value_of(value, len(fields[field]))
        block = int(self.pop(f"{name}.block", block))
        front = self.pop(f"{name}.front", None)
        return block, spelled(fields)[: int(front) if front else None]


def pages_of(pages, changes):
    """Return the pages on the disk, and the entries of all pages.

    A page given as the name of another page is that page.
    """
    parts, entries = [], {}
    for blocks in LISTS.values():
        for name, block in blocks.items():
            page = pages.get(name)
            if isinstance(page, str):
                entries[name] = entries[page]
            elif page:
                parts.append(changes.part(name, page, block))
                entries[name] = entry_fields(*parts[-1])
    return parts, entries


def directory_fields(header, entries):
    """Return the fields of a directory: its header, the number of pages of every list, and their entries."""
    counts = {f"{kind}_pages": number(sum(name in entries for name in LISTS[kind])) for kind in LISTS}
    entry_values = {f"{name}.{field}": value for name, entry in entries.items() for field, value in entry.items()}
    return {**header, **counts, **entry_values}


def spell(remaining, pages, bodies, blocks, header):
    """Return the bytes of a disk with the remaining changes, and remove the applied ones from them.

    The header may have the version of the disk.
    """
    version = header.get("version", VERSION)
    parts, entries = pages_of(pages, remaining)
    directory = remaining.part("directory", directory_fields(header_fields(**header), entries), 2)
    slot = remaining.part("slot", slot_fields(1, 1, *directory, version), 0)
    spare = remaining.part("spare", slot_fields(0, 0, *directory, version), 1)
    return laid_out(blocks, [*bodies, slot, spare, directory, *parts])


def source(pages, bodies=(), blocks=16, **header):
    """Return a function that builds a disk with these pages and the changes that it is given.

    Its `fields` returns the fields of every part.
    """

    def disk(*changes):
        remaining = Changes(changes)
        spelled_disk = spell(remaining, pages, bodies, blocks, header)
        if remaining:
            raise ValueError(f"there is no such field: {', '.join(remaining)}")
        return spelled_disk

    def fields():
        met = Changes()
        spell(met, pages, bodies, blocks, header)
        return met.met

    disk.fields = fields
    return disk


def many_records(first, count):
    """Return the fields of a page of `count` records with empty bodies, put at 1001."""
    nameless = spelled(record_fields(b"", b"", 1001, 0))[1:]
    items = b"".join(b"\x05%05d" % i + nameless for i in range(first, first + count))
    return {**page_fields(RECORDS, {}), "count": number(count), "items": items}


def many_changes(first, count):
    """Return the fields of a page of `count` deletions, a millisecond apart."""
    items = b"".join(b"\x03\x01z" + number(1001 + i, 8) for i in range(first, first + count))
    return {**page_fields(CHANGES, {}), "count": number(count), "items": items}


def crowded(name, count, more=0):
    """Return a function that builds a disk with a page of `count` items of a list, and one of `more` items if any."""

    def disk(*changes):
        page = many_changes if name == "changes" else many_records
        pages = {name: page(0, count), **({f"more_{name}": page(count, more)} if more else {})}
        last, at = (1000 + count + more, 1000) if name == "changes" else (1001, 1001)
        behind = [f"more_{name}.block=10000"] if more else []
        return source(pages, blocks=20_000, start=1000, last=last, at=at)(*behind, *changes)

    return disk


HELLO, LONG, OLD = b"hello", b"b" * 513, b"a" * 1024
# Formatted at 1000. `a` and `c` were put and published at 1003.
LISTED = page_fields(RECORDS, {"a": record_fields(b"a", OLD, 1001, 8), "c": record_fields(b"c", b"c", 1002, 10)})
CREATED_FIRST = {"1": change_fields(CREATED, b"a", 1001, OLD), "2": change_fields(CREATED, b"c", 1002, b"c")}
OLD_CHANGES = page_fields(CHANGES, CREATED_FIRST)
OLD_BODIES = [(8, OLD), (10, b"c")]
# Then both were deleted, and `a` was put again, and `b`.
HELD = page_fields(RECORDS, {"a": record_fields(b"a", HELLO, 1006, 8), "b": record_fields(b"b", LONG, 1007, 9)})
DELETED_BOTH = {"3": change_fields(DELETED, b"a", 1004), "4": change_fields(DELETED, b"c", 1005)}
CREATED_LAST = {"5": change_fields(CREATED, b"a", 1006, HELLO), "6": change_fields(CREATED, b"b", 1007, LONG)}
ALL_CHANGES = page_fields(CHANGES, {**CREATED_FIRST, **DELETED_BOTH, **CREATED_LAST})

SOUND = {"held": HELD, "changes": ALL_CHANGES, "listed": LISTED}
BODIES = [(8, HELLO), (9, LONG)]
# Then a publication at 1008 dropped the part with the first two changes; a later one dropped all parts.
CHANGES_LEFT = page_fields(CHANGES, {**DELETED_BOTH, **CREATED_LAST})
PART_DROPPED = {"start": 1000, "last": 1008, "publication": 2, "at": 1008, "first": 1, "begin": 1002}
ALL_DROPPED = {"start": 1000, "last": 1009, "publication": 3, "at": 1009, "first": 3, "begin": 1007}
# Five resources with empty bodies, put between publications at 3, 5 and 7. Version 1 kept all their changes.
FIVE = {name: record_fields(name.encode(), b"", moment, 0) for name, moment in zip("abcde", (1, 2, 4, 6, 8))}
FIVE_CHANGES = {name: change_fields(CREATED, name.encode(), moment) for name, moment in zip("abcde", (1, 2, 4, 6, 8))}
FOUR = {name: FIVE[name] for name in "abcd"}
FIVE_HELD = {"held": page_fields(RECORDS, FIVE), "changes": page_fields(CHANGES, FIVE_CHANGES),
             "listed": page_fields(RECORDS, FOUR)}
# A further page of each list.
MORE_HELD = page_fields(RECORDS, {"d": record_fields(b"d", b"", 1006, 0)})
MORE_CHANGES = page_fields(CHANGES, {"7": change_fields(DELETED, b"b", 1008)})
MORE_LISTED = page_fields(RECORDS, {"d": record_fields(b"d", b"", 1002, 0)})
AFTER_ALL = {"start": 1000, "last": 1007, "publication": 1, "at": 1003}
PUBLISHED_LAST = {"start": 1000, "last": 1003, "publication": 1, "at": 1003}
# Pages of 513 bytes. Their last byte is also the first byte of a page of their kind, which could lie in their second
# block.
PAST_A_BLOCK = page_fields(RECORDS, {"a": record_fields(b"a" * 174, OLD, 1001, 8),
                                     "c": record_fields(b"c" * 174, b"c", 1002, 10)})
DELETIONS = enumerate((b"a" * 159, b"b" * 159, b"c" * 160), 1024)
CHANGES_PAST_A_BLOCK = page_fields(
    CHANGES, {f"{moment}": change_fields(DELETED, name, moment) for moment, name in DELETIONS})
ONE_MORE_CHANGE = page_fields(CHANGES, {"1027": change_fields(DELETED, b"d", 1027)})
# Two pages of records.
TWO_HELD = {"held": LISTED, "more_held": MORE_LISTED, "changes": OLD_CHANGES}

DISKS = {
    # a page of every list
    "sound": source(SOUND, BODIES, **AFTER_ALL),
    # the published list equals the catalogue: one page for both
    "shared": source({"held": LISTED, "changes": OLD_CHANGES, "listed": "held"}, OLD_BODIES, **PUBLISHED_LAST),
    "unpublished": source({"held": LISTED, "changes": OLD_CHANGES}, OLD_BODIES, start=1000, last=1002, at=1000),
    # no changes; no command leaves this
    "unchanged": source({"held": LISTED, "listed": LISTED}, OLD_BODIES, **PUBLISHED_LAST),
    # just formatted
    "empty": source({}, start=1000, last=1000, at=1000),
    # a publication dropped the first part of the changes; and all parts
    "part_dropped": source({"held": HELD, "changes": CHANGES_LEFT, "listed": "held"}, BODIES, **PART_DROPPED),
    "all_dropped": source({"held": HELD, "listed": "held"}, BODIES, **ALL_DROPPED),
    # of version 1
    "sound_of_version_1": source(SOUND, BODIES, version=OLD_VERSION, **AFTER_ALL),
    "empty_of_version_1": source({}, version=OLD_VERSION, start=1000, last=1000, at=1000),
    "five_of_version_1": source(FIVE_HELD, version=OLD_VERSION, start=0, last=8, publication=3, at=7),
    "two_held_pages": source({**SOUND, "more_held": MORE_HELD}, BODIES, **AFTER_ALL),
    "two_change_pages": source({**SOUND, "more_changes": MORE_CHANGES}, BODIES, **{**AFTER_ALL, "last": 1008}),
    "two_listed_pages": source({**SOUND, "more_listed": MORE_LISTED}, BODIES, **AFTER_ALL),
    # two pages in a list; the published list shares both pages of the catalogue, the first, the last, or other ones
    "both_shared": source({**TWO_HELD, "listed": "held", "more_listed": "more_held"}, OLD_BODIES, **PUBLISHED_LAST),
    "first_shared": source({**TWO_HELD, "listed": "held", "more_listed": MORE_LISTED}, OLD_BODIES, **PUBLISHED_LAST),
    "last_shared": source({**TWO_HELD, "listed": LISTED, "more_listed": "more_held"}, OLD_BODIES, **PUBLISHED_LAST),
    "none_shared": source({**TWO_HELD, "listed": LISTED, "more_listed": MORE_LISTED}, OLD_BODIES, **PUBLISHED_LAST),
    "last_alone_shared": source({**TWO_HELD, "listed": "more_held"}, OLD_BODIES, **PUBLISHED_LAST),
    "shared_in_reverse": source({**TWO_HELD, "listed": "more_held", "more_listed": "held"}, OLD_BODIES,
                                **PUBLISHED_LAST),
    # the same page twice in a list
    "shared_twice": source({**TWO_HELD, "listed": "held", "more_listed": "held"}, OLD_BODIES, **PUBLISHED_LAST),
    "listed_twice": source({**SOUND, "more_listed": "listed"}, BODIES, **AFTER_ALL),
    "held_twice": source({**SOUND, "more_held": "held"}, BODIES, **AFTER_ALL),
    "changes_twice": source({**SOUND, "more_changes": "changes"}, BODIES, **AFTER_ALL),
    # two pages in a list; the first has a byte in a second block
    "held_past_a_block": source({"held": PAST_A_BLOCK, "more_held": MORE_LISTED, "changes": OLD_CHANGES}, OLD_BODIES,
                                **PUBLISHED_LAST),
    "changes_past_a_block": source({"changes": CHANGES_PAST_A_BLOCK, "more_changes": ONE_MORE_CHANGE}, start=1000,
                                   last=1027, at=1000),
    "listed_past_a_block": source({**SOUND, "listed": PAST_A_BLOCK, "more_listed": MORE_LISTED}, BODIES, **AFTER_ALL),
    **{f"{count}_{name}": crowded(name, count) for name in LISTS for count in (50_000, 50_001)},
    **{f"25000_and_{more}_{name}": crowded(name, 25_000, more) for name in LISTS for more in (25_000, 25_001)},
}
