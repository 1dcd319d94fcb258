"""The disk after every command of a run, block by block, by the rules of docs/DISK.md.

Every disk is the previous one, with the new bodies and pages in the lowest free runs of their sizes, the directory
after them, and the root in the spare slot. All other bytes stay.
"""
from tests.disks import damaged_disks
from tests.disks.damaged_disks import CREATED_FIRST, CREATED_LAST, DELETED_BOTH, FIVE, FIVE_CHANGES, HELLO
from tests.disks.damaged_disks import LISTED, LONG, directory_fields
from tests.reading.disk_formats import CHANGES, CREATED, DELETED, RECORDS, UPDATED, change_fields
from tests.reading.disk_formats import entry_fields, header_fields, laid_out, over, page_fields, record_fields
from tests.reading.disk_formats import slot_fields, spelled


def commanded(before, slot, generation, directory, pages, bodies=(), start=1000, **header):
    """Return the disk after a command. `pages` has the block and the fields of every page of the new root."""
    parts = {name: (block, spelled(fields)) for name, (block, fields) in pages.items()}
    entries = {name: entry_fields(*part) for name, part in parts.items()}
    data = spelled(directory_fields(header_fields(start=start, **header), entries))
    root = spelled(slot_fields(1, generation, directory, data))
    return over(before, [*bodies, *parts.values(), (directory, data), (slot, root)])


def formatted(limit, base):
    """Return a disk of 16 blocks, formatted at 0."""
    data = spelled({**header_fields(last=0, limit=limit, base=base), "pages": bytes(12)})
    return laid_out(16, [(0, spelled(slot_fields(1, 1, 2, data))), (1, b"\x00\x02"), (2, data)])


A = record_fields(b"a", HELLO, 1006, 8)
B = record_fields(b"b", LONG, 1007, 9)
EMPTY_B = record_fields(b"b", b"", 2003, 0, b"text/html")
C = record_fields(b"c", b"abc", 2000, 6)
PUT_C = {"7": change_fields(CREATED, b"c", 2000, b"abc")}
AFTER_PUT = {**CREATED_FIRST, **DELETED_BOTH, **CREATED_LAST, **PUT_C}
# A publication drops unneeded changes, in parts of two: the first part ends at 1002, before the publication at 1003.
AFTER_PUBLISH = {**DELETED_BOTH, **CREATED_LAST, **PUT_C}
AFTER_DELETE = {**AFTER_PUBLISH, "8": change_fields(DELETED, b"a", 2002)}
AFTER_UPDATE = {**AFTER_DELETE, "9": change_fields(UPDATED, b"b", 2003, b"", b"text/html")}
# Parts 1 and 2 end at 1005 and 1007, before the publication at 2001.
AFTER_ALL = {key: AFTER_UPDATE[key] for key in ("7", "8", "9")}
ALL_THREE = page_fields(RECORDS, {"a": A, "b": B, "c": C})
B_AND_C = page_fields(RECORDS, {"b": EMPTY_B, "c": C})


# Blocks 6, 7 and 11 to 15 are free. A disk of version 1 gets a directory and a slot of version 2.
def after_put(before="sound"):
    """Return a disk after a put of `c`."""
    pages = {"held": (7, ALL_THREE), "changes": (11, page_fields(CHANGES, AFTER_PUT)), "listed": (5, LISTED)}
    return commanded(damaged_disks.DISKS[before](), 1, 2, 12, pages, [(6, b"abc")], last=2000, publication=1, at=1003)


# The old directory and the old pages of the catalogue and of the changes, in blocks 2, 3 and 4, are free.
def after_publish():
    """Return the disk after a publication that follows `after_put`."""
    pages = {"held": (7, ALL_THREE), "changes": (2, page_fields(CHANGES, AFTER_PUBLISH)), "listed": (7, ALL_THREE)}
    return commanded(after_put(), 0, 3, 3, pages, last=2001, publication=2, at=2001, first=1, begin=1002)


# Blocks 4, 5 and 11 to 15 are free; the published page stays in block 7.
def after_delete():
    """Return the disk after a delete of `a` that follows `after_publish`."""
    records = page_fields(RECORDS, {"b": B, "c": C})
    pages = {"held": (4, records), "changes": (5, page_fields(CHANGES, AFTER_DELETE)), "listed": (7, ALL_THREE)}
    return commanded(after_publish(), 1, 4, 11, pages, last=2002, publication=2, at=2001, first=1, begin=1002)


# Blocks 2, 3, 8 and 12 to 15 are free: the old page of changes, the old directory, and the body of `a`.
def after_update():
    """Return the disk after a put of `b` with an empty body that follows `after_delete`."""
    pages = {"held": (2, B_AND_C), "changes": (3, page_fields(CHANGES, AFTER_UPDATE)), "listed": (7, ALL_THREE)}
    return commanded(after_delete(), 0, 5, 8, pages, last=2003, publication=2, at=2001, first=1, begin=1002)


# Blocks 4, 5 and 9 to 15 are free.
def after_all():
    """Return the disk after a publication that follows `after_update`."""
    pages = {"held": (2, B_AND_C), "changes": (4, page_fields(CHANGES, AFTER_ALL)), "listed": (2, B_AND_C)}
    return commanded(after_update(), 1, 6, 5, pages, last=2004, publication=3, at=2004, first=3, begin=1007)


# Blocks 6 to 15 are free. Parts 0 and 1 end at 2 and 6, before the publication at 7; only the change of `e` remains.
def five_published():
    """Return a disk of version 1 with five resources, after a publication by version 2."""
    records, changes = page_fields(RECORDS, FIVE), page_fields(CHANGES, {"e": FIVE_CHANGES["e"]})
    pages = {"held": (3, records), "changes": (6, changes), "listed": (3, records)}
    before = damaged_disks.DISKS["five_of_version_1"]()
    return commanded(before, 1, 2, 7, pages, start=0, last=9, publication=4, at=9, first=2, begin=6)


# A copy of the disk `after_delete` has 32 blocks: the bodies in the order of their names, the pages, all unshared, and
# the directory, in that order and each in the lowest free run; a root of generation 1 in the first slot; and a second
# slot with a closed gate. The published record of `a`, which is no longer held, has block 0 and as many blocks as its
# length needs.
def copied():
    """Return a copy of the disk `after_delete`."""
    b, c = record_fields(b"b", LONG, 1007, 2), record_fields(b"c", b"abc", 2000, 4)
    listed = page_fields(RECORDS, {"a": record_fields(b"a", HELLO, 1006, 0), "b": b, "c": c})
    pages = {"held": (5, page_fields(RECORDS, {"b": b, "c": c})), "changes": (6, page_fields(CHANGES, AFTER_DELETE)),
             "listed": (7, listed)}
    return commanded(bytes(32 * 512), 0, 1, 8, pages, [(2, LONG), (4, b"abc")], last=2002, publication=2, at=2001,
                     first=1, begin=1002)


DISKS = {
    "formatted": lambda: formatted(2, b"http://127.0.0.1:8080"),
    "after_put": after_put,
    "after_publish": after_publish,
    "after_delete": after_delete,
    "after_update": after_update,
    "after_all": after_all,
    "after_put_on_version_1": lambda: after_put("sound_of_version_1"),
    "five_published": five_published,
    "copied": copied,
}
