"""The parts of a disk as bytes, from the tables of docs/DISK.md, independent of the program."""
import struct

from tests.reading.disk_formats import BASE, OLD_VERSION, VERSION, change_fields, entry_fields, record_fields
from tests.reading.disk_formats import slot_fields, spelled


def record(*arguments, **fields):
    """Return a record of a resource whose body starts in block `first`."""
    return spelled(record_fields(*arguments, **fields))


def change(*arguments, **fields):
    """Return a change: 1 created, 2 updated, 3 deleted."""
    return spelled(change_fields(*arguments, **fields))


def page(kind, items):
    """Return a page: 1 of records, 2 of changes."""
    return struct.pack(">BI", kind, len(items)) + b"".join(items)


def entry(first, data):
    """Return a page's entry in the directory."""
    return spelled(entry_fields(first, data))


def directory(last, number=0, at=0, lists=((), (), ()), limit=2, base=BASE, start=0, first=0, begin=None,
              version=VERSION):
    """Return a directory. `lists` has the entries of the pages of the catalogue, the changes and the published list."""
    head = struct.pack(">HB", limit, len(base)) + base + struct.pack(">QQQQ", start, last, number, at)
    if version != OLD_VERSION:
        head += struct.pack(">QQ", first, start if begin is None else begin)
    counts = struct.pack(">III", *map(len, lists))
    return head + counts + b"".join(b"".join(entries) for entries in lists)


def slot(*arguments, **fields):
    """Return a slot that points to a directory."""
    return spelled(slot_fields(*arguments, **fields))
