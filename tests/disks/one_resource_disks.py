"""Disks of one resource for the sessions, with a changed byte in its record or its change, or with either cut."""
from functools import partial

from tests.reading.disk_formats import laid_out
from tests.reading.disk_parts import change, directory, entry, page, record, slot

GREATEST = 253_402_300_799_999
# 2000-01-01T00:00:00.000Z, the moment when `a/b` was put with the body `hello`, in block 5
MOMENT = 946_684_800_000
HELLO = record(b"a/b", b"hello", MOMENT, 5)
CREATED = change(1, b"a/b", MOMENT, b"hello")


def one_resource(records=page(1, [HELLO]), changes=page(2, [CREATED]), last=MOMENT):
    """Return a source with the directory in block 2, records in block 3, changes in block 4, and a body in block 5."""
    pages = [[entry(first, data)] if data else [] for first, data in [(3, records), (4, changes)]]
    data = directory(last, lists=(*pages, []))
    return laid_out(16, [(0, slot(1, 1, 2, data)), (1, b"\0\2"), (2, data), (3, records), (4, changes), (5, b"hello")])


def other_byte(data, at, byte):
    """Return the data with another byte at a place."""
    return data[:at] + bytes([byte]) + data[at + 1 :]


# The source with another byte at a place of the record or of the change, and with the record or the change cut.
DISKS = {"one_resource": one_resource}
DISKS |= {
    f"record_{at}_{byte}": partial(one_resource, records=page(1, [other_byte(HELLO, at, byte)]))
    for at, byte in [(0, 0), (0, 255), (1, 47), (3, 47), (4, 255), (4, 4), (9, 45), (14, 32), (67, 1)]
}
DISKS |= {
    f"change_{at}_{byte}": partial(one_resource, changes=page(2, [other_byte(CREATED, at, byte)]))
    for at, byte in [(0, 0), (0, 4), (1, 255), (2, 47), (5, 1), (18, 45)]
}
DISKS |= {f"record_to_{at}": partial(one_resource, records=page(1, [HELLO[:at]])) for at in range(len(HELLO))}
DISKS |= {f"change_to_{at}": partial(one_resource, changes=page(2, [CREATED[:at]])) for at in range(len(CREATED))}
DISKS["record_and_a_byte"] = partial(one_resource, records=page(1, [HELLO + b"\0"]))
DISKS["deletion_to_12"] = partial(one_resource, b"", page(2, [change(3, b"a/b", MOMENT)[:12]]))
# Another source, with a deletion of `a` at the last moment, or one millisecond past it.
DISKS["deletion_at_the_last_moment"] = partial(one_resource, b"", page(2, [change(3, b"a", GREATEST)]), GREATEST)
DISKS["deletion_past_the_last_moment"] = partial(one_resource, b"", page(2, [change(3, b"a", GREATEST + 1)]), GREATEST)
