"""Disks of whole sources for the sessions: some that a few commands lead to, and sources at a limit that commands would
take too long to reach.
"""
import base64
import zlib
from collections.abc import Callable
from itertools import accumulate

from tests.reading import disk_parts as parts_of
from tests.reading.disk_formats import BLOCK, OLD_VERSION, VERSION, laid_out
from tests.rows.reader import ROWS

# The most held resources, and the most kept changes.
MOST = 50_000
# The last generation of a root, and the last number of a publication.
LAST = 2**64 - 1
# 2000-02-29T00:00:00.000Z
LEAP_DAY = 951_782_400_000


def source(parts, header, generation, blocks, version=VERSION):
    """Return a disk with the first slot open, the second closed, and the directory in block 2."""
    return laid_out(blocks, [(0, parts_of.slot(1, generation, 2, header, version)), (2, header), *parts])


def empty(size):
    """Return a new source on a disk of `size` bytes; it needs 1,536."""
    return source([], parts_of.directory(0), 1, 128)[:size]


def two_puts(size):
    """Return a source after a put of `a`, a publication and a put of `b`, cut to `size` bytes; it needs 3,584."""
    a = parts_of.record(b"a", b"", LEAP_DAY, 0)
    b = parts_of.record(b"b", b"abc", LEAP_DAY + 2, 6)
    created = [parts_of.change(1, b"a", LEAP_DAY, b""), parts_of.change(1, b"b", LEAP_DAY + 2, b"abc")]
    pages = [(3, parts_of.page(1, [a, b])), (4, parts_of.page(2, created)), (5, parts_of.page(1, [a]))]
    entries = [[parts_of.entry(*page)] for page in pages]
    header = parts_of.directory(LEAP_DAY + 2, number=1, at=LEAP_DAY + 1, lists=entries)
    return source([*pages, (6, b"abc")], header, 4, 128)[:size]


def filled(names, changes, number=0, generation=1, blocks=128):
    """Return resources with empty bodies, all put at 1, and `changes` deletions of `z`, at the moments 1, 2, ..."""
    records = parts_of.page(1, [parts_of.record(name, b"", 1, 0) for name in names])
    deletions = parts_of.page(2, [parts_of.change(3, b"z", moment) for moment in range(1, changes + 1)])
    behind = 3 + (len(records) + BLOCK - 1) // BLOCK
    pages = [(3, records), (behind, deletions)]
    header = parts_of.directory(changes, number=number,
                                lists=[[parts_of.entry(*pages[0])], [parts_of.entry(*pages[1])], []])
    return source(pages, header, generation, blocks)


def lists_of_one_page(blocks=128):
    """Return a disk of version 1 with 70 resources, `r00` to `r69`, in one page.

    They were put at 1 to 69 and, after a publication at 70, at 71.
    """
    names = [b"r%02d" % i for i in range(70)]
    records = [parts_of.record(name, b"", moment, 0) for moment, name in enumerate(names[:-1], 1)]
    created = [parts_of.change(1, name, moment, b"") for moment, name in enumerate(names[:-1], 1)]
    created.append(parts_of.change(1, b"r69", 71, b"hello"))
    pages = [parts_of.page(1, records), parts_of.page(2, created),
             parts_of.page(1, [*records, parts_of.record(b"r69", b"hello", 71, 3)])]
    listed, changes, catalogue = laid_behind(4, pages)
    entries = [[parts_of.entry(*page)] for page in (catalogue, changes, listed)]
    header = parts_of.directory(71, number=1, at=70, lists=entries, limit=34, version=OLD_VERSION)
    return source([(3, b"hello"), catalogue, changes, listed], header, 72, blocks, OLD_VERSION)


def laid_behind(first, pages):
    """Return the pages with their first blocks, one after the other from the block `first` on."""
    starts = accumulate([first, *((len(page) + BLOCK - 1) // BLOCK for page in pages)])
    return list(zip(starts, pages))


# Sizes of a disk of `empty` in bytes: exactly the blocks that a command takes, and one byte fewer.
ROOM = (2048, 2047, 3072, 3071, 3584, 3583)

# Sizes of a disk of `two_puts` in bytes: it ends within a slot, after one or both, after the directory, before the
# body, within its block or after it, or has one or many free blocks.
SIZES = (511, 512, 1023, 1024, 1536, 3071, 3583, 3584, 4096, 65536)


def written_before():
    """Return a file that a program of version 1 wrote (rows/old_disks/version_1.b64: base64 of its zlib)."""
    text = (ROWS / "old_disks/version_1.b64").read_text()
    return zlib.decompress(base64.b64decode(text))


DISKS: dict[str, Callable[..., bytes]] = {
    "written_before": written_before,
    **{f"empty_{size}": lambda size=size: empty(size) for size in ROOM},
    **{f"two_puts_{size}": lambda size=size: two_puts(size) for size in SIZES},
    "lists_of_one_page": lists_of_one_page,
    "most_changes": lambda: filled([b"a"], MOST, blocks=1100),
    "most_resources": lambda: filled([b"%05d" % i for i in range(MOST)], MOST - 1, blocks=20_000),
    "generation_before_the_last": lambda: filled([b"a"], 1, generation=LAST - 1),
    "number_before_the_last": lambda: filled([b"a"], 1, number=LAST - 1),
}
