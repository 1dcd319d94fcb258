"""Sound sources for the search: small ones with known fields, results of commands, and random ones.

A source is a function that builds a disk with changes of fields (damaged_disks.py); a disk without known fields takes
no changes.
"""
import collections

from tests.disks import commanded_disks, damaged_disks, made_disks
from tests.reading.disk_formats import BLOCK, CHANGES, CREATED, DELETED, OLD_VERSION, RECORDS, UPDATED
from tests.reading.disk_formats import VERSION, change_fields, page_fields, record_fields, spelled

# The sources whose fields are all set to their edge values.
FIELDS = ["sound", "shared", "unpublished", "unchanged", "empty", "two_held_pages", "two_change_pages",
          "two_listed_pages", "both_shared"]
FIELDS += ["first_shared", "last_shared", "none_shared", "held_past_a_block", "changes_past_a_block",
           "listed_past_a_block"]
FIELDS += ["part_dropped", "all_dropped", "empty_of_version_1"]
SPELLED = {name: damaged_disks.DISKS[name] for name in [*FIELDS, "sound_of_version_1", "five_of_version_1"]}
WHOLE = [*commanded_disks.DISKS.values(), made_disks.DISKS["lists_of_one_page"], made_disks.DISKS["two_puts_4096"]]
NAMES = [b"%41", b"A", b"a", b"a/b", b"a/b/c", b"b", b"x&y", b"o'k", b"x&amp;y", b"p(1)", b"q;r=s,t", b"m@h:1",
         b"~u_v-w.x", b"...", b"n" * 240]
TYPES = [b"text/plain", b'text/html; charset="utf-8"', b"a/b", b"a/b; x=<y>&'z'", b"x/" + b"y" * 98]
BASES = [b"http://127.0.0.1:8080", b"http://a", b"https://a.b/c", b"https://" + b"a" * 120]
LENGTHS = (0, 0, 1, 5, 40, 511, 512, 513, 1024, 1500)
# The time in milliseconds between two commands.
LATER = (1, 1, 1, 2, 1_000, 86_400_000)
# The fields of a record without its block, which is known once all parts are placed, and its body.
Put = collections.namedtuple("Put", "name kind body moment")


class Commands:
    """Random commands, and the lists that result. Version 1 drops no changes."""

    def __init__(self, rng, count, limit, version):
        self.start = self.begin = self.last = self.at = rng.choice((0, 1_000, 951_782_400_000))
        self.number, self.resources, self.changes, self.listed, self.is_listed = 0, {}, [], {}, False
        self.limit, self.version, self.first = limit, version, 0
        for _ in range(count):
            self.last += rng.choice(LATER)
            kind, name = rng.random(), rng.choice(NAMES)
            if kind < 0.15:
                self.publish()
            elif kind < 0.35 and name in self.resources:
                del self.resources[name]
                self.change(change_fields(DELETED, name, self.last))
            else:
                self.put(Put(name, rng.choice(TYPES), rng.randbytes(rng.choice(LENGTHS)), self.last))

    def publish(self):
        """Publish, and drop the parts that need not be kept."""
        moments = [int.from_bytes(change["moment"], "big") for change in self.changes]
        parts = 0 if self.version == OLD_VERSION else sum(moment <= self.at for moment in moments) // self.limit
        count = parts * self.limit
        self.first, self.begin = self.first + parts, moments[count - 1] if count else self.begin
        self.changes = self.changes[count:]
        self.number, self.at, self.listed, self.is_listed = self.number + 1, self.last, self.resources.copy(), True

    def put(self, resource):
        """Put a resource."""
        what = UPDATED if resource.name in self.resources else CREATED
        self.resources[resource.name] = resource
        self.change(change_fields(what, resource.name, resource.moment, resource.body, resource.kind))

    def change(self, fields):
        """Add a change, so that the list differs from the held resources."""
        self.changes.append(fields)
        self.is_listed = False


class Places:
    """An allocator of blocks, with gaps between them."""

    def __init__(self, rng):
        self.rng, self.next = rng, 2

    def of(self, length):
        """Return the first block for this many bytes, after the earlier ones or further on."""
        first = self.next + self.rng.choice((0, 0, 0, 1, 3))
        self.next = first + (length + BLOCK - 1) // BLOCK
        return first


def records_of(puts, firsts):
    """Return the fields of records, ordered by name."""
    return [record_fields(put.name, put.body, put.moment, firsts.get(put, 2), put.kind)
            for _, put in sorted(puts.items())]


def pages_of(rng, kind, items, names):
    """Return one page or two of these items, with their names in the disk's description."""
    cut = rng.randrange(1, len(items)) if len(items) > 1 and rng.random() < 0.5 else len(items)
    parts = [part for part in (items[:cut], items[cut:]) if part]
    return {name: page_fields(kind, {f"{i}": item for i, item in enumerate(part)}) for name, part in zip(names, parts)}


def at_random(rng):
    """Return a function that builds the result of random commands."""
    base, limit, version = rng.choice(BASES), rng.choice((2, 2, 3, 5,
                                                          4_000)), rng.choice((OLD_VERSION, *3 * (VERSION,)))
    commands, places = Commands(rng, rng.randrange(30), limit, version), Places(rng)
    firsts = {put: places.of(len(put.body)) for put in commands.resources.values()}
    pages = pages_of(rng, RECORDS, records_of(commands.resources, firsts), ("held", "more_held"))
    if commands.is_listed and rng.random() < 0.7:
        pages |= {name.replace("held", "listed"): name for name in pages}
    else:
        pages |= pages_of(rng, RECORDS, records_of(commands.listed, firsts), ("listed", "more_listed"))
    pages |= pages_of(rng, CHANGES, commands.changes, ("changes", "more_changes"))
    lengths = {name: len(spelled(page)) for name, page in pages.items() if not isinstance(page, str)}
    lengths["directory"] = (47 if version == OLD_VERSION else 63) + len(base) + 44 * len(pages)
    placed = [f"{name}.block={places.of(length)}" for name, length in lengths.items()]
    header = {"start": commands.start, "last": commands.last, "publication": commands.number, "at": commands.at,
              "limit": limit, "base": base, "version": version}
    if version != OLD_VERSION:
        header |= {"first": commands.first, "begin": commands.begin}
    bodies = [(first, put.body) for put, first in firsts.items()]
    disk = damaged_disks.source(pages, bodies, max(16, places.next + rng.randrange(3)), **header)

    def spelled_so(*changes):
        return disk(*placed, *changes)

    spelled_so.fields = disk.fields
    return spelled_so


def any_source(rng):
    """Return a sound source of any kind."""
    choice = rng.random()
    if choice < 0.4:
        return at_random(rng)
    return rng.choice(WHOLE if choice < 0.6 else list(SPELLED.values()))
