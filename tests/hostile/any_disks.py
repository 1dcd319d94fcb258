"""The disks of the search (tests/hostile/test_disks.py), made from a number and the seed.

Every kind has a share of a hundred numbers. Four kinds first cover all their cases in a spread-out order, and then draw
at random: all bits of a small disk, all edges of all fields, all bits of all fields, all cuts of parts. The shares are
large enough that 100,000 disks cover them. After a change of a field or a cut, the parts that point to it are written
again with right lengths and SHA-256, so that exactly one rule is broken.
"""
import math
import random

from tests.disks import made_disks
from tests.disks.damaged_disks import directory_fields
from tests.hostile import any_sources
from tests.hostile.any_sources import BASES, NAMES, SPELLED, TYPES, any_source
from tests.reading.disk_formats import BLOCK, CHANGES, OLD_VERSION, RECORDS, VERSION, change_fields
from tests.reading.disk_formats import entry_fields, header_fields, laid_out, number, record_fields
from tests.reading.disk_formats import slot_fields, spelled

SMALL = made_disks.DISKS["two_puts_3584"]()
# Steps through the cases of a kind; at least one is coprime to their number.
STEPS = (7_919, 7_927)
# 9999-12-31T23:59:59.999Z, and the moments near those of the sources.
MOMENTS = (1, 999, 1000, 1001, 1003, 1004, 1007, 1008, 2**63, 253_402_300_799_999, 253_402_300_800_000, 2**64 - 2)
# Blocks of the sources, lengths of bodies and of pages, and the limits of items, blocks and bodies.
NUMBERS = (*range(1, 17), 511, 512, 513, 1024, 49_999, 50_000, 50_001, 8_388_607, 8_388_608, 16_777_216, 16_777_217,
           2**31)
MARKS = {1: (1, 2, 3, 4, 47, 127, 128, 240, 241), 2: (1, 2, 3_999, 4_000, 4_001), 4: NUMBERS, 8: MOMENTS}
# Numbers of dropped parts, and one more.
FIRSTS = (2, 3, 7, 8)
# The fields that contain moments.
WHENS = ("moment", "last", "at", "start", "begin")
SIZES = (0, 1, 512, 513, 1_024, 7_168, 65_536, 16_777_216, 16_777_217, 2**32 - 1)
BAD_NAMES = [b"", b"a//b", b"a/", b"/a", b"/", b".", b"..", b"a/..", b"./a", b"a/./b", b"%", b"%4", b"%4g"]
BAD_NAMES += [b"a b", b"a\0", b"\xff", b"n" * 241, b"n" * 255]
BAD_TYPES = [b"", b"a", b"a/", b"/b", b"a/b ", b"a b/c", b"a/b\x7f", b"a/b\n", b"a/\xff", b"x/" + b"y" * 99, b"a" * 255]
BAD_BASES = [b"", b"http://", b"https://", b"http://a/", b"ftp://abc", b"HTTP://a", b"http://a?", b"http://a b",
             b"https://" + b"a" * 121]
TEXTS = {"name": NAMES + BAD_NAMES, "type": TYPES + BAD_TYPES, "base": BASES + BAD_BASES}


def numbers(width, value, more=()):
    """Return the edge values of a number of this width in bytes that has this value."""
    every = {0, *more, *MARKS[width], value - 1, value + 1, 2 ** (8 * width) - 1}
    return [number(edge, width) for edge in sorted(every - {value}) if 0 <= edge < 2 ** (8 * width)]


def set_to(field, value):
    """Return the change that sets a field to these bytes."""
    return f"{field}=x{value.hex()}"


def edges(part, field, value):
    """Return the changes that set a field to its edge values. A text gets its length; a longer page goes to the end."""
    where, name = f"{part}.{field}", field.rsplit(".")[-1]
    if name in TEXTS:
        texts = [text for text in TEXTS[name] if text != value]
        moved = [f"{part}.block=12"] if part not in ("slot", "spare") else []
        return [[set_to(f"{where}_length", number(len(text), 1)), set_to(where, text), *moved] for text in texts]
    if name == "end":
        return [[set_to(where, data)] for data in (b"\0", b"\1" * 44, b"\xff" * 600)]
    if name in ("md5", "sha256"):
        return [[set_to(where, data)]
                for data in (bytes(len(value)), b"\xff" * len(value), bytes([value[0] ^ 1]) + value[1:])]
    more = FIRSTS if where == "directory.first" else ()
    return [[set_to(where, data)] for data in numbers(len(value), int.from_bytes(value, "big"), more)]


def lengths(part, of):
    """Return the changes that set a length to its edge values, and its number of blocks to match."""
    pairs = [(f"{part}.{field}", f"{part}.{field.removesuffix('length')}blocks") for field in of
             if f"{field.removesuffix('length')}blocks" in of]
    return [[f"{length}={size}", f"{blocks}={(size + BLOCK - 1) // BLOCK}"] for length, blocks in pairs
            if length != blocks for size in SIZES]


def an_edge_of(fields, rng):
    """Return the changes that set a random field to an edge value."""
    part = rng.choice(list(fields))
    field, value = rng.choice(list(fields[part].items()))
    beside = {name: 0 for name in fields[part] if name.startswith(field.removesuffix("length"))}
    return rng.choice([*edges(part, field, value), *lengths(part, beside)])


def all_edges(fields):
    """Return the changes that set every field of every part to its edge values."""
    single = [edge for part, of in fields.items() for field, value in of.items() for edge in edges(part, field, value)]
    return single + [edge for part, of in fields.items() for edge in lengths(part, of)]


def with_bit(part, field, value, bit):
    """Return the change that flips a bit of a field."""
    return [set_to(f"{part}.{field}", (int.from_bytes(value, "big") ^ (1 << bit)).to_bytes(len(value), "big"))]


def a_bit_of(fields, rng):
    """Return the change that flips one bit of a random field that is not empty."""
    part = rng.choice(list(fields))
    field, value = rng.choice([pair for pair in fields[part].items() if pair[1]])
    return with_bit(part, field, value, rng.randrange(8 * len(value)))


def all_bits(fields):
    """Return the changes that flip every bit of every field."""
    every = [(part, field, value) for part, of in fields.items() for field, value in of.items()]
    return [with_bit(*part, bit) for part in every for bit in range(8 * len(part[2]))]


def cuts(part, of):
    """Return all cuts of a part, and for a page also the empty page."""
    each = [[f"{part}.front={size}"] for size in range(sum(map(len, of.values())))]
    return each + ([[f"{part}.count=0", f"{part}.front=5"]] if "count" in of else [])


def a_cut_of(fields, rng):
    """Return the changes that cut a random part."""
    return rng.choice(cuts(*rng.choice(list(fields.items()))))


CUTS = [(name, cut) for name in ("sound", "two_change_pages") for part in SPELLED[name].fields().items()
        for cut in cuts(*part)]
EDGES = [(name, edge) for name in any_sources.FIELDS for edge in all_edges(SPELLED[name].fields())]
BITS = [("sound", bit) for bit in all_bits(SPELLED["sound"].fields())]


def spread(index, size):
    """Return a number below the size; `size` consecutive indices give all of them."""
    return index * next(step for step in STEPS if math.gcd(step, size) == 1) % size


def turned(disk, bit):
    """Return a disk with one bit flipped."""
    return disk[: bit // 8] + bytes([disk[bit // 8] ^ (1 << bit % 8)]) + disk[bit // 8 + 1 :]


def a_bit_turned(index, rng):
    """Flip one bit of the small disk, and after all its bits some bits of any disk."""
    if index < 8 * len(SMALL):
        bit = spread(index, 8 * len(SMALL))
        return f"bit {bit} of the small disk", turned(SMALL, bit)
    disk = any_source(rng)()
    bits = [rng.randrange(8 * len(disk)) for _ in range(rng.randrange(1, 4))]
    for bit in bits:
        disk = turned(disk, bit)
    return f"bits {bits} of a source", disk


def of_all(every, otherwise, index, rng):
    """Return the changes at an index of the list, or after its end those of a random source."""
    if index < len(every):
        name, changes = every[spread(index, len(every))]
        return f"{name} {' '.join(changes)}", SPELLED[name](*changes)
    disk = any_sources.at_random(rng)
    changes = otherwise(disk.fields(), rng)
    return f"a random source, {' '.join(changes)}", disk(*[change for change in changes if ".block=" not in change])


def a_bit_turned_and_righted(index, rng):
    """Flip a bit of a field; its length and digests agree with it."""
    return of_all(BITS, a_bit_of, index, rng)


def an_edge(index, rng):
    """Set a field to an edge value."""
    return of_all(EDGES, an_edge_of, index, rng)


def a_part_cut(index, rng):
    """Cut a part."""
    return of_all(CUTS, a_cut_of, index, rng)


def some_edges(index, rng):
    """Set two to four fields at once, and some to equal values."""
    name = rng.choice(list(SPELLED))
    fields = SPELLED[name].fields()
    chosen = {}
    for _ in range(rng.randrange(2, 5)):
        chosen |= {change.split("=")[0]: change for change in an_edge_of(fields, rng)}
    if rng.random() < 0.4:
        moment = rng.choice(MOMENTS)
        wide = [f"{part}.{field}" for part, of in fields.items() for field in of if field.rsplit(".")[-1] in WHENS]
        chosen |= {field: f"{field}={moment}" for field in rng.sample(wide, min(len(wide), rng.randrange(1, 4)))}
    return f"{name} {' '.join(chosen.values())}", SPELLED[name](*chosen.values())


def truncated(index, rng):
    """Cut a disk at any byte or near a block boundary, and perhaps fill it to its old length with zeros or ones."""
    disk = any_source(rng)()
    ends = [rng.randrange(len(disk) + 1),
            max(0, rng.randrange(len(disk) // BLOCK + 1) * BLOCK + rng.choice((-1, 0, 1)))]
    size, fill = rng.choice(ends), rng.choice((None, None, b"\0", b"\xff"))
    cut = disk[:size]
    return f"a source cut at {size}, filled with {fill}", cut if fill is None else cut.ljust(len(disk), fill)


def doubled(index, rng):
    """Repeat the whole disk, every block, or its front, or copy one run of blocks over another."""
    disk = any_source(rng)()
    blocks = [disk[at : at + BLOCK] for at in range(0, len(disk), BLOCK)]
    way, at, to = rng.randrange(5), rng.randrange(len(blocks)), rng.randrange(len(blocks))
    run = rng.randrange(1, 5)
    ways = [
        lambda: disk + disk,
        lambda: b"".join(block + block for block in blocks),
        lambda: disk[: at * BLOCK] + disk,
        lambda: b"".join(blocks[:to] + blocks[at : at + run] + blocks[to + run :]),
        lambda: disk[:BLOCK] + disk[:BLOCK] + disk[2 * BLOCK :],
    ]
    return f"a source doubled in way {way}, blocks {at} and {to}", ways[way]()


def with_slot(disk, at, source, generation):
    """Return a disk whose slot has the open root of another disk."""
    opened = next(slot for slot in (source[:BLOCK], source[BLOCK : 2 * BLOCK]) if slot[0] == 1)
    return disk[: at * BLOCK] + opened[:2] + number(generation, 8) + opened[10:] + disk[(at + 1) * BLOCK :]


def spliced(index, rng):
    """Join the front of one disk and the rest of another, mix their blocks, or copy a root between them."""
    one, other = any_source(rng)(), any_source(rng)()
    way, cut, slot = rng.randrange(4), rng.randrange(len(one) + 1), rng.randrange(2)
    picked = [rng.choice((one, other))[at : at + BLOCK] for at in range(0, max(len(one), len(other)), BLOCK)]
    ways = [
        lambda: one[:cut] + other[cut:],
        lambda: one[: cut // BLOCK * BLOCK] + other[cut // BLOCK * BLOCK :],
        lambda: b"".join(picked),
        lambda: with_slot(one, slot, other, rng.choice((0, 1, 2, 2**64 - 1))),
    ]
    return f"two sources spliced in way {way}, at {cut}", ways[way]()


def any_number(rng, width):
    """Return an edge value of this width, or a random number."""
    return rng.choice((*numbers(width, 0), rng.randbytes(width)))


def any_extent(rng):
    """Return a random extent, most often a plausible one."""
    return number(
        rng.randrange(20)) + number(rng.randrange(4)) if rng.random() < 0.8 else any_number(rng, 4) + any_number(rng, 4)


def any_page(rng, kind):
    """Return a page of right items, of items with wrong fields, or of random bytes."""
    way, names = rng.randrange(4), sorted(rng.sample(NAMES, rng.randrange(1, 5)))
    if way == 0:
        return rng.randbytes(rng.randrange(600))
    count = any_number(rng, 4) if way == 1 else number(len(names))
    if way < 3:
        return number(kind, 1) + count + rng.randbytes(rng.randrange(400))
    body = rng.randbytes(rng.choice((0, 5, 513)))
    if kind == RECORDS:
        items = [record_fields(name, body, 1001 + i, 9 + 2 * i) for i, name in enumerate(names)]
    else:
        items = [change_fields(rng.choice((1, 2, 3)), name, 1001 + i, body) for i, name in enumerate(names)]
    for item in items:
        if rng.random() < 0.2:
            field = rng.choice(list(item))
            item[field] = rng.choice((rng.randbytes(len(item[field])), any_number(rng, 1), b""))
    return number(kind, 1) + count + b"".join(map(spelled, items))


def random_directory(rng):
    """Return random bytes, with or without a right header."""
    header = spelled(header_fields(last=1004, start=1000, at=1004)) if rng.random() < 0.7 else b""
    counts = b"".join(rng.choice((number(rng.randrange(3)), any_number(rng, 4))) for _ in range(3)) if header else b""
    entries = [any_extent(rng) + any_number(rng, 4) + rng.randbytes(32) for _ in range(rng.randrange(5))]
    return header + counts + rng.choice((b"".join(entries), rng.randbytes(rng.randrange(300))))


def behind_a_right_root(index, rng):
    """Return a disk whose root, and often directory, are right and point to random bytes."""
    pages = []
    if rng.random() < 0.3:
        directory = random_directory(rng)
    else:
        kinds = {name: kind for name, kind in (("held", RECORDS), ("changes", CHANGES), ("listed", RECORDS))
                 if rng.random() < 0.7}
        pages = [(3 + 2 * i, any_page(rng, kind)) for i, kind in enumerate(kinds.values())]
        entries = {name: entry_fields(*page) for name, page in zip(kinds, pages)}
        header = header_fields(last=rng.choice((1004, 1004, 1004, 1005)), start=1000, at=1004)
        directory = spelled(directory_fields(header, entries))
    slot = spelled(slot_fields(1, 1, 2, directory, rng.choice((OLD_VERSION, *7 * (VERSION,)))))
    parts = [(9, rng.randbytes(6 * BLOCK)), (0, slot), (2, directory), *pages]
    return "random bytes behind a right root", laid_out(16, parts)


def random_source(index, rng):
    """Return a source made by random commands, unchanged or with some edge values."""
    disk = any_sources.at_random(rng)
    fields, chosen = disk.fields(), {}
    for _ in range(rng.choice((0, 0, 1, 1, 2))):
        chosen |= {change.split("=")[0]: change for change in an_edge_of(fields, rng) if ".block=" not in change}
    return f"a random source, {' '.join(chosen.values()) or 'as it is'}", disk(*chosen.values())


def scribbled(index, rng):
    """Overwrite some places of a source after its slots."""
    disk = bytearray(any_source(rng)())
    for _ in range(rng.randrange(1, 5)):
        at, size = rng.randrange(3 * BLOCK, len(disk)), rng.choice((1, 1, 8, 100, 600))
        data = rng.choice((rng.randbytes(size), bytes(size), b"\xff" * size))[: len(disk) - at]
        disk[at : at + len(data)] = data
    return "a source that was scribbled on", bytes(disk)


# The number of disks of every kind, of a hundred.
SHARES = {
    a_bit_turned: 29,
    an_edge: 33,
    a_bit_turned_and_righted: 8,
    random_source: 5,
    some_edges: 5,
    spliced: 4,
    behind_a_right_root: 4,
    scribbled: 4,
    a_part_cut: 3,
    truncated: 3,
    doubled: 2,
}
# The kinds of a hundred numbers, spread out.
TURNS = [turn for _, turn in sorted((((i + 0.5) / share, k), kind) for k, (kind, share) in enumerate(SHARES.items())
                                    for i in range(share))]


def disk_of(seed, at):
    """Return the description and the bytes of the disk of this number."""
    hundred, turn = divmod(at, len(TURNS))
    kind = TURNS[turn]
    index = hundred * SHARES[kind] + TURNS[:turn].count(kind)
    what, disk = kind(index, random.Random(f"{seed} {at}"))
    return f"{kind.__name__}: {what}", disk
