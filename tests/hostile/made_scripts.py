"""The scripts of the search (tests/hostile/test_lines.py), made from a number and the seed.

A script has some lines that change the source, some with one field at an edge, some lawful lines with a byte changed,
and some with random changes. Successive scripts cover all edges and all changes of all bytes of every kind of line, in
a spread-out order; a search of 100,000 lines has them all.
"""
import collections
import itertools
import random
import re

from tests.hostile.made_fields import BAD_NAMES, BAD_TYPES, HEADS, NAMES, PATHS, TYPES, all_changes, changed
from tests.hostile.made_fields import pieces_of, scribbled

# A script: its description, the program's arguments, its bytes, and its pieces.
Made = collections.namedtuple("Made", "what size base limit data way pieces")
# The sizes of disks; the large one has room for the longest body and little more.
SIZE, LARGE = 524_288, 17_825_792
BASES = ["http://127.0.0.1:8080", "http://a", "https://a.b/c", "https://" + "a" * 120]
LIMITS = [2, 2, 2, 3, 4, 5, 7, 4_000]
# The numbers of lines with an edge, with a changed byte, and of further random lines in a script.
EDGES_IN, CHANGES_IN, MORE = 22, 28, range(20, 150)
LINES_IN = 120
LONGEST = 33_600_000
LAST = b"253402300799999"
MOMENTS = [b"0", b"00", b"1", b"000000000000001", b"951782400000", b"1" * 14, b"000951782400000"]
BAD_MOMENTS = [
    b"", b"253402300800000", b"9" * 15, b"0" * 16, b"1" * 16, b"-1", b"+1", b"1.5", b"1e3", b"1_0", b"0x1",
    b"\xd9\xa1", b"1\t", b"\t1", b"1\0", b"0000951782400000", b"12345678901234567890",
]
BODIES = [b"-", b"00", b"616263", b"6A6b", b"fF", b"ff" * 16, b"0123456789abcdefABCDEF"]
BAD_BODIES = [
    b"", b"6", b"616", b"6g", b"g6", b"--", b"-6", b"6-", b"0x61", b"+1", b"_1", b"6_61", b"\xff\xff", b"6\t",
    b"\xd9\xa1",
]
TEMPLATES = [
    b"at 951782400000", b"put a/b%41 6a6B text/plain; a=b", b"put c - a/b", b"delete a/b%41", b"publish",
    b"status", b"verify", b"show /resourcelist.xml", b"show /resource/a/b%41", b"show /changelist/1.xml",
    b"show /resourcelist/1/0.xml", b"show /.well-known/resourcesync", b"show /capabilitylist.xml",
    b"group 2\nput c - a/b\ndelete a/b%41",
]
NONE = [
    b"", b" ", b"  ", b"\t", b"\0", b"a", b"put", b"put ", b"put a", b"put a ", b"put a -", b"put a - ",
    b"put  - a/b", b"put a  a/b", b"put  a - a/b", b"put a  - a/b", b"put a -  a/b", b"put\ta\t-\ta/b",
    b" put a - a/b", b"puts a - a/b", b"PUT a - a/b", b"Put a - a/b", b"pu a - a/b", b"put a - a/b\0", b"at",
    b"at ", b"at  1", b"at 1 ", b"at 1 2", b" at 1", b"AT 1", b"a 1", b"att 1", b"delete", b"delete ",
    b"delete  a", b"delete a ", b"delete a b", b"DELETE a", b"deleted a", b"publish ", b"publish a", b" publish",
    b"PUBLISH", b"publis", b"published", b"publish\0", b"publish\t", b"publish\r", b"show", b"show ",
    b"show  /resourcelist.xml", b"show /resourcelist.xml ", b"show /resourcelist.xml a", b"SHOW /changelist.xml",
    b"status ", b"status a", b"STATUS", b"statu", b"statuss", b"verify ", b"verify a", b"VERIFY", b"verif",
    b"\xef\xbb\xbfstatus", b"refused BadLine", b"ok", b"bytes 0", b"GET / HTTP/1.1", b"PUT /resource/a HTTP/1.1",
    b"Host: a", b"%s%n", b"\x1b[A",
]
COUNTS = [
    b"", b"0", b"00", b"1", b"01", b"2", b"16", b"17", b"99", b"001", b"016", b"1x", b"-1", b"+1", b"1 ", b" 1", b"1\t",
    b"\xd9\xa1",
]
EDGES = [
    *NONE,
    b"group", *(b"group " + count for count in COUNTS), b"groups 1", b"GROUP 1", b"group 1 1",
    *(b"at " + moment for moment in MOMENTS + BAD_MOMENTS),
    *(b"put %s - a/b" % name for name in NAMES + BAD_NAMES),
    *(b"put e %s a/b" % body for body in BODIES + BAD_BODIES),
    *(b"put e - " + kind for kind in TYPES + BAD_TYPES),
    *(b"put %s %s %s" % words for words in itertools.product((b".", b"e"), (b"6", b"61"), (b"a", b"a/b"))),
    *(b"delete " + name for name in NAMES + BAD_NAMES),
    *(b"show /resource/" + name for name in NAMES + BAD_NAMES),
    *(b"show " + path for path in PATHS),
]
CHANGES = all_changes(len(TEMPLATES), [len(template) for template in TEMPLATES])
random.Random(1).shuffle(EDGES)
random.Random(2).shuffle(CHANGES)


class Maker:
    """Makes lines that change a source, and estimates its state."""

    def __init__(self, rng, limit):
        self.rng, self.limit, self.names = rng, limit, rng.sample(NAMES, 7)
        self.now, self.changes, self.number, self.latest = 951_782_400_000, 0, 0, b"put a - a/b"

    def put(self):
        """Return a put, sometimes equal to the previous one."""
        self.changes += 1
        if self.rng.random() < 0.9:
            length = self.rng.choice((0, 0, 1, 3, 40, 511, 512, 513, 1_024))
            body = self.rng.randbytes(length).hex().encode() or b"-"
            self.latest = b"put %s %s %s" % (self.rng.choice(self.names), body, self.rng.choice(TYPES))
        return self.latest

    def delete(self):
        """Return a line that deletes a random name."""
        self.changes += 1
        return b"delete " + self.rng.choice(self.names)

    def group(self):
        """Return a group of up to five items, mostly acceptable, and rarely a malformed one."""
        lines = [self.put() if self.rng.random() < 0.8 else self.delete()
                 for _ in range(self.rng.choice((1, 2, 2, 3, 5)))]
        if self.rng.random() < 0.1:
            line = self.rng.choice((b"status", b"", b"put", b"publish", self.rng.choice(EDGES)))
            lines[self.rng.randrange(len(lines))] = line
        return b"\n".join([b"group %d" % len(lines), *lines])

    def publish(self):
        """Return a line that publishes."""
        self.number += 1
        return b"publish"

    def at(self):
        """Return a line that sets the time."""
        self.now += self.rng.choice((-1_000, 0, 0, 1, 5, 1_000, 86_400_000))
        return b"at %d" % self.now

    def resource(self):
        """Return the path of a random resource."""
        return b"/resource/" + self.rng.choice(self.names)

    def show(self):
        """Return a line that shows a document or resource, which may be missing."""
        part = self.rng.randrange(self.changes // self.limit + 2)
        number = max(0, self.number - self.rng.choice((0, 0, 0, 1, -1)))
        listed = b"/resourcelist/%d/%d.xml" % (number, self.rng.randrange(5))
        paths = [*HEADS, listed, b"/changelist/%d.xml" % part, self.resource()]
        path = self.rng.choice(paths)
        return b"show " + (path if self.rng.random() < 0.85 else re.sub(rb"/(?=[0-9])", b"/0", path))

    def lawful(self):
        """Return a line that most sources accept."""
        counts = ((self.put, 30), (self.delete, 9), (self.group, 5), (self.publish, 8), (self.at, 5), (self.show, 40))
        kinds = [*counts, (lambda: b"status", 5), (lambda: b"verify", 3)]
        return self.rng.choices([maker for maker, _ in kinds], [weight for _, weight in kinds])[0]()

    def any(self):
        """Return a line: lawful, at an edge, or changed at random."""
        choice = self.rng.random()
        if choice < 0.75:
            return self.lawful()
        return scribbled(self.rng, self.lawful()) if choice < 0.95 else self.rng.choice(EDGES)


def in_turn(every, number, count):
    """Return the share of these for the script of this number."""
    return [every[at % len(every)] for at in range(number * count, (number + 1) * count)]


def usual(rng, number, limit, more=MORE):
    """Return edges, changes and random lines, in any order."""
    maker = Maker(rng, limit)
    lines = in_turn(EDGES, number, EDGES_IN)
    lines += [changed(TEMPLATES[template], at, way) for template, at, way in in_turn(CHANGES, number, CHANGES_IN)]
    rng.shuffle(lines)
    return mixed(rng, lines, [maker.any() for _ in range(rng.choice(more))])


def mixed(rng, lines, others):
    """Merge two lists at random, each in its order."""
    picks = [0] * len(lines) + [1] * len(others)
    rng.shuffle(picks)
    lists = iter(lines), iter(others)
    return [next(lists[pick]) for pick in picks]


def at_the_end(rng, number, limit):
    """Return lines that reach the last moment, at once or after a few commands."""
    lines = usual(rng, number, limit)
    half = len(lines) // 2
    return [*lines[:half], b"at %d" % (int(LAST) - rng.randrange(4)), *lines[half:]]


def long_lines(rng, number, limit):
    """Return lines near the greatest length, and bodies near the greatest length."""
    front = b"put %s " % rng.choice(NAMES[:9])
    every = [
        lambda: b"x" * LONGEST + b"\r",
        lambda: b"x" * (LONGEST + 1),
        lambda: b"x" * LONGEST,
        lambda: front + b"ab" * 16_777_216 + b" a/b",
        lambda: front + b"AB" * 16_777_217 + b" a/b",
        lambda: b"put e - a/" + b"b" * (LONGEST - 10),
        lambda: b"show /resource/" + b"n" * (LONGEST - 14),
        lambda: b" " * LONGEST,
        lambda: b"publish" + b"\0" * (LONGEST - 6),
        lambda: b"at " + b"0" * (LONGEST - 3),
        lambda: front + b"0" * (LONGEST - len(front)),
        lambda: b"\r" * (LONGEST + 1),
        lambda: b"status" + b"\r" * (LONGEST - 6),
    ]
    first = number // TURNS * 2
    return mixed(rng, usual(rng, number, limit, [20]), [every[turn % len(every)]() for turn in (first, first + 1)])


def large_bodies(rng, number, limit):
    """Return lines with bodies larger than the disk."""
    over = [b"put %s %s %s" % (rng.choice(NAMES[:9]), b"00" * (SIZE + more), rng.choice(TYPES)) for more in (1, 512)]
    return mixed(rng, usual(rng, number, limit), over)


# The kinds of scripts with some of these numbers; all others are usual.
TURNS = 120
KINDS = {11: long_lines, 5: at_the_end, 45: at_the_end, 85: at_the_end, 3: large_bodies, 83: large_bodies}


def ended(rng, lines):
    """Return the bytes of lines, the last one perhaps without a line end."""
    mixed_ends, odd_ends = [b"\n", b"\n", b"\r\n", b"\r\r\n", b"\n\r"], [b"\n"] * 20 + [b"\n\n", b"\r", b""]
    ends = rng.choice(([b"\n"], [b"\n"], [b"\r\n"], mixed_ends, odd_ends))
    last = rng.choice((b"\n", b"\n", b"\n", b"", b"", b"\r", b"\r\n", b"\n\n", b"\n\r"))
    return b"".join(line + rng.choice(ends) for line in lines[:-1]) + lines[-1] + last


def script_of(seed, number):
    """Return the script of this number."""
    rng = random.Random(f"script {seed} {number}")
    kind, limit = KINDS.get(number % TURNS, usual), rng.choice(LIMITS)
    data = ended(rng, kind(rng, number, limit))
    if kind is usual and rng.random() < 0.2:
        data = scribbled(rng, data)
    if kind is usual and rng.random() < 0.1:
        data = data[: rng.randrange(len(data) + 1)]
    way = rng.choice(("whole", "whole", "bytes", "random")) if len(data) < 100_000 else "whole"
    size = LARGE if kind is long_lines else SIZE
    what = f"{kind.__name__.replace('_', ' ')}, limit {limit}, given {way}"
    return Made(what, size, rng.choice(BASES), limit, data, way, pieces_of(rng, data, way))
