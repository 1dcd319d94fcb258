"""Edge values of fields, and changed bytes, for the scripts and requests of the search."""
import itertools

NAMES = [
    b"a", b"b", b"A", b"%41", b"%2e", b"%2F%2f", b"...", b"..a", b"a/b", b"a/b/c", b"x&y", b"o'k", b"x&amp;y",
    b"q;r=s,t", b"m@h:1", b"~u_v-w.x", b"!$&'()*+,;=:@", b"resource/a", b"n" * 239, b"n" * 240, b"%41" * 80,
    b"a/" * 119 + b"bc",
]
BAD_NAMES = [
    b"", b"/", b"a/", b"/a", b"a//b", b".", b"..", b"./a", b"../a", b"a/.", b"a/..", b"a/./b", b"a/../b", b"%",
    b"%4", b"%4g", b"%g4", b"a%", b"a%2", b"%%41", b"a\\b", b'a"b', b"a<b", b"a>b", b"a?b", b"a#b", b"a[b", b"a]b",
    b"a^b", b"a`b", b"a{b", b"a|b", b"a}b", b"a\x7fb", b"a\x80b", b"\xc3\xa9", b"\xff", b"a\x01b", b"a\0", b"a\tb",
    b"a\rb", b"n" * 241, b"%41" * 80 + b"a", b"n" * 255, b"n" * 256, b"n" * 496, b"n" * 1_000,
]
TYPES = [
    b"a/b", b"text/plain", b'text/html; charset="utf-8"', b"a/b;", b"a/b c", b"a/b/c", b"a/b; x=<y>&'z'", b"1/2",
    b"!#$%&'*+-.^_`|~/!#$%&'*+-.^_`|~", b"x/" + b"y" * 98, b"x/y" + b" " * 96 + b"z", b"a/b  \\  c", b"a/b(~)",
]
BAD_TYPES = [
    b"", b"a", b"ab", b"abc", b"/", b"a/", b"/b", b"a /b", b"a/ b", b" a/b", b"a/b ", b"a/b  ", b"a/b\t",
    b"a/b\tc", b"a/b\x7f", b"a/b\x80", b"a/\xff", b"a\0/b", b"(/b", b"a/(b", b"a,b/c", b"a/,", b"a//b",
    b"x/" + b"y" * 99, b"x/y" + b" " * 97 + b"z", b"a/b\rc", b"a" * 100, b"x/" + b"y" * 254,
]
# Numbers in a path: some permitted ones, the greatest of 64 bits and the next, and texts that are no numbers.
PLACES = [b"0", b"1", b"2", b"3", b"10", b"18446744073709551615"]
BAD_PLACES = [
    b"", b"00", b"01", b"-1", b"+1", b"1_0", b" 1", b"1 ", b"0x1", b"1.0", b"a", b"%30", b"\xd9\xa1", b"1/1",
    b"18446744073709551616", b"018446744073709551615", b"9" * 40,
]
ALL_PLACES = PLACES + BAD_PLACES
HEADS = [b"/.well-known/resourcesync", b"/capabilitylist.xml", b"/resourcelist.xml", b"/changelist.xml"]
PARTS = [b"/changelist/%s.xml" % place for place in ALL_PLACES]
PARTS += [b"/resourcelist/%s/%s.xml" % places for places in itertools.product(ALL_PLACES, PLACES[:2])]
PARTS += [b"/resourcelist/%s/%s.xml" % places for places in itertools.product(PLACES[:2], ALL_PLACES)]
OTHER_PATHS = [
    b"", b"/", b"//", b"*", b"/resource", b"resource/a", b"/Resource/a", b"//resource/a", b"resourcelist.xml",
    b"/resourcelist", b"/resourcelist/", b"/resourcelist.xml/", b"/resourcelist.XML", b"/Resourcelist.xml",
    b"/resourcelist.xml?", b"/resourcelist.xml#a", b"//resourcelist.xml", b"/./resourcelist.xml",
    b"/resourcelist%2exml", b"/resourcelist/1/0", b"/resourcelist/1/0.xm", b"/resourcelist/1/0.xmll",
    b"/resourcelist/1.xml", b"/resourcelist/1/0/0.xml", b"/changelist/1/0.xml", b"/changelist/", b"/changelist/0",
    b"/changelist.xml0.xml", b"/capabilitylist/0.xml", b"/capabilitylist", b"/.well-known", b"/.well-known/",
    b"/.well-known/resourcesync/", b"/resourcedump.xml", b"/robots.txt", b"/publish/", b"/publish?", b"/Publish",
    b"/publish/1", b"publish", b"/p\xc3\xa9",
]
PATHS = [*HEADS, *PARTS, *OTHER_PATHS, b"/publish"]
# Bytes with a meaning for a parser, and some without.
MARKS = [bytes([byte]) for byte in b"\0\x01\t\n\x0b\x0c\r \"#%&'*+,-./0:;<=>?@Aaz\x7f\x80\xc3\xff"]
WAYS = ["cut", "removed", "doubled"]
WAYS += [*(("set", mark) for mark in MARKS), *(("put in", mark) for mark in MARKS), *range(8)]


def changed(data, at, way):
    """Return the bytes cut at a place, or with a byte there removed, doubled, replaced, inserted or flipped."""
    front, byte, behind = data[:at], data[at : at + 1], data[at + 1 :]
    if way == "cut":
        return front
    if way == "removed":
        return front + behind
    if way == "doubled":
        return front + byte + byte + behind
    if isinstance(way, int):
        return front + bytes([byte[0] ^ 1 << way]) + behind
    return front + way[1] + (behind if way[0] == "set" else byte + behind)


def all_changes(count, lengths):
    """Return all changes of texts of these lengths: the number of the text, the place, and the way."""
    return [(template, at, way) for template in range(count) for at in range(lengths[template]) for way in WAYS]


def scribbled(rng, data):
    """Return the bytes with some changes at random places."""
    for _ in range(rng.choice((1, 1, 1, 2, 3, 8))):
        if data:
            data = wide(rng, data) if rng.random() < 0.3 else changed(data, rng.randrange(len(data)), rng.choice(WAYS))
    return data


def wide(rng, data):
    """Return the bytes with a run removed, doubled, moved or set, or with all spaces, line ends or letters changed."""
    at, size = rng.randrange(len(data)), rng.choice((1, 2, 3, 8, 30))
    front, run, behind, to = data[:at], data[at : at + size], data[at + size :], rng.randrange(len(data))
    ways = [
        lambda: front + behind,
        lambda: front + run + run + behind,
        lambda: (front + behind)[:to] + run + (front + behind)[to:],
        lambda: front + rng.choice(MARKS) * rng.choice((size, 300)) + behind,
        lambda: front + rng.randbytes(size) + behind,
        lambda: data.replace(b" ", rng.choice((b"  ", b"\t", b"", b"\r", b" \t"))),
        lambda: data.replace(b"\n", rng.choice((b"\r\n", b"\n\n", b"\r", b"\r\r\n", b""))),
        lambda: data.swapcase(),
    ]
    return rng.choice(ways)()


def pieces_of(rng, data, way):
    """Split bytes into pieces: whole, byte by byte, or at random."""
    if way == "whole":
        return [data]
    if way == "bytes":
        return [data[at : at + 1] for at in range(len(data))]
    limit, found, at = rng.choice((2, 7, 60, 700)), [], 0
    while at < len(data):
        size = rng.randrange(1, limit + 1)
        found.append(data[at : at + size])
        at += size
    return found
