"""The requests of the search (tests/hostile/test_requests.py), made in rounds from a number and the seed.

A round has some requests with one part at an edge, some lawful requests with a byte changed, and random requests, most
of them with one or two wrong parts. Successive rounds cover all edges, and all changes of all bytes of some requests.
"""
import collections
import itertools
import random

from tests.hostile import made_scripts
from tests.hostile.made_fields import BAD_NAMES, BAD_TYPES, HEADS, NAMES, PATHS, TYPES, all_changes, changed
from tests.hostile.made_fields import pieces_of, scribbled
from tests.hostile.made_scripts import in_turn

# A request: its description, its bytes, its pieces, and how the client ends: by ending its output, by leaving, or by a
# A request: its description, its bytes, their pieces, and how the client ends: half-closed, leaving, or by a reset.
Made = collections.namedtuple("Made", "what data way pieces ending")
EDGES_IN, CHANGES_IN, MORE = 110, 100, 190
REQUESTS_IN = EDGES_IN + CHANGES_IN + MORE
# The longest body, except for bodies longer than any disk here.
LONG = 60_000
HOST = (b"Host", b"a")
METHODS = [
    b"GET", b"HEAD", b"PUT", b"DELETE", b"POST", b"OPTIONS", b"PATCH", b"TRACE", b"CONNECT", b"get", b"Put",
    b"GETS", b"GE", b"G",
]
BAD_METHODS = [b"", b"G(T", b"GET,", b"G\xc3T", b"GET\t", b"\0", b"P:UT", b"!#$%&'*+-.^_`|~", b"M" * 300]
VERSIONS = [
    b"HTTP/1.1", b"HTTP/1.0", b"HTTP/1.2", b"HTTP/1.9", b"HTTP/2", b"HTTP/2.0", b"HTTP/0.9", b"http/1.1",
    b"HTTP/1.", b"HTTP/1.11", b"HTTP/1.1x", b"HTTP/01.1", b"HTTP/1,1", b"HTTP", b"", b"HTTP/1.1 ", b" HTTP/1.1",
    b"HTTP/1.1\t", b"HTTPS/1.1", b"1.1",
]
LENGTHS = [
    b"0", b"00", b"3", b"003", b"000000000000000003", b"0000000000000000003", b"1", b"4", b"999999999999999999",
    b"1000000000000000000", b"16777216", b"16777217", b"", b"+3", b"-1", b"-3", b"0x3", b"3.0", b"3 3", b"3, 3",
    b"3,", b"3;", b"a", b"3/", b"3:", b"\xd9\xa3", b"1e0", b"3_", b"'3'", b"18446744073709551619", b"4294967299",
]
ENCODINGS = [b"chunked", b"identity", b"", b"gzip, chunked", b"Chunked", b"\xff", b"0"]
EXPECTATIONS = [
    b"100-continue", b"100-Continue", b"100-CONTINUE", b"100-continue ", b"100-continue, x", b"x, 100-continue",
    b"101-continue", b"", b"100", b"100-continue;a=b", b'"100-continue"', b"100-continu", b"100-continuee",
]
SCHEMES = [
    b"http://", b"HTTP://", b"hTTps://", b"https://", b"httpx://", b"ftp://", b"http:/", b"http:", b"://",
    b"https:///",
]
AUTHORITIES = [
    b"", b"a", b"127.0.0.1:8080", b"user@a?x", b"a#b", b"[::1]:80", b"a:b@c", b"%2F", b"\xc3\xa9", b"http:",
]
LINES = [
    b"A:", b"A:b", b"A :b", b"A\t:b", b": b", b"A", b" A: b", b"\tA: b", b"A: b\0", b"A: b\x7f", b"A: b\x01",
    b"A: b\tc", b"A: \xff", b"A: b\r", b"A:\rb", b"A;: b", b"A(: b", b"\xc3: b", b"A\0: b", b"A: b\r\n c",
    b"A: b\r\n\tc", b"A::", b"A: :", b"A:" + b" " * 50, b"!#$%&'*+-.^_`|~: b", b'"A": b', b"[A]: b", b"A=b",
    b"A@: b", b"A: " + b"y" * 500, b"Host", b"Host:", b"Host;", b"Content-Length",
]
FRONTS = [
    b"\r\n", b"\n", b"\r", b"\r\n\r\n", b"\n\n", b"\n\r\n", b"\r\n\n", b" ", b"\t", b"\0", b"\xef\xbb\xbf",
    b"\x16\x03\x01\x02\x00\x01\x00",
]
TEMPLATES = [
    b"GET /resourcelist.xml HTTP/1.1\r\nHost: a\r\n\r\n",
    b"PUT /resource/a/b HTTP/1.1\r\nHost: a\r\nContent-Length: 3\r\nContent-Type: a/b\r\n"
    b"Expect: 100-continue\r\n\r\nabc",
    b"HEAD http://a/resource/a/b HTTP/1.0\r\nA:b\r\n\r\n", b"POST /publish HTTP/1.1\nHost:a\n\n",
    b"DELETE /resource/a/b HTTP/1.1\r\nHost: a\r\n\r\n", b"GET /changelist/1.xml HTTP/1.0\n\n",
    b"POST /group HTTP/1.1\nHost:a\nContent-Length: 23\n\nput c - a/b\r\ndelete a/b",
]


OTHERS = [
    (b"Accept", b"*/*"), (b"X-A", b"b"), (b"User-Agent", b"a (b) c/1"), (b"Connection", b"keep-alive"),
    (b"If-None-Match", b'"a"'),
]
SPACES = [b"", b" ", b"\t ", b" \t"]
VALUES = {
    b"Host": [b"a", b""],
    b"Content-Length": LENGTHS,
    b"Transfer-Encoding": ENCODINGS,
    b"Expect": EXPECTATIONS,
    b"Content-Type": TYPES + BAD_TYPES,
}


def request(method=b"GET", target=b"/resource/a", version=b"HTTP/1.1", fields=(HOST,), body=b"", end=b"\r\n"):
    """Return the bytes of a request."""
    lines = [b"%s %s %s" % (method, target, version), *(b"%s: %s" % field for field in fields), b""]
    return b"".join(line + end for line in lines) + body


def put(*fields, target=b"/resource/a", version=b"HTTP/1.1", body=b"abc", length=b"3"):
    """Return a put that is lawful except for the given parts."""
    return request(b"PUT", target, version, [HOST, (b"Content-Length", length), *fields], body)


def with_line(line, method=b"GET"):
    """Return a request with this line in its head."""
    return b"%s /resource/a HTTP/1.0\r\nB: c\r\n%s\r\nD: e\r\n\r\n" % (method, line)


def of_length(length, method, end, ends):
    """Return a head of this many bytes, or its beginning, which has no end."""
    front = b"%s /resource/a HTTP/1.0%sX: " % (method, end)
    filling = b"y" * (length - len(front) - (2 * len(end) if ends else 0))
    return front + filling + (2 * end if ends else b"")


def of_fields(count, method, field=b"A: b\r\n"):
    """Return a head with this many fields."""
    return b"%s /resource/a HTTP/1.0\r\n%sHost: a\r\n\r\n" % (method, field * (count - 1))


def edges_of_fields():
    """Return requests with a field at an edge, or with two of a name."""
    methods, versions = (b"GET", b"HEAD", b"PUT", b"POST", b"DELETE"), VERSIONS[:2]
    counts = [[HOST] * count for count in range(4)]
    counts += [[field] for field in itertools.product((b"hOST", b"Hosts", b"Hos", b"HOST"), (b"", b"a b"))]
    found = [request(method, version=version, fields=fields)
             for method in methods for version in versions for fields in counts]
    lengths = [(b"cONTENT-lENGTH", length) for length in LENGTHS]
    found += [request(method, fields=[HOST, length], body=b"abc") for method in methods[1:3] for length in lengths]
    found += [put((b"Content-Length", length)) for length in LENGTHS[:4]]
    encodings = [*itertools.product((b"TE", b"transfer-ENCODING"), ENCODINGS)]
    found += [request(method, fields=[HOST, encoding]) for method in methods[:3] for encoding in encodings]
    found += [put((b"Content-Type", kind)) for kind in TYPES + BAD_TYPES]
    found += [put((b"Content-Type", b"a/b"), (b"content-type", kind)) for kind in (b"a/b", b"c/d", b"")]
    every = itertools.product(EXPECTATIONS, versions, (b"0", b"3", b"16777216", b"16777217"))
    found += [put((b"Expect", value), version=version, length=length) for value, version, length in every]
    found += [put((b"Expect", b"x"), (b"EXPECT", b"100-continue"))]
    return found + [put((b"Expect", b"100-continue"), (b"Expect", b"x"))]


def edges_of_groups():
    """Return posted groups with one part at an edge."""
    lines = (b"", b"\n", b"\r\n", b"put a - a/b", b"put a - a/b\n", b"put a - a/b\r\n", b"put a - a/b\r",
             b"put a - a/b\n\n")
    lines += (b"delete none", b"put a 6 a/b\nput", b"put a - a\nput a 6 a/b", b"at 5", b"publish",
              b"group 1\nput a - a/b")
    lines += tuple(b"put a - a/b\n" * count for count in (16, 17, 40))
    found = [request(b"POST", b"/group", fields=[HOST, (b"Content-Length", b"%d" % len(body))], body=body)
             for body in lines]
    lengths = [(b"Content-Length", length) for length in LENGTHS]
    found += [request(b"POST", b"/group", fields=[HOST, length], body=b"put a - a/b") for length in lengths]
    found += [request(method, b"/group", fields=[HOST, (b"Content-Length", b"0")]) for method in METHODS]
    kinds = [(b"Content-Type", kind) for kind in BAD_TYPES]
    return found + [request(b"POST", b"/group", fields=[HOST, (b"Content-Length", b"11"), kind], body=b"put a - a/b")
                    for kind in kinds]


def edges_of_heads():
    """Return heads near the limits of length and of fields, or with a malformed line."""
    styles = list(itertools.product((b"GET", b"HEAD", b"PUT"), (b"\r\n", b"\n"), (True, False)))
    found = [of_length(length, *style) for length in range(8_189, 8_196) for style in styles]
    counts = itertools.product((1, 31, 32, 33, 34, 300), (b"GET", b"HEAD", b"PUT", b"OPTIONS"))
    found += [of_fields(*count) for count in counts]
    found += [b"GET / HTTP/1.0\n" + b"A:\n" * count + b"\n" for count in (2_724, 2_725, 2_726)]
    found += [with_line(line, method) for line in LINES for method in (b"GET", b"HEAD")]
    found += [front + request(method) for front in FRONTS for method in (b"GET", b"HEAD")]
    found += [request(end=end) for end in (b"\n", b"\r", b"\r\r\n", b"\n\r", b"", b" \r\n")]
    spaces = itertools.product((b" ", b"  ", b"\t", b"", b" \t"), repeat=2)
    return found + [b"GET%s/resource/a%sHTTP/1.0\r\n\r\n" % pair for pair in spaces]


def edges_of_first_lines():
    """Return requests with all methods, targets and versions."""
    targets = [b"/resource/a", b"/resource/", b"/resourcelist.xml", b"/changelist/7.xml", b"/publish", b"/"]
    found = [request(method, target) for method in METHODS + BAD_METHODS for target in targets]
    found += [request(method, version=version) for method in (b"GET", b"HEAD", b"PUT") for version in VERSIONS]
    found += [request(method, path) for method in (b"GET", b"DELETE") for path in PATHS]
    found += [request(method, b"/resource/" + name) for method in (b"GET", b"DELETE") for name in BAD_NAMES]
    found += [put(target=b"/resource/" + name) for name in NAMES + BAD_NAMES]
    found += [request(target=scheme + authority + b"/resource/a") for scheme in SCHEMES for authority in AUTHORITIES]
    paths = (b"", b"/", b"//", b"/changelist.xml", b"?/publish")
    return found + [request(target=scheme + b"a" + path) for scheme in SCHEMES for path in paths]


EDGES = [*edges_of_fields(), *edges_of_groups(), *edges_of_heads(), *edges_of_first_lines()]
CHANGES = all_changes(len(TEMPLATES), [len(template) for template in TEMPLATES])
random.Random(3).shuffle(EDGES)
random.Random(4).shuffle(CHANGES)


class Maker:
    """Makes random requests, and estimates the state of the source."""

    def __init__(self, rng, limit):
        self.rng, self.lines = rng, made_scripts.Maker(rng, limit)

    def put(self):
        """Return a put of random bytes."""
        self.lines.changes += 1
        body = self.rng.randbytes(self.rng.choice((0, 0, 1, 3, 40, 511, 512, 513, 4_095, 4_096, 4_097, 9_000)))
        if self.rng.random() < 0.003:
            body = self.rng.randbytes(self.rng.randrange(LONG))
        fields = [(b"Content-Length", b"%d" % len(body))]
        fields += [(b"Content-Type", self.rng.choice(TYPES))] if self.rng.random() < 0.7 else []
        fields += [(b"Expect", b"100-continue")] if self.rng.random() < 0.3 else []
        return b"PUT", self.lines.resource(), fields, body

    def delete(self):
        """Return a random delete."""
        self.lines.changes += 1
        return b"DELETE", self.lines.resource(), [], b""

    def publish(self):
        """Return a publication."""
        self.lines.number += 1
        return b"POST", b"/publish", [], b""

    def group(self):
        """Return the items of a group of a script, rarely more than permitted."""
        body = self.lines.group().split(b"\n", 1)[1]
        body = b"\n".join([body] * 9) if self.rng.random() < 0.05 else body
        body += self.rng.choice((b"\n", b"\r\n", b"", b"\n\n"))
        fields = [(b"Content-Length", b"%d" % len(body))]
        fields += [(b"Expect", b"100-continue")] if self.rng.random() < 0.3 else []
        return b"POST", b"/group", fields, body

    def get(self):
        """Return a request for a document or a resource."""
        return self.rng.choice((b"GET", b"GET", b"GET", b"HEAD")), self.lines.show()[len(b"show ") :], [], b""

    def lawful(self):
        """Return the parts of a request that most sources accept."""
        kinds = ((self.put, 35), (self.delete, 9), (self.group, 6), (self.publish, 8), (self.get, 42))
        makers, weights = [maker for maker, _ in kinds], [weight for _, weight in kinds]
        method, target, fields, body = self.rng.choices(makers, weights)[0]()
        target = self.rng.choice(SCHEMES[:4]) + b"a:1" + target if self.rng.random() < 0.05 else target
        fields = [HOST, *fields, *self.rng.sample(OTHERS, self.rng.choice((0, 0, 1, 3)))]
        self.rng.shuffle(fields)
        version = b"HTTP/1.1" if self.rng.random() < 0.85 else b"HTTP/1.0"
        return {"method": method, "target": target, "version": version, "fields": fields, "body": body}

    def spoil(self, parts):
        """Replace one part by a wrong or unusual one."""
        rng, fields, name = self.rng, parts["fields"], self.rng.choice(list(VALUES))
        value, bad_name = rng.choice(VALUES[name]), b"/resource/" + rng.choice(BAD_NAMES)
        ways = [
            lambda: {"method": rng.choice(METHODS + BAD_METHODS)},
            lambda: {"target": rng.choice((bad_name, rng.choice(PATHS), rng.choice(HEADS)))},
            lambda: {"version": rng.choice(VERSIONS)},
            lambda: {"fields": [field for field in fields if field != rng.choice(fields)] if fields else []},
            lambda: {"fields": [*fields, (name, value)]},
            lambda: {"fields": [(name, value), *fields]},
            lambda: {"fields": [(name, value) if field[0] == name else field for field in fields]},
            lambda: {"fields": [*fields, *[(b"A", b"b")] * rng.choice((28, 29, 30, 31, 32, 33))]},
            lambda: {"fields": [(name.swapcase(), rng.choice(SPACES) + text) for name, text in fields]},
            lambda: {"fields": [(name, text + rng.choice(SPACES)) for name, text in fields]},
            lambda: {"body": parts["body"][: rng.randrange(len(parts["body"]) + 1)]},
            lambda: {"body": parts["body"] + rng.choice((b"x", b"\r\n", TEMPLATES[0], rng.randbytes(500)))},
            lambda: {"end": b"\n"},
        ]
        return {**parts, **rng.choice(ways)()}

    def any(self):
        """Return the bytes of a request with some wrong parts, or random bytes."""
        parts = self.lawful()
        for _ in range(self.rng.choice((0, 0, 0, 1, 1, 2, 3))):
            parts = self.spoil(parts)
        data = request(**parts)
        data = scribbled(self.rng, data) if self.rng.random() < 0.1 else data
        return data[: self.rng.randrange(len(data) + 1)] if self.rng.random() < 0.05 else data


def made(rng, what, data):
    """Return a request with random pieces and a random end of its client."""
    last = "bytes" if len(data) < 1_000 or rng.random() < 0.03 else "random"
    way = rng.choice(("whole", "whole", "whole", "random", last))
    ending = rng.choices(("half", "leave", "reset"), (94, 4, 2))[0]
    return Made(f"{what}, given {way}, ended by {ending}", data, way, pieces_of(rng, data, way), ending)


def requests_of(rng, number, limit):
    """Return the requests of the round of this number."""
    maker = Maker(rng, limit)
    turns = [("an edge", edge) for edge in in_turn(EDGES, number, EDGES_IN)]
    turns += [("a change", changed(TEMPLATES[template], at, way))
              for template, at, way in in_turn(CHANGES, number, CHANGES_IN)]
    rng.shuffle(turns)
    every = made_scripts.mixed(rng, turns, [("at random", maker.any()) for _ in range(MORE)])
    return [made(rng, *turn) for turn in every]
