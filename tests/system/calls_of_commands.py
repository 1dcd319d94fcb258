"""Compare the calls that commands make on their file, from a script and over HTTP, with the rules of call_rules.py.

The whole lists are compared: a missing, repeated or earlier call, another place or another length is a difference. Then
every call fails in turn, in short scripts on a new disk, on a disk whose pages the commands split, and on a disk with
damaged bodies. After a failure within a command the program only closes the file; after a failure while it reads a body
the next command makes its usual calls.
"""
import pathlib
from collections.abc import Callable, Sequence
from typing import Any, NamedTuple

from tests.disks import paged_disk
from tests.reading import disk_reader
from tests.reading.disk_formats import BLOCK
from tests.served_source import connected, exchanged, served
from tests.system import call_rules
from tests.system.noted_calls import Call, Outcome, Room, texts

DISK, SIZE = "source.disk", 1_048_576
AT, RUN = "at 951782400000", ["run", DISK]
# The names of the calls that are made to fail.
FAILING = ("make", "open", "measure", "lock", "length", "sync", "advise", "read", "write")
# A function that compares two lists or texts; its first argument is their title.
Compare = Callable[[str, Any, Any], None]


class Line(NamedTuple):
    """A line or a request, and the lengths of the bodies that it writes, in order, or None if it changes nothing."""

    text: Any
    bodies: list[int] | None


class Part(NamedTuple):
    """Calls that belong together: the number of lines before them, the calls, and whether they only read bodies."""

    lines: int
    calls: list[str]
    looks: bool


def put(name: str, length: int) -> str:
    """Return the line of a put of this many bytes."""
    return f"put {name} {'61' * length or '-'} text/plain"


def group(*items: str) -> str:
    """Return the lines of a group."""
    return "\n".join([f"group {len(items)}", *items])


SHORT = [
    Line(AT, None),
    Line(put("a", 3), [3]),
    Line(put("b", 20_000), [20_000]),
    Line("delete c", None),
    Line("publish", []),
    Line("verify", None),
    Line(group(put("c", 600), put("a", 5), put("c", 700), put("d", 0)), [5, 700]),
    Line(group(put("f", 700), put("a", 6), "delete f"), [6]),
    Line("put e 6 text/plain", None),
    Line("show /resource/b", None),
    Line("delete a", []),
    Line("status", None),
    Line("verify", None),
]
# These commands split pages and leave some, drop parts, and read a body in two pieces.
LONG = [
    *SHORT,
    Line(put("large", 270_000), [270_000]),
    Line("show /resource/large", None),
    *[Line(group(*(put(f"n{at + i:03d}", i) for i in range(16))), list(range(16))) for at in range(0, 112, 16)],
    Line(put("n040", 513), [513]),
    Line("publish", []),
    Line("delete n000", []),
    Line("show /resourcelist.xml", None),
    Line("publish", []),
    Line("verify", None),
]
# The second script begins with a full page of resources and of changes: every command writes two pages of a list.
FULL_PAGE = 64
CUTTING = [
    Line(AT, None),
    Line(put("name00031x", 40), [40]),
    Line(group(put("name00001", 600), put("name00060", 5), put("zz", 700)), [600, 5, 700]),
    Line("delete name00000", []),
    Line("publish", []),
    Line(put("zzz", 20_000), [20_000]),
    Line(group(*(put(f"name{at:05d}", at) for at in range(2, 64, 4))), list(range(2, 64, 4))),
    Line("publish", []),
]
# The bodies of the third script, and the offsets of the damaged bytes: in the first body, in the last piece of a long
# body, and in the last body.
WHOLE = [Line(AT, None), Line(put("a", 3), [3]), Line(put("b", 20_000), [20_000]), Line(put("c", 600_000), [600_000]),
         Line(put("d", 5), [5])]
DAMAGED = {"a": 0, "c": 599_999, "d": 4}
LOOKING = [
    Line(AT, None),
    Line("show /resource/a", None),
    Line("show /resource/c", None),
    Line("verify", None),
    Line(put("a", 4), [4]),
    Line("show /resource/d", None),
    Line("verify", None),
]
HOST = "HTTP/1.1\r\nHost: a\r\n"


def request(method: str, path: str, body: bytes = b"") -> bytes:
    """Return the bytes of a request."""
    length = f"Content-Length: {len(body)}\r\n" if method != "GET" else ""
    return f"{method} {path} {HOST}Content-Type: text/plain\r\n{length}\r\n".encode() + body


# Requests with the lengths of the bodies that they write.
REQUESTS = [
    Line(request("PUT", "/resource/p", b"x" * 10_000), [10_000]),
    Line(request("PUT", "/resource/q", b"x" * 8_192), [8_192]),
    Line(request("PUT", "/resource/e"), [0]),
    Line(request("GET", "/resource/p"), None),
    Line(request("POST", "/group", f"{put('g', 5_000)}\n{put('p', 1)}".encode()), [5_000, 1]),
    Line(request("POST", "/publish"), []),
    Line(request("GET", "/resourcelist.xml"), None),
    Line(request("DELETE", "/resource/q"), []),
    Line(request("DELETE", "/resource/q"), None),
]


def made(room: Room) -> bytes:
    """Return the bytes of a new source."""
    room.clear(DISK)
    room.run(["format", DISK, str(SIZE), "http://127.0.0.1:8080", "2"])
    return room.content(DISK)


def calls_by_rule(name: str, line: Line, before: bytes, after: bytes,
                  piece: int | None = None) -> tuple[list[str], bool]:
    """Return the calls that a line must make between these two disks, and whether it only reads."""
    text = line.text if isinstance(line.text, str) else line.text.decode("latin-1")
    word, _, rest = text.partition(" ")
    path = rest.split(" ")[0]
    if line.bodies is not None:
        return call_rules.changing(name, before, after, line.bodies, piece if word == "PUT" else None), False
    if word == "verify":
        return call_rules.verifying(name, before), True
    if path.startswith("/resource/") and word in ("show", "GET"):
        return call_rules.showing(name, before, path.removeprefix("/resource/").encode()), True
    return [], True


class Scripted:
    """A script on a new or a given disk: the disk and the part after every line, and the list of all calls."""

    def __init__(self, room: Room, lines: list[Line], disk: bytes | None = None) -> None:
        self.room, self.lines, self.disks = room, lines, [disk or made(room)]
        self.answers, parts = list[bytes](), list[Part]()
        room.put(self.disks[0], DISK)
        for line in lines:
            self.answers.append(room.run(RUN, f"{AT}\n{line.text}\n".encode()).output.split(b"\n", 1)[1])
            self.disks.append(room.content(DISK))
            parts.append(Part(line.text.count("\n") + 1, *calls_by_rule(DISK, line, self.disks[-2], self.disks[-1])))
        self.parts = [Part(0, call_rules.opening(DISK, self.disks[0]), False), *parts]
        self.script = "".join(f"{line.text}\n" for line in lines).encode()

    def run(self, **settings: object) -> Outcome:
        """Run the script on the first disk."""
        self.room.put(self.disks[0], DISK)
        return self.room.run(RUN, self.script, **settings)

    def framed(self, part: Part, calls: list[str]) -> list[str]:
        """Return the calls of a part between its lines and its answer."""
        return [*["line"] * part.lines, *calls, *["answer"] * bool(part.lines)]

    def wanted(self) -> list[str]:
        """Return the list of all calls."""
        every = [call for part in self.parts for call in self.framed(part, part.calls)]
        return [*every, "line", f"close {DISK}"]

    def place(self, number: int) -> tuple[int, int]:
        """Return the part that contains the call of this number, and its number within the part."""
        for at, part in enumerate(self.parts):
            if number < len(part.calls):
                return at, number
            number -= len(part.calls)
        raise IndexError(number)

    def wanted_behind(self, number: int) -> list[str]:
        """Return the list of all calls if the call of this number fails."""
        at, inner = self.place(number)
        before = [call for part in self.parts[:at] for call in self.framed(part, part.calls)]
        part = self.parts[at]
        failed = self.framed(part, [*part.calls[:inner], f"{part.calls[inner]} fails"])
        others = self.parts[at + 1 :] if at else []
        later = [call for other in others for call in self.framed(other, other.calls if part.looks else [])]
        every = [*before, *failed, *later, *["line"] * bool(at)]
        return [*every, *call_rules.closes(every)]

    def output_behind(self, number: int) -> tuple[int, bytes, bytes]:
        """Return the status, the output and the messages if the call of this number fails."""
        at, _ = self.place(number)
        if not at:
            return 1, b"", b"rs_source: Device\n"
        later = self.answers[at:]
        if not self.parts[at].looks:
            later = [closed(*pair) for pair in zip(self.lines[at:], later)]
        return 0, b"".join([*self.answers[: at - 1], b"refused Device\n", *later]), b""


def closed(line: Line, answer: bytes) -> bytes:
    """Return the answer of a closed source to a line, given that of an open one."""
    is_asked = answer != b"ok\n" and b"BadHex" not in answer
    return b"refused Closed\n" if is_asked else answer


def numbered(calls: list[Call]) -> list[int]:
    """Return the numbers of the calls that are made to fail."""
    return [at for at, call in enumerate(calls, 1) if call.name in FAILING]


def full_page() -> bytes:
    """Return a disk with FULL_PAGE published resources in one page, and some free blocks."""
    whole = paged_disk.spelled(FULL_PAGE, FULL_PAGE)
    return whole[: len(whole) - (paged_disk.ROOM - 512) * BLOCK]


def damaged(room: Room) -> bytes:
    """Return a disk with damaged bodies."""
    disk = bytearray(Scripted(room, WHOLE).disks[-1])
    for record in call_rules.records_of(bytes(disk)):
        if (name := record.name.decode()) in DAMAGED:
            disk[record.first * BLOCK + DAMAGED[name]] ^= 1
    return bytes(disk)


def look_at_whole(what: str, scripted: Scripted, compare: Compare) -> None:
    """Compare the calls, the answers and the disk of a script."""
    outcome = scripted.run()
    compare(what, texts(outcome.calls), scripted.wanted())
    compare(f"{what}: its answers", [outcome.output], [b"".join(scripted.answers)])
    compare(f"{what}: its disk", [scripted.room.content(DISK)], [scripted.disks[-1]])


def look_at_failing(name: str, scripted: Scripted, compare: Compare) -> None:
    """Let every call of a script fail in turn, and compare the calls, the answers and the root."""
    calls = scripted.run().calls
    wanted = sum(len(part.calls) for part in scripted.parts)
    for number, at in enumerate(numbered(calls)[:wanted]):
        outcome = scripted.run(FAILS=at)
        what = f"{name} whose call {at} fails"
        compare(what, texts(outcome.calls), scripted.wanted_behind(number))
        compare(f"{what}: what is written", [outcome[:3]], [scripted.output_behind(number)])
        part, _ = scripted.place(number)
        roots = {disk_reader.root(disk).directory for disk in scripted.disks[max(part - 1, 0) : part + 1]}
        if scripted.parts[part].looks:
            roots = {disk_reader.root(scripted.disks[-1]).directory}
        found = disk_reader.root(scripted.room.content(DISK)).directory
        compare(f"{what}: the root is an old or a new one", [found in roots], [True])


class Client:
    """Requests to a server, one after another, and their calls."""

    def __init__(self, room: Room) -> None:
        self.room, self.name = room, str(pathlib.Path(room.folder, DISK))

    def ask(self, requests: Sequence[Line],
            **settings: object) -> tuple[list[tuple[bytes, list[str], bytes]], list[str]]:
        """Send requests; return their responses, calls and disks, and all calls of the server."""
        found, environment = [], self.room.environment(ALSO=self.name, **settings)
        with served(self.room.program, self.name, len(requests) + 1, environment) as port:
            before = texts(self.room.noted())
            for request in requests:
                response, _ = exchanged(port, [request.text])
                calls = texts(self.room.noted())
                found.append((response, calls[len(before) :], self.room.content(DISK)))
                before = calls
            connected(port).close()
        return found, texts(self.room.noted())


def look_at_requests(client: Client, compare: Compare) -> None:
    """Compare the calls of the requests to a new source with the rules."""
    disk = client.room.content(DISK)
    for line, (response, calls, after) in zip(REQUESTS, client.ask(REQUESTS)[0], strict=True):
        wanted, _ = calls_by_rule(client.name, line, disk, after, call_rules.CAME)
        compare(f"{line.text[:30]!r}, answered {response[:20]!r}", calls, wanted)
        disk = after


def look_at_failing_request(client: Client, opened: bytes, at: int, made_before: list[list[str]],
                            compare: Compare) -> None:
    """Let every call of a request fail in turn; `made_before` has the calls of the requests up to it.

    After a request that changes nothing the server answers the next one as usual; after others the source is closed.
    """
    what, looks = REQUESTS[at].text[:20], REQUESTS[at].bodies is None
    before = [*call_rules.opening(client.name, opened), "answer"]
    before += [call for calls in made_before[:-1] for call in calls]
    for number, call in enumerate(made_before[-1]):
        client.room.put(opened, DISK)
        # The line with the port is also a call.
        found, every = client.ask([*REQUESTS[: at + 1], REQUESTS[at]], FAILS=len(before) + 1 + number)
        again = made_before[-1] if looks else []
        wanted = [*before, *made_before[-1][:number], f"{call} fails", *again, f"close {client.name}"]
        failing = f"{what!r} whose call {number + 1} fails"
        compare(failing, every, wanted)
        words = [entry[0].rpartition(b"\r\n\r\n")[2] for entry in found[at:]]
        compare(f"{failing}: the first response", words[:1], [b"Device\n"])
        compare(f"{failing}: the next one is Closed", [words[1] == b"Closed\n"], [not looks])


def look_at_damaged_requests(client: Client, disk: bytes, compare: Compare) -> None:
    """Check that a request reads a damaged body once, and that the server sends none of it."""
    client.room.put(disk, DISK)
    requests = [Line(request("GET", f"/resource/{name}"), None) for name in DAMAGED]
    for line, (response, calls, after) in zip(requests, client.ask(requests)[0], strict=True):
        wanted, _ = calls_by_rule(client.name, line, disk, after)
        what, body = f"{line.text[:20]!r}, which is damaged", response.rpartition(b"\r\n\r\n")[2]
        compare(what, calls, wanted)
        compare(f"{what}: its response", [body], [b"Damaged\n"])
