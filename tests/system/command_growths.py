"""Measure the bytes that the program allocates for every kind of line and request, and compare them with the figures of
command_memory.py.

The bytes of a line are the difference of two runs on the same file, with and without it. The bytes of a request include
its connection.
"""
import pathlib
import subprocess
from collections.abc import Callable, Iterator
from dataclasses import dataclass, field

from tests.program import ask, interposed
from tests.system import command_memory
from tests.system.command_memory import Asking
from tests.system.counted_growths import COUNTING

BEGIN, SECONDS = b"at 951782400000\n", 120
# The numbers of resources on the disks, and the lengths of the bodies in bytes.
HELD, BODIES = (1, 100, 3_000), (3, 700_000)
# The additional bytes of wrong programs: per written page (two or more per command), per directory, per plan, and for a
# second copy of the body of a line or of an answer.
WRONG: dict[str, Callable[[Asking], int]] = {
    "a page of a megabyte": lambda line: 2_000_000 if line.items else 0,
    "a directory of four": lambda line: 4_000_000 if line.items else 0,
    "room for the most pages": lambda line: 1_600_000 if line.items else 0,
    "room for the most records": lambda line: 50_000 * 152 if line.items else 0,
    "a body that is shown twice": lambda line: line.shown,
    "a body that is put twice": lambda line: len(line.text) // 2 if line.items == 1 else 0,
}
HOST = "HTTP/1.1\r\nHost: a\r\nContent-Type: text/plain\r\n"


def put(name: str, length: int) -> str:
    """Return the line of a put of this many bytes."""
    return f"put {name} {'61' * length or '-'} text/plain\n"


def lines(resources: int) -> Iterator[Asking]:
    """Yield every kind of line for a disk with this many resources."""
    for length in BODIES:
        yield Asking(put("zz", length).encode(), 1)
        yield Asking(put("name00000", length).encode(), 1)
    yield Asking(b"delete name00000\n", 1)
    yield Asking(b"publish\n", 1)
    for count, length in [(1, 3), (13, 40_000), (16, 0)]:
        names = [f"name{at * (resources // count):05d}" if at % 2 else f"g{at:02d}" for at in range(count)]
        yield Asking((f"group {count}\n" + "".join(put(name, length) for name in names)).encode(), count)
    for path in ("/resource/name00000", "/resource/none", "/resourcelist.xml", "/changelist.xml", "/none"):
        yield Asking(f"show {path}\n".encode(), shown=3)
    yield Asking(b"verify\n")
    yield Asking(b"status\n")
    yield Asking(b"no line at all\n")


def requests(resources: int) -> Iterator[tuple[bytes, Asking]]:
    """Yield every kind of request with its demand on the source; the body of a PUT goes to the file as it comes."""
    items = "".join(put(f"g{at}", 2_000) for at in range(13))
    for method, path, body, asking in [
        ("GET", "/resource/name00000", "", Asking(b"", shown=3)),
        ("GET", "/resource/none", "", Asking(b"")),
        ("GET", "/resourcelist.xml", "", Asking(b"")),
        ("PUT", "/resource/zz", "a" * BODIES[-1], Asking(b"", 1)),
        ("DELETE", "/resource/name00000", "", Asking(b"", 1)),
        ("POST", "/publish", "", Asking(b"", 1)),
        ("POST", "/group", items, Asking(items.encode(), 13)),
    ]:
        yield f"{method} {path} {HOST}Content-Length: {len(body)}\r\n\r\n{body}".encode(), asking
    yield b"no request\r\n\r\n", Asking(b"")


@dataclass
class Looks:
    """The number of measurements, the faults, and the wrong programs that would be noticed."""

    program: str
    file: pathlib.Path
    count: int = 0
    wrong: list[str] = field(default_factory=list)
    noticed: set[str] = field(default_factory=set)

    def run(self, script: bytes) -> int:
        """Return the bytes that a run of this script allocates."""
        finished = subprocess.run([self.program, "run", self.file], env=self.counting(), input=script,
                                  capture_output=True, timeout=SECONDS)
        return int(finished.stderr.split()[-1])

    def serve(self, request: bytes) -> int:
        """Return the bytes that a server of one connection allocates."""
        words, pipe = [self.program, "serve", str(self.file), "0", "1"], subprocess.PIPE
        with subprocess.Popen(words, env=self.counting(), stdout=pipe, stderr=pipe) as server:
            assert server.stdout and server.stderr
            ask(int(server.stdout.readline().rpartition(b":")[2]), request)
            return int(server.stderr.read().split()[-1])

    def counting(self) -> dict[str, str]:
        """Return the environment in which a program counts its allocated bytes."""
        made: dict[str, str] = interposed(self.file.parent, "counting", COUNTING)
        return made

    def compare(self, what: bytes, asking: Asking, found: int, allowed: int) -> None:
        """Check that the allocated bytes are within the limit, and note the wrong programs that exceed it."""
        self.count += 1
        if found > allowed:
            self.wrong.append(f"{what[:30]!r}: {found} bytes asked for, of {allowed}")
        self.noticed |= {name for name, more in WRONG.items() if more(asking) and found + more(asking) > allowed}

    def look_at_lines(self, disk: bytes, resources: int) -> None:
        """Run every kind of line on a disk with this many resources."""
        self.file.write_bytes(disk)
        begun = self.run(BEGIN)
        for line in lines(resources):
            self.file.write_bytes(disk)
            self.compare(line.text, line, self.run(BEGIN + line.text) - begun, command_memory.allowed(line, disk))

    def look_at_requests(self, disk: bytes, resources: int) -> None:
        """Send every kind of request to a disk with this many resources."""
        self.file.write_bytes(disk)
        opened = self.run(b"")
        for request, asking in requests(resources):
            self.file.write_bytes(disk)
            allowed = command_memory.CONNECTED + command_memory.allowed(asking, disk)
            self.compare(request, asking, self.serve(request) - opened, allowed)

    def look_at_large_body(self, disk: bytes) -> None:
        """Put a large body, and show it."""
        self.file.write_bytes(disk)
        self.run(BEGIN + put("large", BODIES[-1]).encode())
        begun, shown = self.run(BEGIN), Asking(b"show /resource/large\n", shown=BODIES[-1])
        self.compare(shown.text, shown, self.run(BEGIN + shown.text) - begun,
                     command_memory.allowed(shown, self.file.read_bytes()))
