"""Tests of the set of used blocks that an open source keeps, against a set computed before every command.

An opening computes the set of used blocks from the disk; later the source keeps it. So the same commands run on two
copies of a file: on one copy in a single run, on the other in one run per command. If the kept set differs from the
computed one, a later command takes other blocks, and the files differ. The disks are small, so that commands are
refused for lack of room, and freed blocks are used again.
"""
import random
import shutil
import subprocess
from collections.abc import Sequence
from pathlib import Path

import pytest

from tests import hunting
from tests.program import STILL_CLOCK, Differs, ask, interposed

pytestmark = pytest.mark.plain

BASE = "http://127.0.0.1:8080"
SEED, COMMANDS = 20261124, 1_000
SECONDS = 600
# The sizes of the disks with their numbers of names: full after a few bodies, after some dozen, and with split pages.
SIZES = {16_384: 6, 65_536: 20, 262_144: 200}
# The lengths of bodies, near the ends of blocks and pieces, and one too long for the smallest disk.
LENGTHS = (0, 1, 511, 512, 513, 1_024, 2_000, 4_095, 4_096, 4_097, 8_193, 12_289)
# The number of commands between two comparisons of the files.
PIECE = 20
REQUESTS = 12


def line(draw: random.Random, names: int) -> str:
    """Return a random command of a script."""
    kind = draw.random()
    if kind < 0.06:
        return "publish"
    name = f"n{draw.randrange(names):03d}"
    if kind < 0.35:
        return f"delete {name}"
    body = bytes([draw.randrange(256)]) * draw.choice(LENGTHS)
    return f"put {name} {body.hex() or '-'} text/plain"


def run(program: str, file: Path, lines: list[str]) -> list[str]:
    """Return the answers to these lines."""
    script = "".join(line + "\n" for line in lines).encode()
    finished = subprocess.run([program, "run", file], input=script, capture_output=True, timeout=SECONDS)
    if finished.returncode or finished.stderr:
        raise Differs(f"status {finished.returncode}: {finished.stderr.decode(errors='replace')}")
    return finished.stdout.decode().splitlines()


def request(draw: random.Random, names: int) -> bytes:
    """Return a random request; one in four ends within its body."""
    kind = draw.random()
    if kind < 0.1:
        return b"POST /publish HTTP/1.1\r\nHost: a\r\n\r\n"
    name = f"n{draw.randrange(names):03d}"
    if kind < 0.3:
        return f"DELETE /resource/{name} HTTP/1.1\r\nHost: a\r\n\r\n".encode()
    length = draw.choice(LENGTHS)
    sent = draw.randrange(length) if length and draw.random() < 0.25 else length
    head = f"PUT /resource/{name} HTTP/1.1\r\nHost: a\r\nContent-Length: {length}\r\n\r\n"
    return head.encode() + bytes([draw.randrange(256)]) * sent


def serve(program: str, file: Path, texts: list[bytes], clock: dict[str, str]) -> list[str]:
    """Return the status lines of a server's responses to these requests, at a fixed clock."""
    words = [program, "serve", str(file), "0", str(len(texts))]
    with subprocess.Popen(words, stdout=subprocess.PIPE, text=True, env=clock) as server:
        assert server.stdout
        port = int(server.stdout.readline().rsplit(":", 1)[1])
        answers = [ask(port, request).split(b"\r\n")[0].decode() for request in texts]
        if server.wait(SECONDS):
            raise Differs(f"serve ended with status {server.returncode}")
    return answers


class Twins:
    """Two copies of one file."""

    def __init__(self, program: str, room: Path, size: int) -> None:
        self.program, self.size = program, size
        self.single_run, self.anew = (Path(room, f"{name}.{size}") for name in ("kept", "anew"))
        subprocess.run([program, "format", self.single_run, str(size), BASE, "10"], check=True, capture_output=True,
                       timeout=SECONDS)
        shutil.copyfile(self.single_run, self.anew)

    def compare(self, what: Sequence[str], one: list[str], each: list[str]) -> None:
        """Compare the answers and the files."""
        for asked_for, a, b in zip(what, one, each, strict=True):
            if a != b:
                raise Differs(f"{self.size} bytes: {asked_for[:60]!r}: {a} in one run, and {b} in a run of its own")
        if self.single_run.read_bytes() != self.anew.read_bytes():
            raise Differs(f"{self.size} bytes: the files differ after {[line[:24] for line in what]}")

    def lines(self, lines: list[str]) -> None:
        """Run lines on both files."""
        self.compare(lines, run(self.program, self.single_run, lines),
                     [run(self.program, self.anew, [line])[0] for line in lines])

    def requests(self, texts: list[bytes], clock: dict[str, str]) -> None:
        """Send requests to both files."""
        one = serve(self.program, self.single_run, texts, clock)
        each = [serve(self.program, self.anew, [request], clock)[0] for request in texts]
        self.compare([request.decode(errors="replace") for request in texts], one, each)


@pytest.mark.parametrize("size", SIZES)
def test_lines_of_one_run_take_the_blocks_of_a_run_each(program: str, room: Path, size: int) -> None:
    """Put bodies from empty to too long, delete, and publish."""
    draw, twins = random.Random(f"{hunting.seed(SEED)} {size}"), Twins(program, room, size)
    for _ in range(COMMANDS // (PIECE * len(SIZES)) + 1):
        twins.lines([line(draw, SIZES[size]) for _ in range(PIECE)])


@pytest.mark.needs("cc")
@pytest.mark.parametrize("size", SIZES)
def test_requests_to_one_server_take_the_blocks_of_a_server_each(program: str, room: Path, size: int) -> None:
    """Send bodies in pieces, some of them incomplete, to a source that has changed."""
    draw, twins = random.Random(f"{hunting.seed(SEED)} {size}"), Twins(program, room, size)
    run(program, twins.single_run, [line(draw, SIZES[size]) for _ in range(COMMANDS // len(SIZES))])
    shutil.copyfile(twins.single_run, twins.anew)
    twins.requests([request(draw, SIZES[size]) for _ in range(REQUESTS)], interposed(room, "clock", STILL_CLOCK))


@pytest.mark.parametrize("change", ["an answer", "the file"])
def test_the_judge_rejects_another(program: str, room: Path, change: str) -> None:
    twins = Twins(program, room, 16_384)
    if change == "the file":
        twins.anew.write_bytes(twins.anew.read_bytes()[:-1] + b"x")
    with pytest.raises(Differs):
        twins.compare(["status"], ["ok"], ["refused Full"] if change == "an answer" else ["ok"])
