"""Tests of large scripts, requests and sources: below the limits the program refuses no input for its size.

No clause forbids a refusal for lack of memory; these tests do. A disk is made from the tables of docs/DISK.md
(tests/disks/paged_disk.py): 6,000 resources, 6,000 changes, 4,000 items per part. The answers must equal those of
line_judge.py and request_judge.py, which follow docs/SCRIPT.md and docs/HTTP.md, and the files are checked with
disk_judge.py. Every run draws further sizes (drawn_sizes.py, drawn_edges.py, drawn_commands.py): SEED=N repeats them.
"""
import os
import random
import subprocess
from collections.abc import Callable, Iterator
from functools import cache
from pathlib import Path

import pytest

from tests.disks import made_disks, paged_disk
from tests.hostile import disk_runs
from tests.hostile.script_runs import differing
from tests.program import CLOCK, STILL_CLOCK, Differs, interposed
from tests.reading import crash_model, disk_judge, line_judge, request_judge
from tests.reading.crash_model import State
from tests.reading.front_model import Source
from tests.served_source import exchanged, served
from tests.system import drawn_commands, drawn_edges, drawn_sizes
from tests.system.noted_calls import Room

pytestmark = [pytest.mark.plain, pytest.mark.needs("cc"), pytest.mark.timeout(900)]

COUNT, DAMAGED, GROUPED, LINE, BODY = 6_000, 2_900, 15, 5_000, 10_485_761
# Room for two longest bodies.
ROOM = 2 * BODY + 4_000_000
SECONDS = 300
HOST = b"HTTP/1.1\r\nHost: a\r\n"
# The second publication drops the first part of the changes, so that one list remains.
DOCUMENTS = [b"/resourcelist/2/0.xml", b"/changelist.xml"]


def state_on(disk: bytes) -> State:
    """Return the state on a disk, which must open."""
    verdict, source = disk_judge.verdict_of(disk)
    assert verdict == disk_judge.OPENS, source
    state: State = disk_judge.state_of(disk, source)
    return state


@cache
def spelled() -> tuple[bytes, State]:
    """Return the bytes of a disk with room, and the state on it."""
    disk = paged_disk.spelled(COUNT, COUNT) + bytes(ROOM)
    return disk, state_on(disk)


def group_lines(name: str, size: int) -> list[str]:
    """Return the lines of a group: some puts, the first of this many bytes, a second put and a deletion."""
    puts = [f"put {name}{number} {'61' * (1 if number else size)} text/plain" for number in range(GROUPED - 2)]
    return [*puts, f"put {name}1 - a/b", f"delete {name}2"]


def lines() -> Iterator[str]:
    """Yield the lines of a script. A group is a single item with all its lines."""
    yield "status"
    yield f"at {CLOCK}"
    yield "\n".join([f"group {GROUPED}", *group_lines("g", 1)])
    yield "\n".join([f"group {GROUPED}", *group_lines("h", LINE)])
    yield "publish"
    yield f"put large {'61' * BODY} text/plain"
    yield "show /resource/large"
    yield from (f"show {path.decode()}" for path in DOCUMENTS)
    yield "verify"
    yield "status"


def posted(path: bytes, body: bytes = b"", method: bytes = b"POST") -> bytes:
    """Return the bytes of a request."""
    return method + b" " + path + b" " + HOST + b"Content-Length: %d\r\n\r\n" % len(body) + body


def requests() -> Iterator[bytes]:
    """Yield the requests to a server."""
    yield posted(b"/group", "\n".join(group_lines("g", 1)).encode())
    yield posted(b"/group", "\n".join(group_lines("h", LINE)).encode())
    yield posted(b"/publish")
    yield posted(b"/resource/large", b"x" * BODY, b"PUT")
    yield from (b"GET " + path + b" " + HOST + b"\r\n" for path in [b"/resource/large", *DOCUMENTS])


def refused(answer: bytes) -> bytes:
    """Return the answer of a program that refuses for lack of memory."""
    if not answer.startswith(b"HTTP/"):
        return b"refused NoMemory\n"
    refusal: bytes = request_judge.response(503, request_judge.date_of(CLOCK), "text/plain", b"NoMemory\n")
    return refusal


def compare(what: str, wanted: bytes, found: bytes) -> None:
    """Compare an answer, and check that it differs from a refusal."""
    if wanted != found:
        raise Differs(f"{what}: {differing('the answer', wanted, found)}")
    is_refusal = wanted.startswith((b"refused", b"HTTP/1.1 4", b"HTTP/1.1 5"))
    assert wanted != refused(wanted) and not is_refusal, f"{what}: a refusal is not noticed"


def run(program: str, file: Path, script: bytes) -> bytes:
    """Return the output of a run of a script."""
    finished = subprocess.run([program, "run", file], input=script, capture_output=True, timeout=SECONDS)
    assert (finished.returncode, finished.stderr) == (0, b"")
    return finished.stdout


def test_a_source_of_the_most_resources_opens(program: str, room: Path) -> None:
    """The source has the greatest number of changes but one."""
    largest = made_disks.DISKS["most_resources"]()
    file = room / "source.disk"
    file.write_bytes(largest)
    compare("the most resources", state_on(largest).status(), run(program, file, b"status\n"))


def test_a_script_of_large_lines_is_answered(program: str, room: Path) -> None:
    """Put groups and a body of 10 MiB, publish 5,000 resources, and show a document of 1,000,000 bytes."""
    disk, state = spelled()
    file = room / "source.disk"
    file.write_bytes(disk)
    source = Source(state, len(disk))
    judge, made = line_judge.Judge(source), list(lines())
    output = run(program, file, "".join(f"{line}\n" for line in made).encode())
    for line in made:
        wanted = b"".join(judge.answer(part.encode()) for part in line.split("\n"))
        compare(f"script, {line[:30]!r}", wanted, output[: len(wanted)])
        output = output[len(wanted) :]
    assert output == b""
    assert state_on(file.read_bytes()) == source.state


def test_large_requests_are_answered(program: str, room: Path) -> None:
    disk, state = spelled()
    file = room / "source.disk"
    file.write_bytes(disk)
    source = Source(state, len(disk))
    judge, made = request_judge.Judge(source), list(requests())
    with served(program, str(file), len(made), interposed(room, "clock", STILL_CLOCK)) as port:
        for request in made:
            compare(f"request {request[:30]!r}", judge.answer(request, CLOCK), exchanged(port, [request])[0])
    assert state_on(file.read_bytes()) == source.state


def test_many_damaged_bodies_are_named(program: str, room: Path) -> None:
    spoilt = bytearray(spelled()[0])
    for number in range(DAMAGED):
        # The bodies follow from block 2 on, ordered by name.
        spoilt[(2 + 2 * number) * disk_judge.BLOCK] ^= 1
    file = room / "source.disk"
    file.write_bytes(spoilt)
    wanted = disk_runs.verified(state_on(bytes(spoilt)))
    assert wanted.count("damaged") == DAMAGED
    compare("verify", wanted.encode(), run(program, file, b"verify\n"))


def test_a_copy_of_many_resources_has_their_state(program: str, room: Path) -> None:
    disk, state = spelled()
    file, copy = room / "source.disk", room / "copy.disk"
    file.write_bytes(disk)
    finished = subprocess.run([program, "copy", file, copy, str(len(disk))], capture_output=True, timeout=SECONDS)
    compare("copy", b"copied %d\n" % len(disk), finished.stdout + finished.stderr)
    assert state_on(copy.read_bytes()) == state
    questions = crash_model.Questions([state])
    compare("the copy, opened", questions.answer(state, crash_model.all_served(state))[:1_000_000],
            run(program, copy, questions.script)[:1_000_000])


@pytest.mark.parametrize("answer", [b"published 2 1970-01-01T00:00:00.001Z\n", b"HTTP/1.1 200 OK\r\n\r\n"])
def test_the_judge_rejects_a_refusal(answer: bytes) -> None:
    with pytest.raises(Differs):
        compare("an answer", answer, refused(answer))


def same(what: str, wanted: object, found: object) -> None:
    """Compare two values at a drawn size."""
    if wanted != found:
        raise Differs(f"{what}: wanted {str(wanted)[:500]}, found {str(found)[:500]}")


@pytest.mark.parametrize("look", [*drawn_sizes.LOOKS, *drawn_edges.LOOKS],
                         ids=lambda look: look.__name__.removeprefix("look_at_"))
def test_drawn_sizes_are_accepted(program: str, room: Path, look: Callable[..., None]) -> None:
    """The program reads and writes no byte twice, and makes no call twice."""
    seed = os.environ.get("SEED") or random.SystemRandom().randrange(1_000_000)
    print(f"SEED={seed}")
    look(Room(program, room), random.Random(f"{seed}"), same)


@pytest.mark.parametrize("part", range(drawn_commands.PARTS))
def test_commands_of_drawn_counts_of_resources_are_accepted(program: str, room: Path, part: int) -> None:
    seed = os.environ.get("SEED") or random.SystemRandom().randrange(1_000_000)
    print(f"SEED={seed}")
    drawn_commands.look(program, room / "counted.disk", random.Random(f"{seed} {part}"), same, part)
