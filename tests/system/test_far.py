"""Tests of the program on disks of 4 GiB, its greatest size: it passes offsets above 2 GiB unchanged.

A contract covers the offset in a noted call, not the offset that reaches the system. The files are sparse, and made by
docs/DISK.md (tests/disks/far_disk.py). The directory, the pages and the bodies are in the last blocks. On one disk all
other blocks are free; on others, bodies of zeros fill the blocks below 2 GiB or more, so that commands write after
them. The calls are those of call_rules.py.
"""
import os
import random
from collections.abc import Callable
from pathlib import Path
from typing import Any

import pytest

from tests.disks import far_disk
from tests.disks.far_disk import BLOCKS, BODIES, FILLERS, MOST_FILLERS, Holes
from tests.program import Differs
from tests.reading import disk_judge, disk_reader
from tests.reading.disk_formats import BLOCK
from tests.served_source import exchanged, served
from tests.system import call_rules
from tests.system.calls_of_commands import request
from tests.system.noted_calls import Room, texts

pytestmark = pytest.mark.needs("cc")

DISK, NEW = "far.disk", "copy.disk"
RUN = ["run", DISK]
# 2 GiB: from here on an offset has a bit above the lowest 31.
HALF = 1 << 31
AT = b"at 951782400000\n"
PUT, NAME, BODY = b"put new %s text/plain\n", b"new", b"n" * 700
SHOW = b"show /resource/"
# Bodies of zeros that end one body below 2 GiB.
CROSSED = FILLERS - 1
# Lost bits of read and written offsets (the highest, or the next), and the number of bodies of zeros that reveal it.
WRONG = [
    ("READ_BITS", 0x7FFF_FFFF, 0),
    ("READ_BITS", 0xBFFF_FFFF, 0),
    ("WRITE_BITS", 0x7FFF_FFFF, FILLERS),
    ("WRITE_BITS", 0xBFFF_FFFF, MOST_FILLERS),
]


def compare(what: str, found: object, wanted: object) -> None:
    """Raise Differs unless the values are equal."""
    if found != wanted:
        raise Differs(f"{what}: found {str(found)[:300]}, wanted {str(wanted)[:300]}")


def put_line() -> bytes:
    """Return the line of the put."""
    return PUT % BODY.hex().encode()


def shown(body: bytes) -> bytes:
    """Return the answer to `show` for this body."""
    return b"bytes %d\n%s\n" % (len(body), body)


def look_at_file(what: str, room: Room, wanted: dict[bytes, bytes]) -> Holes:
    """Check that the file is whole, and has these bodies and those of zeros; return its bytes."""
    disk = Holes(Path(room.folder, DISK))
    verdict, source = disk_judge.verdict_of(disk)
    compare(what, (verdict, str(source) if verdict != disk_judge.OPENS else ""), (disk_judge.OPENS, ""))
    if verdict == disk_judge.OPENS:
        records = {record.name: record for record in disk_judge.items_of(source.catalogue)
                   if not record.name.startswith(b"f")}
        compare(what, {name: disk_judge.body_of(disk, record) for name, record in records.items()}, wanted)
    return disk


def run(room: Room, script: bytes, **settings: int) -> bytes:
    """Run a whole script; return its output."""
    outcome = room.run(RUN, script, **settings)
    compare(f"{script[:40]!r}", (outcome.status, outcome.error), (0, b""))
    return outcome.output


def look_at_bodies(what: str, room: Room, filled: int) -> None:
    """Check `status`, the bodies in the last blocks, and `verify`, also with a damaged body."""
    path, names = Path(room.folder, DISK), [*BODIES]
    script = b"status\n" + b"".join(SHOW + name + b"\n" for name in names)
    answers = b"".join(shown(body) for body in BODIES.values())
    compare(what, run(room, script).partition(b"\n")[2], answers)
    if filled:
        return
    disk = Holes(path)
    record = next(record for record in call_rules.records_of(disk) if record.name == b"x1")
    at = record.first * BLOCK + record.length - 1
    for byte, answer in [(b"?", b"damaged x1\nverified 2\n"), (BODIES[b"x1"][-1:], b"verified 3\n")]:
        with open(path, "r+b") as file:
            os.pwrite(file.fileno(), byte, at)
        compare(f"{what}, verify", run(room, b"verify\n"), answer)


def look_at_commands(what: str, room: Room, filled: int) -> None:
    """Check the calls and the bodies of a put, a deletion and a publication."""
    wanted, before = dict(BODIES), look_at_file(what, room, BODIES)
    lines: list[tuple[bytes, list[int]]] = [(put_line(), [len(BODY)]), (b"delete x2\n", []), (b"publish\n", [])]
    for line, bodies in lines:
        outcome = room.run(RUN, AT + line)
        wanted = {**wanted, NAME: BODY} if bodies else {name: body for name, body in wanted.items() if name != b"x2"}
        after = look_at_file(f"{what}, {line[:20]!r}", room, wanted)
        opening = call_rules.opening(DISK, before)
        calls = [*opening, "line", "answer", "line", *call_rules.changing(DISK, before, after, bodies), "answer",
                 "line", f"close {DISK}"]
        compare(f"{what}, {line[:20]!r}", texts(outcome.calls), calls)
        written = [int(call.words.split(" ")[0]) for call in outcome.calls if call.name == "write"]
        compare(f"{what}, {line[:20]!r}: writes beyond 2 GiB", any(place >= HALF for place in written), bool(filled))
        before = after
    if not filled:
        compare(f"{what}, verify", run(room, b"verify\n"), b"verified %d\n" % len(wanted))
    else:
        low = [begin for begin, data in before.parts
               if begin < HALF and data[max(2 * BLOCK - begin, 0) : HALF - begin].strip(b"\0")]
        compare(f"{what}: what is written below 2 GiB beside the slots", low, [])


def look_at_copy(what: str, room: Room, filled: int) -> None:
    """Copy the source to a file of the same length by the rules of calls, and check the bodies of the copy."""
    if filled:
        return
    room.clear(NEW)
    outcome = room.run(["copy", DISK, NEW, str(BLOCKS * BLOCK)])
    disk, copy = (Holes(Path(room.folder, name)) for name in (DISK, NEW))
    compare(f"{what}, copy", outcome[:3], (0, b"copied %d\n" % (BLOCKS * BLOCK), b""))
    calls = [*call_rules.opening(DISK, disk), *call_rules.copying(DISK, disk, NEW, copy), f"close {NEW}", "answer",
             f"close {DISK}"]
    compare(f"{what}, copy", texts(outcome.calls), calls)
    verdict, _ = disk_judge.verdict_of(copy)
    bodies = {record.name: disk_judge.body_of(copy, record) for record in call_rules.records_of(copy)}
    compare(f"{what}, the copy", (verdict, bodies), (disk_judge.OPENS, BODIES))
    room.clear(NEW)


def torn(path: Path, calls: list[str]) -> bool:
    """Tear the write of the last of these calls; return whether it wrote."""
    if not calls[-1].startswith("write "):
        return False
    at, length = map(int, calls[-1].split(" ")[2:])
    with open(path, "r+b") as file:
        os.pwrite(file.fileno(), b"\xa5" * -(-length // 2), at + length // 2)
    return True


def look_at_crashes(what: str, room: Room, filled: int) -> None:
    """Kill a put before every call, with its last write torn: it leaves the old or the new state."""
    path, parts = Path(room.folder, DISK), far_disk.parts(filled)
    script = AT + put_line()
    far_disk.written(path, parts)
    first = len(call_rules.opening(DISK, Holes(path)))
    calls = room.run(RUN, script).calls
    numbers = [at for at, call in enumerate(calls, 1) if at > first and call.name in ("write", "sync")]
    questions = b"show /resource/new\n" + b"".join(SHOW + name + b"\n" for name in BODIES)
    rest = b"".join(shown(body) for body in BODIES.values())
    states = set()
    for at in numbers:
        for tear in (False, True):
            far_disk.written(path, parts)
            outcome = room.run(RUN, script, STOPS=at)
            compare(f"{what}, killed at call {at}", len(outcome.calls), at - 1)
            if tear and not torn(path, texts(outcome.calls)):
                continue
            answer = run(room, questions)
            states.add(answer)
            if answer not in (b"refused NotHeld\n" + rest, shown(BODY) + rest):
                raise Differs(f"{what}, killed at call {at}{', torn' if tear else ''}: {answer[:200]!r}")
    compare(f"{what}: the states that are left", len(states), 2)


class LosingBits(Room):
    """A folder whose programs lose bits of offsets, and so are wrong."""

    def __init__(self, program: str, folder: str, bits: dict[str, int]) -> None:
        super().__init__(program, folder)
        self.bits = bits

    def environment(self, **settings: Any) -> dict[str, str]:
        """Return the environment of a run, with the lost bits."""
        made: dict[str, str] = super().environment(**self.bits, **settings)
        return made


Look = Callable[[str, Room, int], None]
LOOKS: list[Look] = [look_at_bodies, look_at_copy, look_at_commands, look_at_crashes]


def looked_at(room: Room, look: Look, filled: int) -> None:
    """Check a disk that begins with this many bodies of zeros."""
    far_disk.written(room.folder / DISK, far_disk.parts(filled))
    look(f"{filled} bodies of zeros before all else", room, filled)


@pytest.mark.parametrize("filled", [0, FILLERS, None, MOST_FILLERS], ids=["empty", "few", "drawn", "most"])
@pytest.mark.parametrize("look", LOOKS, ids=lambda look: look.__name__.removeprefix("look_at_"))
def test_offsets_beyond_2_gib_are_used(program: str, room: Path, look: Look, filled: int | None) -> None:
    count = random.randint(FILLERS, MOST_FILLERS) if filled is None else filled
    looked_at(Room(program, room), look, count)


@pytest.mark.parametrize("part, filled", [(2, CROSSED - 1), (3, CROSSED - 1), (-2, 0)],
                         ids=["directory", "page", "body"])
def test_a_part_that_crosses_2_gib_is_read(program: str, room: Path, part: int, filled: int) -> None:
    first, data = far_disk.parts(filled)[part]
    end = BLOCKS + HALF // BLOCK - first - far_disk.blocks_of(data) // 2
    calls = Room(program, room)
    far_disk.written(room / DISK, far_disk.parts(filled, end))
    for look in (look_at_bodies, look_at_copy):
        look("a part across 2 GiB", calls, filled)


def test_a_body_that_crosses_2_gib_is_written(program: str, room: Path) -> None:
    """A body comes in pieces over HTTP, one of which begins below 2 GiB and ends behind it, and is shown."""
    far_disk.written(room / DISK, far_disk.parts(CROSSED))
    body = random.randbytes(far_disk.LARGEST * BLOCK)
    with served(program, room / DISK, 2) as port:
        assert exchanged(port, [request("PUT", "/resource/new", body)])[0].startswith(b"HTTP/1.1 201 ")
        assert exchanged(port, [request("GET", "/resource/new")])[0].endswith(b"\r\n\r\n" + body)
    assert run(Room(program, room), SHOW + NAME + b"\n") == shown(body)
    look_at_file("a body across 2 GiB", Room(program, room), {**BODIES, NAME: body})


@pytest.mark.parametrize("name, bits, filled", WRONG)
def test_the_judge_rejects_a_program_that_loses_a_bit_of_offsets(program: str, room: Path, name: str, bits: int,
                                                                  filled: int) -> None:
    losing = LosingBits(program, str(room), {name: bits})
    with pytest.raises((Differs, OSError, disk_reader.Unread)):
        for look in LOOKS:
            looked_at(losing, look, filled)
