"""Tests of the memory that the program allocates while it opens a disk and executes a command.

A C library counts calls of malloc and realloc. An opening allocates no more bytes than the parts of the disk allow
(opening_memory.py). No single allocation is larger than the file, except for lines and for lists that grow item by
item. A refused disk costs at most one allocation per 16 bytes of its file, and a constant. So no number on a disk makes
the program allocate memory that its bytes cannot fill. A line or a request allocates no more than its own bytes and
changes allow (command_growths.py, command_memory.py).
"""
import subprocess
from collections.abc import Callable
from functools import partial
from pathlib import Path
from typing import NamedTuple

import pytest

from tests import hunting
from tests.disks import disks, made_disks, paged_disk
from tests.program import MEMORY, interposed
from tests.reading import disk_parts as parts_of
from tests.reading.disk_formats import BLOCK, laid_out
from tests.rows.reader import disk_rows
from tests.system import command_growths, opening_memory
from tests.system.counted_growths import COUNTING

# The plain program allocates differently (rust/README.md).
pytestmark = pytest.mark.needs("cc")

# The numbers of pages of the disks.
PAGES = 5_000
# The bytes of a refused file per allocation.
OF_A_GROWTH = 16
# The bytes in memory of an item and of the entry of a page, and the bytes of an entry on the disk.
ITEM, REFERENCE, ENTRY = 152, 48, 44
# The additional bytes of wrong programs on a disk of this many pages: four million for any directory, room for 50,000
# items per list, or room for an entry of a page per byte.
WRONG: dict[str, Callable[[int], int]] = {
    "a directory of any length": lambda pages: 4_000_000,
    "room for the most items": lambda pages: 50_000 * ITEM,
    "room for the most texts": lambda pages: 50_000 * 8,
    "a page for each byte of an entry": lambda pages: (ENTRY - 1) * pages * REFERENCE,
}


class Growths(NamedTuple):
    """The number of allocations, the bytes of the largest one, and the sum of bytes."""

    growths: int
    largest: int
    all: int


def measure(program: str, room: Path, disk: bytes) -> tuple[Growths, bool]:
    """Return the allocations of a run that opens a disk and prints its status, and whether the disk opens."""
    (room / "a.disk").write_bytes(disk)
    env = interposed(room, "counting", COUNTING)
    finished = subprocess.run([program, "run", "a.disk"], cwd=room, env=env, input=b"status\n", capture_output=True,
                              timeout=60)
    numbers = map(int, finished.stderr.split(b"\ngrowths ")[-1].split())
    return Growths(*numbers), finished.returncode == 0


def empty(program: str, room: Path, size: int) -> bytes:
    """Return an empty source of this size."""
    path = room / "empty.disk"
    subprocess.run([program, "format", path.name, str(size), *MEMORY[2:]], cwd=room, check=True, capture_output=True)
    return path.read_bytes()


def filled_disk(count: int) -> bytes:
    """Return a disk with this many resources, changes and published resources."""
    disk: bytes = paged_disk.spelled(count, count)
    return disk


def small_pages(count: int) -> bytes:
    """Return a disk with this many empty resources on separate pages, and as many changes on one page."""
    names = [b"n%06d" % number for number in range(count)]
    records = [parts_of.page(1, [parts_of.record(name, b"", moment, 0)]) for moment, name in enumerate(names, 1)]
    changes = parts_of.page(2, [parts_of.change(1, name, moment, b"") for moment, name in enumerate(names, 1)])
    pages = made_disks.laid_behind(2, [*records, changes])
    entries = [parts_of.entry(*page) for page in pages]
    directory = parts_of.directory(count, lists=(entries[:-1], entries[-1:], []))
    first = pages[-1][0] + -(-len(changes) // BLOCK)
    slot = parts_of.slot(1, 5, first, directory)
    disk: bytes = laid_out(first + -(-len(directory) // BLOCK), [(0, slot), *pages, (first, directory)])
    return disk


def pages_of_wrong_moments(count: int) -> bytes:
    """Return a disk with this many one-record pages, as many published ones, and a wrong last moment."""
    records = [parts_of.page(1, [parts_of.record(b"n%06d" % number, b"", number, 0)]) for number in range(1, count + 1)]
    pages = made_disks.laid_behind(2, records * 2)
    entries = [parts_of.entry(*page) for page in pages]
    directory = parts_of.directory(count + 1, number=1, at=count, lists=(entries[:count], [], entries[count:]))
    first = pages[-1][0] + -(-len(records[-1]) // BLOCK)
    slot = parts_of.slot(1, 5, first, directory)
    disk: bytes = laid_out(first + -(-len(directory) // BLOCK), [(0, slot), *pages, (first, directory)])
    return disk


def too_much(growths: Growths, opens: bool, disk: bytes) -> list[str]:
    """Return the faults of the allocations of an opening of this disk."""
    found, allowed = [], opening_memory.allowed(disk)
    if growths.largest > max(opening_memory.LINES, len(disk), opening_memory.largest(disk)):
        found.append(f"one growth of {growths.largest} bytes")
    if growths.all > allowed:
        found.append(f"{growths.all} bytes in all, of {allowed}")
    if not opens and growths.growths > opening_memory.GROWTHS + len(disk) // OF_A_GROWTH:
        found.append(f"{growths.growths} growths, and refused")
    return found


@hunting.in_parts
def test_the_disks_of_the_rows_open_within_bounds(program: str, room: Path, part: int) -> None:
    """The disks break rules one by one, with the greatest counts and lengths that a field can have."""
    rows, faults = [*disk_rows()], list[str]()
    for number in hunting.cases(len(rows), part):
        words, _ = rows[number]
        disks.disk(room, words[0], "row.disk", *words[1:])
        disk = (room / "row.disk").read_bytes()
        found = too_much(*measure(program, room, disk), disk)
        faults += [f"row {number}, {' '.join(words)}: {fault}" for fault in found]
    hunting.report(faults)


@pytest.mark.parametrize("size", [1 << 20, 1 << 24, 1 << 26])
def test_an_empty_source_opens_within_bounds(program: str, room: Path, size: int) -> None:
    disk = empty(program, room, size)
    assert too_much(*measure(program, room, disk), disk) == []


@pytest.mark.parametrize("make", [
    *(pytest.param(partial(filled_disk, count), id=f"{count} resources") for count in (100, 1_000, 10_000)),
    pytest.param(partial(small_pages, PAGES), id=f"{PAGES} pages of one item"),
    *(pytest.param(made_disks.DISKS[name], id=name) for name in ("most_changes", "most_resources")),
])
def test_a_source_of_many_resources_opens_within_bounds(program: str, room: Path, make: Callable[[], bytes]) -> None:
    disk = make()
    assert too_much(*measure(program, room, disk), disk) == []


def test_a_disk_of_wrong_moments_is_refused_before_its_blocks_cost_memory(program: str, room: Path) -> None:
    growths, opens = measure(program, room, pages_of_wrong_moments(PAGES))
    limit = opening_memory.of_short_pages(2 * PAGES, growths.largest)
    assert not opens
    assert growths.all <= limit
    assert growths.all + 2 * PAGES * ENTRY // 2 > limit, "one more list of the published pages has to exceed the limit"


@pytest.mark.parametrize("wrong", [*WRONG, "a growth", "growths"])
def test_the_judge_rejects_an_opening_that_asks_for_more(program: str, room: Path, wrong: str) -> None:
    refused = small_pages(1)[:-BLOCK]
    disk = refused if wrong == "growths" else small_pages(PAGES) if "entry" in wrong else filled_disk(1_000)
    growths, opens = measure(program, room, disk)
    pages = sum(map(len, opening_memory.lists_of(disk)[1]))
    assert too_much(growths, opens, disk) == []
    more = {"a growth": {"largest": 10**9}, "growths": {"growths": 10**9}}.get(wrong)
    changed = growths._replace(**more or {"all": growths.all + WRONG[wrong](pages)})
    assert too_much(changed, opens, disk) != []


@pytest.mark.parametrize("resources", command_growths.HELD)
@pytest.mark.parametrize("kind", ["lines", "requests"])
def test_a_command_asks_for_its_own_bytes_and_its_changes_alone(program: str, room: Path, kind: str,
                                                                resources: int) -> None:
    looks = command_growths.Looks(program, room / "commanded.disk")
    disk = paged_disk.spelled(resources, resources)
    (looks.look_at_lines if kind == "lines" else looks.look_at_requests)(disk, resources)
    assert looks.wrong == []


def test_a_large_body_is_shown_with_its_own_bytes(program: str, room: Path) -> None:
    looks = command_growths.Looks(program, room / "commanded.disk")
    looks.look_at_large_body(paged_disk.spelled(1, 1))
    assert looks.wrong == []


def test_the_judge_rejects_commands_that_ask_for_more(program: str, room: Path) -> None:
    looks = command_growths.Looks(program, room / "commanded.disk")
    disk = paged_disk.spelled(1, 1)
    looks.look_at_lines(disk, 1)
    looks.look_at_requests(disk, 1)
    looks.look_at_large_body(disk)
    assert looks.noticed == {*command_growths.WRONG}
