"""Tests of the program on hostile disks.

A disk is made from sound ones (any_disks.py) by its number and the seed: a bit is flipped, a field is at an edge with
right digests, the disk is cut, doubled or spliced from two, random bytes follow a right root, and more. The program
runs on it once, with `status`, `verify`, and `show` of all documents and resources. An independent reader
(disk_judge.py) computes the answers. A run
- ends within a second of processor time (in one of three tries), with status 0 if the disk opens, and else with 1 and
  the right word;
- takes at most 16 times the size of its file in memory, in addition to the memory for an empty source (disk_runs.py
  has the numbers): its address space is limited, so that it fails if it needs more;
- answers, byte for byte, by the rules of docs/DISK.md, docs/SCRIPT.md and docs/DOCUMENTS.md, names the damaged
  bodies, and does not change the file; and xml.etree parses the documents.

DISKS=N tries N disks in all, SEED=N sets another seed, CASE=N tries one disk by its number. A failure names files with
the bytes of the disks.
"""
from functools import cache
from pathlib import Path

import pytest

from tests import hunting
from tests.hostile import any_disks
from tests.hostile.disk_runs import OF_ITSELF, Room, faults, least, wanted_of
from tests.program import room_in_memory

pytestmark = [pytest.mark.plain, pytest.mark.timeout(7200)]

SEED, DISKS, SHORT = 20261125, 100_000, 3_000


@cache
def memory_of_itself(program: str) -> int:
    """Return the memory of the program with an empty source."""
    disk = any_disks.SPELLED["empty"]()
    with room_in_memory("itself-") as folder:
        found: int | None = least(Room(program, folder), disk, wanted_of(disk))
    assert found is not None, f"the program does not answer an empty source in {OF_ITSELF} bytes of memory for itself"
    return found


@hunting.in_parts
def test_a_disk_of_any_bytes_is_answered_by_the_rules(request: pytest.FixtureRequest, program: str, room: Path,
                                                      tmp_path: Path, part: int) -> None:
    runs, found = Room(program, str(room), memory_of_itself(program)), list[str]()
    seed, count = hunting.seed(SEED), hunting.number(request.config, "DISKS", SHORT, DISKS)
    for number in hunting.cases(count, part):
        what, disk = any_disks.disk_of(seed, number)
        wanted = wanted_of(disk)
        if wrong := faults(disk, wanted, runs.run(disk, wanted.script)):
            kept = tmp_path / f"{number}.disk"
            kept.write_bytes(disk)
            found.append(f"disk {number} of seed {seed}, {what[:200]}: {kept}\n  " + "\n  ".join(wrong))
    hunting.report(found)
