"""Refuse all memory allocations of an opening and of a copy in turn, and note the calls on files.

The program ends with `NoMemory` after a refusal, and only closes its files; so it reads no byte twice. If the system
refuses to shorten a list, the program continues as usual.
"""
from collections.abc import Sequence

from tests.disks import paged_disk
from tests.reading.disk_formats import BLOCK
from tests.system import call_rules
from tests.system.noted_calls import Outcome, Room, texts

DISK, NEW, HELD = "opened.disk", "copied.disk", 70
RUN, COPY = ("run", DISK), ("copy", DISK, NEW, "262144")
WANTED = (1, b"", b"rs_source: NoMemory\n")


def short_disk() -> bytes:
    """Return a disk with some pages and some free blocks."""
    whole: bytes = paged_disk.spelled(HELD, HELD)
    return whole[: len(whole) - (paged_disk.ROOM - 64) * BLOCK]


def wrong(outcome: Outcome, clean: Sequence[str]) -> str | None:
    """Return the fault of a run with a refused allocation, or None; `clean` is the run without refusal."""
    found = texts(outcome.calls)
    if outcome.status == 0 and found == list(clean):
        return None
    if tuple(outcome[:3]) != WANTED:
        return f"status {outcome.status}, {outcome.output[:100]!r}, {outcome.error!r}"
    ends = [place for place in range(len(clean) + 1)
            if found[:place] == list(clean[:place]) and sorted(found[place:]) == call_rules.closes(found[:place])]
    return None if ends else f"the calls {found[-5:]} are not the first ones and then those that close"


def refuse(room: Room, words: tuple[str, ...], refusing: str) -> tuple[int, list[str]]:
    """Refuse all allocations of a run in turn; the run reads no standard input.

    Return their number, and the faults.
    """
    room.clear(NEW)
    outcome = room.run(words, LD_PRELOAD=f"{refusing}:{room.shim}", REFUSED_AT=0)
    clean, count, found = texts(outcome.calls), int(outcome.error.split()[-1]), []
    for refused_at in range(1, count + 1):
        room.clear(NEW)
        outcome = room.run(words, LD_PRELOAD=f"{refusing}:{room.shim}", REFUSED_AT=refused_at)
        fault = wrong(outcome, clean)
        found += [f"{words[0]}, growth {refused_at}: {fault}"] if fault else []
    return count, found
