"""Measure a source with many resources on a file: puts of 4 KiB, an opening, and the memory of an open source, compared
with the least that the format requires.

  puts     with 100, 1,000, 10,000 and 50,000 resources held, as many changes kept and as many published, resources are
           replaced one after the other. After every put the floor does the same calls on another file in the same
           folder: the writes of the body, the touched page of records, the touched page of changes, the directory and
           the slots, and three syncs. The time of both digests of the body and of the SHA-256 of both pages and of the
           directory is added, at the kit's rate.
  open     50,000 held, changed and published, with the catalogue's pages as the published ones, and with other pages:
           from the start of the program to its first answer, minus the time of an empty source. The floor reads every
           page once, from the device, and has the SHA-256 of all at the kit's rate.
  memory   the resident memory of the open source, minus that of an empty one, against the bytes of its pages.

usage: python3 -m bench.many [PROGRAM]     default: the built program. ROOM in the environment is the folder for the
files.
"""
import bisect
import hashlib
import os
import pathlib
import random
import statistics
import subprocess
import sys
import tempfile
import time
from typing import Any

from bench import hashing
from bench.asked import MIB, Asked, timed
from tests.disks.paged_disk import BODY, name, spelled
from tests.program import PROGRAM
from tests.reading import disk_parts as parts_of
from tests.reading import page_rule
from tests.reading.disk_formats import BLOCK
from tests.reading.disk_reader import source_of

# The seconds per byte: of both digests, and of SHA-256 alone.
Rates = tuple[float, float]
PUTS = 100
COUNTS = (100, 1_000, 10_000, 50_000)
# The most changes that a source keeps.
MOST = 50_000
CHANGE = len(parts_of.change(2, name(0), 1, BODY))


def sizes(source: Any, name: bytes, before: int) -> tuple[int, int, int]:
    """Return the lengths of the page of records, the page of changes and the directory that a put writes.

    The put of `name` follows `before` other puts.
    """
    firsts = [page.items[0].name for page in source.catalogue]
    records = source.catalogue[bisect.bisect_right(firsts, name) - 1].entry.length
    pages, inside = divmod(sum(len(page.items) for page in source.changes) + before, page_rule.MOST)
    directory = source.directory.length + 44 * (pages + 1 - len(source.changes))
    return records, 5 + (inside + 1) * CHANGE, directory


def lengths_on(file: str, name: bytes) -> tuple[int, int, int]:
    """Return the lengths of the page of `name`, of the last page of changes and of the directory on a file."""
    source = source_of(pathlib.Path(file).read_bytes())
    page = next(page for page in source.catalogue if any(record.name == name for record in page.items))
    return page.entry.length, source.changes[-1].entry.length, source.directory.length


class Floor:
    """The least work of puts, on a file of their own: their calls and their hashing."""

    def __init__(self, file: str, disk: bytes) -> None:
        pathlib.Path(file).write_bytes(disk)
        self.file, self.end = os.open(file, os.O_RDWR), len(disk) // BLOCK
        self.source, self.puts, self.hashed = source_of(disk), 0, 0
        os.fsync(self.file)

    def put(self, name: bytes, body: bytes) -> float:
        """Do the calls of one put, and return their seconds."""
        parts = sizes(self.source, name, self.puts)
        # No put overwrites the one before it.
        at = (self.end - (2000 if self.puts % 2 else 1000)) * BLOCK
        self.puts, self.hashed = self.puts + 1, self.hashed + sum(parts)
        data = [body, *map(bytes, parts)]
        began = time.perf_counter()
        for part in data:
            os.pwrite(self.file, part, at)
            at += (len(part) + BLOCK - 1) // BLOCK * BLOCK
        for offset, length in ((512, 1), (513, 53), (512, 1)):
            os.pwrite(self.file, bytes(length), offset)
            os.fsync(self.file)
        return time.perf_counter() - began


def puts(program: str, room: str, count: int, rates: Rates) -> None:
    """Replace resources one by one, and do the floor's calls after every put."""
    file, body = f"{room}/{count}.disk", hashlib.shake_256(b"4 KiB").digest(4096)
    disk = spelled(count, min(count, MOST - PUTS))
    pathlib.Path(file).write_bytes(disk)
    floor, ours = Floor(f"{room}/floor.disk", disk), Asked(program, file)
    rng, times, least, lines = random.Random(count), [], [], []
    for _ in range(PUTS):
        chosen = name(rng.randrange(count))
        line = f"put {chosen.decode()} {body.hex()} text/plain"
        lines.append(timed(ours, line[:-6], "refused BadType"))
        times.append(timed(ours, line, "updated"))
        least.append(floor.put(chosen, body))
    ours.end()
    if (lengths := lengths_on(file, chosen)) != sizes(floor.source, chosen, PUTS - 1):
        raise SystemExit(f"the last put wrote {lengths} bytes, and the floor {sizes(floor.source, chosen, PUTS - 1)}")
    tell_puts(count, statistics.median(times) - statistics.median(lines), statistics.median(least),
              floor.hashed / PUTS, rates)


def tell_puts(count: int, put: float, calls: float, hashed: float, rates: Rates) -> None:
    """Print the figures of puts and of the floor."""
    both, alone = rates
    digests = 4096 * both + hashed * alone
    times = put / (calls + digests)
    print(f"puts: {count} held: {1000 * put:.2f} ms each; the floor {1000 * (calls + digests):.2f} ms "
          f"(calls {1000 * calls:.2f}, digests {1000 * digests:.2f} of {(hashed + 4096) / 1000:.0f} kB): "
          f"{times:.2f} times", flush=True)


def read_pages(file: str, pages: list[Any]) -> float:
    """Return the seconds of reading these pages from the device."""
    descriptor = os.open(file, os.O_RDONLY)
    os.fsync(descriptor)
    os.posix_fadvise(descriptor, 0, 0, os.POSIX_FADV_DONTNEED)
    began = time.perf_counter()
    for page in pages:
        os.pread(descriptor, page.length, page.first * BLOCK)
    seconds = time.perf_counter() - began
    os.close(descriptor)
    return seconds


def empty(program: str, room: str) -> tuple[float, int]:
    """Return the seconds of opening an empty source, and its memory."""
    file = f"{room}/empty.disk"
    subprocess.run([program, "format", file, str(MIB), "http://a", "4000"], check=True, capture_output=True)
    ours = Asked(program, file)
    found = ours.opened, ours.resident()
    ours.end()
    os.unlink(file)
    return found


def opening(program: str, room: str, shared: bool, rates: Rates) -> None:
    """Open a source with 50,000 resources, changes and published resources."""
    file, disk = f"{room}/open.disk", spelled(MOST, MOST, shared)
    pathlib.Path(file).write_bytes(disk)
    source = source_of(disk)
    pages = list(dict.fromkeys(page.entry for part in (source.catalogue, source.changes, source.published)
                               for page in part))
    nothing, least = empty(program, room)
    runs = [read_and_opened(program, file, pages) for _ in range(3)]
    seconds, read, resident = (min(column) for column in zip(*runs))
    os.unlink(file)
    length = sum(page.length for page in pages)
    digests = length * rates[1]
    print(f"open: 50,000 of each, {len(pages)} pages, the published ones {'shared' if shared else 'others'}: "
          f"{1000 * (seconds - nothing):.0f} ms; the floor {1000 * (read + digests):.0f} ms "
          f"(reading {1000 * read:.0f}, SHA-256 {1000 * digests:.0f}): "
          f"{(seconds - nothing) / (read + digests):.2f} times")
    print(f"memory: {(resident - least) / MIB:.1f} MiB; the bytes of the pages {length / MIB:.1f} MiB: "
          f"{(resident - least) / length:.2f} times", flush=True)


def read_and_opened(program: str, file: str, pages: list[Any]) -> tuple[float, float, int]:
    """Return the seconds of opening a file by the program and of reading the pages, and the program's memory."""
    read = read_pages(file, pages)
    ours = Asked(program, file)
    if not ours.first.startswith(f"resources {MOST} changes {MOST} publication 1 "):
        raise SystemExit(f"the source has {ours.first}")
    resident = ours.resident()
    ours.end()
    return ours.opened, read, resident


def main() -> int:
    """Measure all, and return the exit status."""
    program = os.path.abspath(sys.argv[1] if len(sys.argv) > 1 else str(PROGRAM))
    _, both, alone = (rate / (16 * MIB) for rate in hashing.seconds())
    with tempfile.TemporaryDirectory(dir=os.environ.get("ROOM")) as room:
        for count in COUNTS:
            puts(program, room, count, (both, alone))
        for shared in (True, False):
            opening(program, room, shared, (both, alone))
    return 0


if __name__ == "__main__":
    sys.exit(main())
