"""Compare groups with single puts, and a copy with reading, hashing and writing the same bytes.

  groups   16 puts of 4 KiB one by one, and the same 16 as a group, in turn, on one file, by lines of a script and over
           HTTP: medians. A line and a group carry hexadecimal text, a PUT the bytes. bench/grouping.py times the calls
           of a source alone.
  copy     `copy` of 10,000 resources of 4 KiB to a new file, and the floor: the same bodies, pages and directory read
           from the old file and written to a new one, body by body, with three syncs, plus the time of their SHA-256
           at the kit's rate.

usage: python3 -m bench.copying [PROGRAM]     default: the built program. ROOM in the environment is the folder for the
files.
"""
import os
import pathlib
import random
import socket
import statistics
import subprocess
import sys
import tempfile
import time
from collections.abc import Iterable

from bench import hashing
from bench.asked import MIB, Asked, timed
from tests.program import PROGRAM
from tests.reading.disk_formats import BLOCK
from tests.reading.disk_reader import source_of

IN_A_GROUP, ROUNDS, COPIED, TIMES = 16, 60, 10_000, 5


def puts(rng: random.Random, names: Iterable[str]) -> list[str]:
    """Return the lines that put bodies of 4 KiB by these names."""
    return [f"put {name} {rng.randbytes(4096).hex()} text/plain" for name in names]


def grouped(lines: list[str]) -> str:
    """Return the lines of a group of these puts."""
    return "\n".join([f"group {len(lines)}", *lines])


def made(program: str, file: str, size: int) -> Asked:
    """Return an open source on a new file."""
    subprocess.run([program, "format", file, str(size), "http://a", "1000"], check=True, capture_output=True)
    return Asked(program, file)


def groups(program: str, room: str) -> None:
    """Time single puts and groups of them, by the lines of a script."""
    rng, ours = random.Random(1), made(program, f"{room}/groups.disk", 16 * MIB)
    names, alone, together = [f"n{i:03d}" for i in range(200)], [], []
    for _ in range(ROUNDS):
        lines = puts(rng, rng.sample(names, IN_A_GROUP))
        alone.append(sum(timed(ours, line, ("created", "updated")) for line in lines))
        together.append(timed(ours, grouped(puts(rng, rng.sample(names, IN_A_GROUP))), "grouped 16 "))
    ours.end()
    one, all_of_them = statistics.median(alone), statistics.median(together)
    print(f"groups: 16 puts of 4 KiB {1000 * one:.1f} ms, a group of 16 {1000 * all_of_them:.1f} ms: "
          f"{all_of_them / one:.2f} of it", flush=True)


def answer(port: int, head: str, body: bytes) -> float:
    """Return the seconds from a request to the end of its response, over a connection of its own."""
    began, found = time.perf_counter(), b""
    with socket.create_connection(("127.0.0.1", port)) as connection:
        fields = f"Host: a\r\nContent-Type: text/plain\r\nContent-Length: {len(body)}"
        connection.sendall(f"{head} HTTP/1.1\r\n{fields}\r\n\r\n".encode() + body)
        while come := connection.recv(4096):
            found += come
    assert found[9:10] == b"2", found
    return time.perf_counter() - began


def groups_over_http(program: str, room: str) -> None:
    """Time single puts and groups of them, over HTTP."""
    file, rng = f"{room}/served.disk", random.Random(3)
    made(program, file, 16 * MIB).end()
    server = subprocess.Popen([program, "serve", file, "0", str(ROUNDS * (IN_A_GROUP + 1))], stdout=subprocess.PIPE,
                              text=True)
    assert server.stdout
    port = int(server.stdout.readline().rsplit(":", 1)[1])
    names, alone, together = [f"n{i:03d}" for i in range(200)], [], []
    for _ in range(ROUNDS):
        alone.append(sum(answer(port, f"PUT /resource/{name}", rng.randbytes(4096))
                         for name in rng.sample(names, IN_A_GROUP)))
        lines = puts(rng, rng.sample(names, IN_A_GROUP))
        together.append(answer(port, "POST /group", "".join(f"{line}\n" for line in lines).encode()))
    server.wait()
    one, all_of_them = statistics.median(alone), statistics.median(together)
    print(f"groups over HTTP: 16 PUTs of 4 KiB {1000 * one:.1f} ms, a group of 16 {1000 * all_of_them:.1f} ms: "
          f"{all_of_them / one:.2f} of it", flush=True)


def filled(program: str, file: str) -> None:
    """Fill a new source, and publish it."""
    rng, ours = random.Random(2), made(program, file, 96 * MIB)
    for first in range(0, COPIED, IN_A_GROUP):
        timed(ours, grouped(puts(rng, [f"n{i:05d}" for i in range(first, first + IN_A_GROUP)])), "grouped")
    timed(ours, "publish", "published")
    ours.end()


def parts_of(file: str) -> list[tuple[int, int]]:
    """Return the places and lengths of all bodies, pages and directories of a file, in bytes."""
    source = source_of(pathlib.Path(file).read_bytes())
    records = [record for page in source.catalogue for record in page.items]
    pages = [page.entry for part in (source.catalogue, source.changes, source.published) for page in part]
    return [(entry.first * BLOCK, entry.length) for entry in [*records, *pages, source.directory]]


def floor(file: str, to: str, parts: list[tuple[int, int]]) -> float:
    """Return the seconds of the calls of a copy."""
    pathlib.Path(to).unlink(missing_ok=True)
    began = time.perf_counter()
    old, new = os.open(file, os.O_RDONLY), os.open(to, os.O_RDWR | os.O_CREAT, 0o600)
    os.ftruncate(new, os.stat(file).st_size)
    os.fsync(new)
    for at, length in parts:
        os.pwrite(new, os.pread(old, length, at), at)
    os.fsync(new)
    os.pwrite(new, b"\1", 0)
    os.fsync(new)
    os.close(old)
    os.close(new)
    return time.perf_counter() - began


def copied(program: str, file: str, to: str) -> float:
    """Return the seconds of a copy."""
    pathlib.Path(to).unlink(missing_ok=True)
    began = time.perf_counter()
    subprocess.run([program, "copy", file, to, str(96 * MIB)], check=True, capture_output=True)
    return time.perf_counter() - began


def copies(program: str, room: str, rate: float) -> None:
    """Time copies against the floor."""
    file = f"{room}/old.disk"
    filled(program, file)
    parts = parts_of(file)
    digests = sum(length for _, length in parts) * rate
    rows = [(copied(program, file, f"{room}/copy.disk"), floor(file, f"{room}/floor.disk", parts))
            for _ in range(TIMES)]
    seconds, calls = (statistics.median(column) for column in zip(*rows))
    print(f"copy: 10,000 of 4 KiB {1000 * seconds:.0f} ms; the floor {1000 * (calls + digests):.0f} ms "
          f"(calls {1000 * calls:.0f}, SHA-256 {1000 * digests:.0f}): {(calls + digests) / seconds:.2f} of its rate")


def main() -> int:
    """Measure both, and return the exit status."""
    program = os.path.abspath(sys.argv[1] if len(sys.argv) > 1 else str(PROGRAM))
    _, _, alone = (seconds / (16 * MIB) for seconds in hashing.seconds())
    with tempfile.TemporaryDirectory(dir=os.environ.get("ROOM")) as room:
        groups(program, room)
        groups_over_http(program, room)
        copies(program, room, alone)
    return 0


if __name__ == "__main__":
    sys.exit(main())
