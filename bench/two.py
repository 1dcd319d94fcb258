"""Compare the proved program with the plain one (rust/README.md), in one run on one disk: `make bench-two`.

  puts     one of 100, 1,000, 10,000 and 48,000 resources is replaced by 4 KiB, on the disk before the next begins; for
           comparison LMDB and SQLite (WAL, synchronous=FULL), which keep the body, both digests, the type, the moment
           and a log
  gets     one GET after another, of 100 bytes to 16 MiB, a connection each; for comparison lighttpd, which sends a file
  verify   four bodies of 16 MiB, and 2,000 of 4 KiB
  opening  48,000 held, changed and published: from the start to the first answer
  publish  48,000 held, one of them replaced before each publication

The contenders take turns, put by put, so that other load on the machine affects all alike. The figures are the median
on the clock, and the processor time of the program or the server without its client, of LMDB and SQLite with it.

usage: /usr/bin/python3 -m bench.two [PROVED PLAIN] [--short]
It needs Debian's lighttpd and python3-lmdb; ROOM in the environment is the folder for the files.
"""
import argparse
import contextlib
import hashlib
import os
import socket
import sqlite3
import statistics
import subprocess
import tempfile
import time
from collections.abc import Callable, Iterator
from dataclasses import dataclass, field
from pathlib import Path

from bench.asked import Asked, timed
from tests.disks.paged_disk import name, spelled
from tests.program import PROGRAM, ROOT

PLAIN = ROOT / f"out/rust/ropepeach-plain-{(ROOT / 'VERSION').read_text().strip()}/target/release/rs_source"
HELD, PUTS = (100, 1_000, 10_000, 48_000), 200
# The lengths of bodies, and the number of GETs of each.
GETS = {100: 400, 4_096: 400, 65_536: 400, 1 << 20: 60, 16 << 20: 15}
TURNS, MIB, PORT = 7, 1 << 20, 8098

# Puts a body under a number into a store.
Store = Callable[[int, bytes], None]


@dataclass
class Times:
    """The times of one contender: clock seconds by turn, and processor seconds in total."""
    clock: list[float] = field(default_factory=list)
    processor: float = 0.0

    def text(self) -> str:
        """Return the milliseconds per turn: on the clock, and of the processor."""
        return f"{1000 * statistics.median(self.clock):.2f} ({1000 * self.processor / len(self.clock):.2f})"


def used(process: int) -> float:
    """Return the processor seconds of a process so far."""
    return int(Path(f"/proc/{process}/schedstat").read_text().split()[0]) / 1e9


def body(number: int) -> bytes:
    """Return the bytes of a put."""
    return hashlib.shake_256(number.to_bytes(4, "big")).digest(4096)


class Program(Asked):
    """A program on a file, queried line by line, with its processor time recorded."""

    def note(self, line: str, wanted: str, times: Times) -> None:
        """Ask a line, check its answer, and record the times."""
        before = used(self.process.pid)
        times.clock.append(timed(self, line, wanted))
        times.processor += used(self.process.pid) - before


def facts(data: bytes) -> bytes:
    """Return the type and both digests of a body."""
    return b"text/plain" + hashlib.md5(data).digest() + hashlib.sha256(data).digest()


def in_lmdb(room: Path, count: int) -> Store:
    """Fill an LMDB store with `count` resources, and return its put."""
    import lmdb

    environment = lmdb.open(str(room / f"lmdb{count}"), map_size=1 << 30, max_dbs=2)
    bodies, changes = environment.open_db(b"held"), environment.open_db(b"changes")
    with environment.begin(write=True) as all_at_once:
        for number in range(count):
            all_at_once.put(name(number), facts(b"abc") + b"abc", db=bodies)

    def put(number: int, data: bytes) -> None:
        moment = number.to_bytes(8, "big")
        with environment.begin(write=True) as one:
            one.put(name(number % count), facts(data) + moment + data, db=bodies)
            one.put(moment, name(number % count) + facts(data), db=changes)

    return put


def in_sqlite(room: Path, count: int) -> Store:
    """Fill an SQLite store with `count` resources, and return its put."""
    base = sqlite3.connect(room / f"{count}.sqlite", isolation_level=None)
    base.execute("pragma journal_mode=wal")
    base.execute("pragma synchronous=full")
    base.execute("create table held(name text primary key, facts blob, moment integer, body blob)")
    base.execute("create table changes(moment integer primary key, name text, facts blob)")
    base.execute("begin")
    base.executemany("insert into held values(?,?,0,?)", ((name(number).decode(), facts(b"abc"),
                                                           b"abc") for number in range(count)))
    base.execute("commit")

    def put(number: int, data: bytes) -> None:
        key = name(number % count).decode()
        base.execute("begin")
        base.execute("insert or replace into held values(?,?,?,?)", (key, facts(data), number, data))
        base.execute("insert into changes values(?,?,?)", (number, key, facts(data)))
        base.execute("commit")

    return put


def timed_here(put: Store, number: int, data: bytes, times: Times) -> None:
    """Time a put by this process."""
    before, began = time.process_time(), time.perf_counter()
    put(number, data)
    times.clock.append(time.perf_counter() - began)
    times.processor += time.process_time() - before


def puts(programs: dict[str, Path], room: Path, resources: int, count: int) -> None:
    """Time puts at a number of held resources."""
    opened, stores = {}, {"LMDB": in_lmdb(room, resources), "SQLite": in_sqlite(room, resources)}
    disk = spelled(resources, min(resources, 49_000))
    for key, program in programs.items():
        file = room / f"{key}{resources}.disk"
        file.write_bytes(disk)
        opened[key] = Program(program, file)
    times = {key: Times() for key in (*programs, *stores)}
    for number in range(count):
        at = number * 7919 + 1
        data = body(at)
        for key, one in opened.items():
            one.note(f"put {name(at % resources).decode()} {data.hex()} text/plain", "updated", times[key])
        for key, store in stores.items():
            timed_here(store, at, data, times[key])
    for one in opened.values():
        one.end()
    figures = " | ".join(each.text() for each in times.values())
    print(f"| put of 4 KiB, {resources:,} held | {figures} | |", flush=True)


def got(port: int, length: int) -> None:
    """Make one GET over a connection of its own, and read it to its end."""
    with socket.create_connection(("127.0.0.1", port), timeout=60) as connection:
        connection.sendall(f"GET /resource/r{length} HTTP/1.1\r\nHost: a\r\nConnection: close\r\n\r\n".encode())
        found, room = 0, bytearray(1 << 20)
        while come := connection.recv_into(room):
            found += come
    if found < length:
        raise SystemExit(f"a GET of {length} bytes got {found}")


def filled(program: Path, file: Path, size: int, bodies: list[tuple[str, int]]) -> None:
    """Make a source on a new file with these bodies."""
    subprocess.run([program, "format", file, str(size), "http://a", "1000"], check=True, capture_output=True)
    with served(program, file, len(bodies)) as (_, port):
        for key, length in bodies:
            with socket.create_connection(("127.0.0.1", port), timeout=60) as connection:
                head = f"PUT /resource/{key} HTTP/1.1\r\nHost: a\r\nContent-Length: {length}\r\n\r\n"
                connection.sendall(head.encode())
                connection.sendall(os.urandom(length))
                if connection.recv(4096)[9:12] != b"201":
                    raise SystemExit(f"a PUT of {length} bytes was refused")


@contextlib.contextmanager
def served(program: Path, file: Path, count: int) -> Iterator[tuple[int, int]]:
    """Serve a source; yield its process and its port."""
    server = subprocess.Popen([program, "serve", file, "0", str(count)], stdout=subprocess.PIPE, text=True)
    try:
        assert server.stdout
        yield server.pid, int(server.stdout.readline().rsplit(":", 1)[1])
    finally:
        server.kill()
        server.wait()


@contextlib.contextmanager
def lighttpd(room: Path) -> Iterator[tuple[int, int]]:
    """Serve files of the same lengths with lighttpd; yield its process and its port."""
    (room / "www/resource").mkdir(parents=True)
    for length in GETS:
        (room / f"www/resource/r{length}").write_bytes(os.urandom(length))
    settings = f'server.document-root = "{room}/www"\nserver.bind = "127.0.0.1"\nserver.port = {PORT}\n'
    (room / "lighttpd.conf").write_text(settings)
    server = subprocess.Popen(["lighttpd", "-D", "-f", str(room / "lighttpd.conf")], stdout=subprocess.DEVNULL,
                              stderr=subprocess.DEVNULL)
    try:
        for _ in range(100):
            with contextlib.suppress(OSError), socket.create_connection(("127.0.0.1", PORT), timeout=1):
                break
            time.sleep(0.1)
        yield server.pid, PORT
    finally:
        server.kill()
        server.wait()


def gets(programs: dict[str, Path], room: Path, is_short: bool) -> None:
    """Time GETs of each length."""
    with contextlib.ExitStack() as stack:
        servers = {}
        for key, program in programs.items():
            filled(program, room / f"{key}.gets", 64 * MIB, [(f"r{length}", length) for length in GETS])
            servers[key] = stack.enter_context(served(program, room / f"{key}.gets", 1_000_000))
        servers["lighttpd"] = stack.enter_context(lighttpd(room))
        for length, count in GETS.items():
            times = {key: Times() for key in servers}
            for _ in range(3 if is_short else count):
                for key, (process, port) in servers.items():
                    before, began = used(process), time.perf_counter()
                    got(port, length)
                    times[key].clock.append(time.perf_counter() - began)
                    times[key].processor += used(process) - before
            row = [times[key].text() for key in programs] + ["", "", times["lighttpd"].text()]
            print(f"| GET of {length:,} bytes | " + " | ".join(row) + " |", flush=True)


def verifications(programs: dict[str, Path], room: Path, is_short: bool) -> None:
    """Time `verify` of few large bodies, and of many small ones."""
    for count, length in ((4, 16 * MIB), (200 if is_short else 2_000, 4_096)):
        times = {key: Times() for key in programs}
        for key, program in programs.items():
            filled(program, room / f"{key}{length}.verify", count * length + 32 * MIB,
                   [(f"r{number}", length) for number in range(count)])
        opened = {key: Program(program, room / f"{key}{length}.verify") for key, program in programs.items()}
        for _ in range(TURNS):
            for key, one in opened.items():
                one.note("verify", f"verified {count}", times[key])
        for one in opened.values():
            one.end()
        rates = [f"{count * length / MIB / statistics.median(times[key].clock):.0f} MiB/s" for key in programs]
        row = [f"{times[key].text()}, {rate}" for key, rate in zip(programs, rates)]
        print(f"| `verify` of {count:,} bodies of {length:,} bytes | " + " | ".join(row) + " | | | |", flush=True)


def opened_and_published(programs: dict[str, Path], room: Path, resources: int) -> None:
    """Time openings, and publications after one put each."""
    opening, publishing = ({key: Times() for key in programs} for _ in range(2))
    disk = spelled(resources, min(resources, 49_000))
    for turn in range(TURNS):
        for key, program in programs.items():
            file = room / f"{key}.opened"
            file.write_bytes(disk)
            one = Program(program, file)
            opening[key].clock.append(one.opened)
            opening[key].processor += used(one.process.pid)
            one.ask(f"put {name(turn).decode()} 616263 text/plain")
            one.note("publish", "published", publishing[key])
            one.end()
    for what, times in (("opening", opening), ("publishing", publishing)):
        figures = " | ".join(each.text() for each in times.values())
        print(f"| {what}, {resources:,} held | {figures} | | | |", flush=True)


def main() -> None:
    """Measure all, and print a table."""
    words = argparse.ArgumentParser(usage="/usr/bin/python3 -m bench.two [PROVED PLAIN] [--short]")
    words.add_argument("proved", nargs="?", type=Path, default=PROGRAM)
    words.add_argument("plain", nargs="?", type=Path, default=PLAIN)
    words.add_argument("--short", action="store_true", help="a few turns, to see that it runs")
    options = words.parse_args()
    programs = {"proved": options.proved.resolve(), "plain": options.plain.resolve()}
    if missing := [path for path in programs.values() if not os.access(path, os.X_OK)]:
        raise SystemExit(f"there is no program {missing[0]}: make build, make rust, and cargo build --release there")
    os.environ["PATH"] += ":/usr/sbin"
    print(f"load {os.getloadavg()[0]:.1f} on {os.cpu_count()} processors at the start")
    print("| ms on the clock (of a processor) | proved | plain | LMDB | SQLite | lighttpd |\n|---|---|---|---|---|---|")
    with tempfile.TemporaryDirectory(dir=os.environ.get("ROOM")) as folder:
        room = Path(folder)
        room.chmod(0o755)
        for resources in HELD[:1] if options.short else HELD:
            puts(programs, room, resources, 5 if options.short else PUTS)
        gets(programs, room, options.short)
        verifications(programs, room, options.short)
        opened_and_published(programs, room, HELD[0] if options.short else HELD[-1])
    print(f"load {os.getloadavg()[0]:.1f} at the end")


if __name__ == "__main__":
    main()
