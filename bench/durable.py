"""Time durable puts of 4 KiB on a file with 100 resources held: the program, LMDB and SQLite, in one run on one disk.

Every contender replaces the 100 resources in turn, and gets the next put only once the last one is on the disk. It
keeps the body, its MD5 and SHA-256, its type and its moment, and a log of changes. The program reads its puts from a
script; the time of a script without puts is subtracted. Needs Debian's python3-lmdb; run it by `/usr/bin/python3 -m
bench.durable`.
"""
import hashlib
import os
import sqlite3
import subprocess
import sys
import tempfile
import time
from collections.abc import Callable

from tests.program import PROGRAM

HELD, PUTS = 100, 500


def body(i: int) -> bytes:
    """Return a body of 4 KiB."""
    return hashlib.shake_256(i.to_bytes(4, "big")).digest(4096)


def script(first: int, count: int) -> str:
    """Return the lines that put `count` bodies, from the number `first` on."""
    return "".join(f"put r{i % HELD} {body(i).hex()} text/plain\n" for i in range(first, first + count))


def run(file: str, text: str) -> float:
    """Return the seconds of a script in which every put must succeed."""
    began = time.monotonic()
    finished = subprocess.run([str(PROGRAM), "run", file], input=text, capture_output=True, text=True, check=True)
    seconds = time.monotonic() - began
    answers = finished.stdout.splitlines()
    assert all(line.startswith(("created ", "updated ")) for line in answers), finished.stdout[:200]
    return seconds


def ours(room: str) -> float:
    """Return the seconds of the program's puts."""
    file = f"{room}/source"
    subprocess.run([str(PROGRAM), "format", file, str(64 << 20), "http://a", "1000"], check=True, capture_output=True)
    run(file, script(0, HELD))
    return run(file, script(HELD, PUTS)) - run(file, "")


def timed(put: Callable[[int], None]) -> float:
    """Return the seconds of puts by a function, over resources that it has put before."""
    for i in range(HELD):
        put(i)
    began = time.monotonic()
    for i in range(HELD, HELD + PUTS):
        put(i)
    return time.monotonic() - began


def digests(data: bytes) -> tuple[bytes, bytes]:
    """Return both digests of a body."""
    return hashlib.md5(data).digest(), hashlib.sha256(data).digest()


def in_lmdb(room: str) -> float:
    """Return the seconds of LMDB's puts."""
    import lmdb

    env = lmdb.open(f"{room}/lmdb", map_size=64 << 20, max_dbs=2)
    resources, changes = env.open_db(b"held"), env.open_db(b"changes", integerkey=False)

    def put(i: int) -> None:
        data = body(i)
        md5, sha256 = digests(data)
        with env.begin(write=True) as txn:
            name = b"r%d" % (i % HELD)
            record = b"text/plain" + md5 + sha256 + i.to_bytes(8, "big")
            txn.put(name, record + data, db=resources)
            txn.put(i.to_bytes(8, "big"), name + record, db=changes)

    return timed(put)


def in_sqlite(room: str, journal: str, synchronous: str) -> float:
    """Return the seconds of SQLite's puts, with these settings."""
    base = sqlite3.connect(f"{room}/{journal}.db", isolation_level=None)
    base.execute(f"pragma journal_mode={journal}")
    base.execute(f"pragma synchronous={synchronous}")
    base.execute(
        "create table held(name text primary key, type text, md5 blob, sha256 blob, moment integer, body blob)")
    base.execute("create table changes(moment integer primary key, name text, type text, md5 blob, sha256 blob)")

    def put(i: int) -> None:
        data = body(i)
        md5, sha256 = digests(data)
        name = f"r{i % HELD}"
        base.execute("begin")
        base.execute("insert or replace into held values(?,?,?,?,?,?)", (name, "text/plain", md5, sha256, i, data))
        base.execute("insert into changes values(?,?,?,?,?)", (i, name, "text/plain", md5, sha256))
        base.execute("commit")

    return timed(put)


def main() -> int:
    """Print all figures."""
    with tempfile.TemporaryDirectory(dir=os.environ.get("ROOM")) as room:
        own = ours(room)
        rows = [("the program", own)]
        rows.append(("LMDB", in_lmdb(room)))
        rows.append(("SQLite, WAL, FULL", in_sqlite(room, "wal", "full")))
        rows.append(("SQLite, DELETE, EXTRA", in_sqlite(room, "delete", "extra")))
    for name, seconds in rows:
        print(f"{name}: {1000 * seconds / PUTS:.2f} ms a put, {PUTS / seconds:.0f} a second; "
              f"the program takes {own / seconds:.2f} times as long")
    return 0


if __name__ == "__main__":
    sys.exit(main())
