"""Measure the processor time of `ropepeach` against rsync, wget and a bare Python: medians of five runs, in one run of
this module.

usage: python3 -m bench.month [--program PROGRAM] [--resources 10000] [--runs 5]

A source on a file in memory holds N resources of 4 KiB. `mirror` and `wget` fetch all of them over HTTP, one connection
each. A loop of libcurl makes the same requests, computes one digest and writes one file for each: the least that a
mirror in Python can take. `fill`, `mirror` and `rsync` run again after no change. The folders of `mirror` and `wget`
lie in FOLDER (--to), on one file system. The module needs rsync and wget. Bytecode is kept, as a package keeps it.
"""
from __future__ import annotations

import argparse
import os
import random
import statistics
import subprocess
import sys
import tempfile
import time
from collections.abc import Callable
from dataclasses import dataclass, field
from pathlib import Path

from tests.program import IN_MEMORY, PROGRAM, TOOLS
from tests.served_source import free_port

BODY, IN_FOLDER, SEED = 4_096, 100, 75
PYTHON = "/usr/bin/python3"
# The least work of a mirror in Python: a request, a digest and a file for each address on standard input.
LEAST = """
import hashlib, io, os, pycurl, sys
folder, curl = sys.argv[1], pycurl.Curl()
os.makedirs(folder)
for number, address in enumerate(sys.stdin.read().split()):
    body = io.BytesIO()
    curl.setopt(curl.URL, address)
    curl.setopt(curl.WRITEDATA, body)
    curl.perform()
    hashlib.sha256(body.getvalue()).digest()
    with open(f"{folder}/{number}", "wb") as file:
        file.write(body.getvalue())
os.sync()
"""
Words = list[str]


@dataclass
class Taken:
    """The processor seconds and the clock seconds of the runs of a command."""

    name: str
    used: list[float] = field(default_factory=list)
    clock: list[float] = field(default_factory=list)

    def median(self) -> float:
        """Return the median of the processor seconds."""
        return statistics.median(self.used)

    def line(self) -> str:
        """Return a line of the table."""
        clock = statistics.median(self.clock)
        return f"{self.name:34} {self.median():8.3f} s of a processor, {clock:8.2f} s on the clock"


class Bench:
    """A source with resources, and the measured commands."""

    def __init__(self, program: Path, room: Path, to: Path, count: int) -> None:
        self.program, self.room, self.to, self.port = program, room, to, free_port()
        self.names = [f"d{number // IN_FOLDER:03}/{number % IN_FOLDER:03}.bin" for number in range(count)]
        self.url = f"http://127.0.0.1:{self.port}"
        folders = {"PYTHONPYCACHEPREFIX": str(room / "bytecode"), "XDG_STATE_HOME": str(room / "state")}
        others = {name: value for name, value in os.environ.items() if name != "PYTHONDONTWRITEBYTECODE"}
        self.environment = others | folders
        self.taken: dict[str, Taken] = {}

    def make(self) -> subprocess.Popen[bytes]:
        """Make the folder and a source with the same content, and serve it."""
        rng, lines = random.Random(SEED), []
        for name in self.names:
            body = rng.randbytes(BODY)
            file = self.room / "folder" / name
            file.parent.mkdir(parents=True, exist_ok=True)
            file.write_bytes(body)
            lines.append(f"put {name} {body.hex()} application/octet-stream")
        disk = str(self.room / "a.disk")
        size = str((len(self.names) * 3 * BODY) + (64 << 20))
        subprocess.run([self.program, "format", disk, size, self.url, "1000"], check=True, stdout=subprocess.DEVNULL)
        script = "\n".join([f"at {time.time_ns() // 1_000_000}", *lines, "publish"]) + "\n"
        subprocess.run([self.program, "run", disk], input=script, text=True, check=True, stdout=subprocess.DEVNULL)
        addresses = "".join(f"{self.url}/resource/{name}\n" for name in self.names)
        (self.room / "addresses").write_text(addresses)
        serving = subprocess.Popen([self.program, "serve", disk, str(self.port), "1000000000"], stdout=subprocess.PIPE)
        assert serving.stdout is not None
        serving.stdout.readline()
        return serving

    def measure(self, name: str, words: Words, input_file: str = os.devnull, statuses: tuple[int, ...] = (0,)) -> None:
        """Run a command once, and record its times."""
        started = time.perf_counter()
        with open(input_file, "rb") as text:
            run = subprocess.Popen(words, stdin=text, stdout=subprocess.DEVNULL, stderr=subprocess.DEVNULL,
                                   env=self.environment)
            _, status, used = os.wait4(run.pid, 0)
        run.returncode = os.waitstatus_to_exitcode(status)
        if run.returncode not in statuses:
            raise SystemExit(f"{name}: status {run.returncode}")
        taken = self.taken.setdefault(name, Taken(name))
        taken.used.append(used.ru_utime + used.ru_stime)
        taken.clock.append(time.perf_counter() - started)

    def command(self, *words: str) -> Words:
        """Return the words of a run of `ropepeach`."""
        return [PYTHON, str(TOOLS / "ropepeach-command"), *words]

    def start(self) -> None:
        """Run commands that do next to nothing."""
        self.measure("bare python3", [PYTHON, "-c", "pass"])
        self.measure("ropepeach --help", self.command("--help"))
        self.measure("ropepeach why", self.command("why", str(self.room / "folder")), statuses=(1,))
        self.measure("ropepeach health", self.command("health", self.url), statuses=(0, 1))

    def whole(self, number: int) -> None:
        """Fetch all resources into new folders."""
        to = {name: str(self.to / f"{name}-{number}") for name in ("mirror", "wget", "least")}
        self.measure("mirror", self.command("mirror", self.url, to["mirror"]))
        addresses = str(self.room / "addresses")
        self.measure("wget", ["wget", "-q", "-x", "-nH", "-P", to["wget"], "-i", addresses])
        self.measure("libcurl alone", [PYTHON, "-c", LEAST, to["least"]], addresses)

    def again(self, number: int) -> None:
        """Repeat all commands without a change."""
        folder = str(self.room / "folder")
        self.measure("mirror, nothing new", self.command("mirror", self.url, str(self.to / f"mirror-{number}")))
        self.measure("fill, nothing new", self.command("fill", folder, self.url))
        self.measure("rsync -a, nothing new", ["rsync", "-a", f"{folder}/", str(self.room / "copy")])

    def settle(self) -> None:
        """Run once everything that the measured runs find in place: a copy, the memory of `fill`, and bytecode."""
        time.sleep(2.5)
        for work in (self.start, lambda: self.whole(0), lambda: self.again(0)):
            work()
        self.taken.clear()


# Pairs of commands, and the largest accepted ratio of their processor times.
RATIOS = [("mirror", "wget", 1.0), ("mirror", "libcurl alone", 0.0),
          ("mirror, nothing new", "rsync -a, nothing new", 3.0),
          ("fill, nothing new", "rsync -a, nothing new", 3.0)]
# The largest accepted processor time of a start, in seconds.
STARTS = [("ropepeach --help", 0.06), ("ropepeach why", 0.15), ("ropepeach health", 0.10)]


def show(taken: dict[str, Taken]) -> None:
    """Print the table, then the ratios and the starts with their limits."""
    for each in taken.values():
        print(each.line())
    for name, other, limit in RATIOS:
        ratio = taken[name].median() / taken[other].median()
        print(f"{name} : {other}: {ratio:.2f}" + (f"; wanted: {limit:.1f} at most" if limit else ""))
    for name, limit in STARTS:
        print(f"{name}: {taken[name].median():.3f} s; wanted: {limit:.2f} s at most")


def main() -> int:
    """Measure all, and print the medians."""
    words = argparse.ArgumentParser(prog="bench.month")
    words.add_argument("--program", type=Path, default=PROGRAM)
    words.add_argument("--resources", type=int, default=10_000)
    words.add_argument("--runs", type=int, default=5)
    words.add_argument("--to", metavar="FOLDER", default=IN_MEMORY, help="where mirrors go (in memory)")
    arguments = words.parse_args()
    with (tempfile.TemporaryDirectory(prefix="bench-", dir=IN_MEMORY) as room,
          tempfile.TemporaryDirectory(prefix="bench-", dir=arguments.to) as to):
        bench = Bench(arguments.program, Path(room), Path(to), arguments.resources)
        serving = bench.make()
        try:
            bench.settle()
            works: list[Callable[[int], None]] = [lambda number: bench.start(), bench.whole, bench.again]
            for number in range(1, arguments.runs + 1):
                for work in works:
                    work(number)
        finally:
            serving.kill()
            serving.wait()
    show(bench.taken)
    print(f"load: {os.getloadavg()[0]:.0f}")
    return 0


if __name__ == "__main__":
    sys.exit(main())
