"""`ropepeach mirror` mirrors sources that change, are killed and restart during its runs.

Each round has a new source on a file, under `rs_source serve`, with an item limit of 2 or 3. Random puts, deletes and
publications go to it over HTTP before, between and during runs of `ropepeach mirror` on one folder. The server is
killed during random commands, and restarted; so is the mirror. Afterwards `status` of the source shows whether a
command without a response was applied.

  - A successful run exits 0, and the folder equals the source, to the byte, after the changes up to the reported
    moment. They include all changes applied before the run and no change made after it. The last run of a round has
    all changes.
  - A killed run leaves complete files: each has bytes that its name once had.
  - The Change List has the changes in order; the test records them before a publication drops them.

The seed does not decide the timing of kills, so a round with the same seed may go another way.
"""
from __future__ import annotations

import contextlib
import hashlib
import http.client
import multiprocessing
import os
import pathlib
import random
import re
import signal
import subprocess
import sys
import time
import xml.etree.ElementTree as ElementTree
from typing import NamedTuple

import pytest

from operations.tests.mirror.mirrors import DIRECT, SECONDS, files_of, laid_out
from operations.tests.tools import COMMAND
from ropepeach.cli import command
from tests.seeds import give_seeds
from tests.served_source import free_port

SITEMAP = "{http://www.sitemaps.org/schemas/sitemap/0.9}"
RS = "{http://www.openarchives.org/rs/terms/}"
# Rounds, rounds of a deep run, and runs of a round.
ROUNDS, DEEP, RUNS = 3, 200, 5
# The most commands during one run.
COMMANDS = 30
NAMES = ["a", "a/b", "a/b/c", "a/d", "b", "b/b", "%2E", "a%2Fb", "x&y", "o'k", "e!$*+", "~u", "m@h:1", "q;r,t"]
NAMES += [f"n/{number}" for number in range(8)]
METHODS = ["PUT", "PUT", "PUT", "PUT", "DELETE", "DELETE", "POST", "POST"]
# The server sends the longest body in several writes.
LENGTHS = [0, 1, 40, 40, 512, 512, 3_000, 400_000]


class Ended(NamedTuple):
    """A successful run: the reported moment, the folder then, and the numbers of changes at its begin and end."""

    until: str
    folder: dict[str, bytes | None]
    least: int
    greatest: int


class Server:
    """A source on a file, served at one port, killed and restarted."""

    def __init__(self, program: str, file: pathlib.Path, limit: int) -> None:
        self.program, self.file, self.port = program, file, free_port()
        self.base = f"http://127.0.0.1:{self.port}"
        self.run("format", self.file, "33554432", self.base, str(limit))
        self.start()

    def run(self, *words: str | pathlib.Path, script: bytes = b"") -> str:
        """Run the program; return its output."""
        process = subprocess.run([self.program, *words], input=script, capture_output=True, timeout=SECONDS,
                                 check=False)
        assert process.returncode == 0, f"{words[0]}: {process.stderr.decode(errors='replace')}"
        return process.stdout.decode()

    def start(self) -> None:
        """Serve the source, and wait until it listens."""
        words = [self.program, "serve", str(self.file), str(self.port), "1000000"]
        self.process = subprocess.Popen(words, stdout=subprocess.PIPE)
        assert self.process.stdout
        with self.process.stdout as output:
            assert output.readline() == b"listening 127.0.0.1:%d\n" % self.port

    def kill(self) -> None:
        """Kill the server."""
        self.process.kill()
        self.process.wait()

    def is_killed(self) -> bool:
        """Return whether the server has ended."""
        return self.process.returncode is not None

    def request(self, method: str, path: str, body: bytes | None, delay: float | None) -> int | None:
        """Return the status of a response, or None without a response. Kill the server after `delay` seconds."""
        connection = http.client.HTTPConnection("127.0.0.1", self.port, timeout=SECONDS)
        with contextlib.closing(connection):
            connection.request(method, path, body)
            if delay is not None:
                time.sleep(delay)
                self.kill()
            try:
                return connection.getresponse().status
            except (OSError, http.client.HTTPException):
                return None

    def shown(self, path: str) -> ElementTree.Element:
        """Return a document of the served source."""
        connection = http.client.HTTPConnection("127.0.0.1", self.port, timeout=SECONDS)
        with contextlib.closing(connection):
            connection.request("GET", path)
            return ElementTree.fromstring(connection.getresponse().read())

    def counts(self) -> tuple[int, int]:
        """Return the numbers of changes and publications by `status`, while the source is not served."""
        output = self.run("run", self.file, script=b"status")
        changes, publications = re.findall(r"changes (\d+) publication (\d+)", output)[0]
        return int(changes), int(publications)

    def changes(self) -> list[tuple[str, str, str | None]]:
        """Return the moment, the name and the digests of every listed change."""
        head = self.shown("/changelist.xml")
        places = [str(child.text) for child in head.iterfind(f"{SITEMAP}sitemap/{SITEMAP}loc")]
        paths = [place.removeprefix(self.base) for place in places]
        urls = [url for page in [head, *map(self.shown, paths)] for url in page.iterfind(SITEMAP + "url")]
        pairs = [(facts.attrib, str(child.findtext(SITEMAP + "loc"))) for child in urls
                 for facts in child.findall(RS + "md")]
        front = self.base + "/resource/"
        return [(facts["datetime"], loc.removeprefix(front), facts.get("hash")) for facts, loc in pairs]


class Round:
    """A source, its history, and the runs of a mirror on one folder."""

    def __init__(self, program: str, disk: pathlib.Path, folder: pathlib.Path, rng: random.Random) -> None:
        self.rng, self.folder = rng, folder
        self.server = Server(program, disk / "source.disk", rng.choice([2, 3]))
        # The name and the bytes of every applied change, the number of publications, and the successful runs.
        self.changes: list[tuple[str, bytes | None]] = []
        self.ended: list[Ended] = []
        # Changes that the source listed before it could drop them.
        self.reported: list[tuple[str, str, str | None]] = []
        self.publications = self.dropped = 0
        # The seconds of the last successful run.
        self.usual = 0.3

    def resources_after(self, count: int) -> dict[str, bytes]:
        """Return the resources after this many changes."""
        return {name: body for name, body in dict(self.changes[:count]).items() if body is not None}

    def command(self) -> None:
        """Send the source a random command; sometimes kill the source."""
        method = self.rng.choice(METHODS)
        name = None if method == "POST" else self.rng.choice(NAMES)
        body = self.rng.randbytes(self.rng.choice(LENGTHS)) if method == "PUT" else None
        is_killed = self.rng.random() < 0.08
        path, delay = f"/resource/{name}" if name else "/publish", self.delay() if is_killed else None
        if method == "POST" or is_killed:
            self.note_history()
        status = self.server.request(method, path, body, delay)
        self.note(method, name, body, status)
        if is_killed:
            self.server.start()

    def note_history(self) -> None:
        """Record the listed changes, and the number of dropped ones."""
        listed = self.server.changes()
        self.reported += [change for change in listed if not self.reported or change[0] > self.reported[-1][0]]
        self.dropped = len(self.reported) - len(listed)

    def delay(self) -> float:
        """Draw the seconds between a command and the kill of the server."""
        return self.rng.uniform(0, self.rng.choice([0, 0.001, 0.01]))

    def note(self, method: str, name: str | None, body: bytes | None, status: int | None) -> None:
        """Record the change or the publication of a command, if it was applied."""
        is_held = name in self.resources_after(len(self.changes))
        made = (0, 1) if name is None else (int(method == "PUT" or is_held), 0)
        wanted = {"POST": 200, "PUT": 204 if is_held else 201, "DELETE": 204 if is_held else 404}[method]
        assert status in (wanted, None if self.server.is_killed() else wanted), f"{method} {name}: not {wanted}"
        if self.server.is_killed() and not self.stands(made, status):
            return
        self.publications += made[1]
        self.changes += [(str(name), body)] * made[0]

    def stands(self, made: tuple[int, int], status: int | None) -> bool:
        """Return whether a command was applied before a kill, by the source's counts; a command with a response was."""
        before, found = (len(self.changes) - self.dropped, self.publications), self.server.counts()
        after = (before[0] + made[0], before[1] + made[1])
        # An applied publication may have dropped changes.
        is_after = found[1] == after[1] and (found[0] <= after[0] if made[1] else found[0] == after[0])
        assert is_after or not status and found == before, f"{before}, and after a command with {status}: {found}"
        return is_after

    def mirror(self) -> None:
        """Run the mirror in its own process, send commands meanwhile, and sometimes kill it."""
        least, started, output = len(self.changes), time.monotonic(), self.folder.with_name("told")
        ways: list[list[str]] = [[], [], [], ["--baseline"]]
        words = [self.server.base, str(self.folder), "--yes", *self.rng.choice(ways)]
        lasting = self.rng.uniform(0, self.usual) if self.rng.random() < 0.5 else SECONDS
        process = multiprocessing.get_context("fork").Process(target=mirror_here, args=(words, output))
        process.start()
        for _ in range(self.rng.randrange(COMMANDS)):
            if process.is_alive() and time.monotonic() - started < lasting:
                self.command()
                time.sleep(self.rng.uniform(0, 0.002))
        process.join(max(0, started + lasting - time.monotonic()))
        process.kill()
        process.join()
        if process.exitcode == -signal.SIGKILL and lasting < SECONDS:
            self.check_pieces()
        else:
            self.usual = time.monotonic() - started
            self.end(process.exitcode, output.read_text(), least)

    def mirror_at_last(self) -> None:
        """Run the mirror as a command, without commands to the source."""
        words, environment = [*COMMAND, "mirror", self.server.base, str(self.folder)], os.environ | DIRECT
        process = subprocess.run(words, env=environment, capture_output=True, text=True, timeout=SECONDS, check=False)
        self.end(process.returncode, process.stdout + process.stderr, len(self.changes))

    def end(self, status: int | None, message: str, least: int) -> None:
        """Record the message and the folder of a run that was not killed."""
        message = "".join(line for line in message.splitlines(True) if "; waiting up to " not in line)
        assert status == 0 and message.count("\n") == 1, f"the mirror ended with status {status}: {message}"
        self.ended.append(Ended(message.split()[-1], files_of(self.folder), least, len(self.changes)))

    def check_pieces(self) -> None:
        """Check that a killed run left complete files."""
        known = set(self.changes)
        for path, body in files_of(self.folder).items():
            is_known = body is None or (path.removesuffix("#"), body) in known
            assert path.startswith("#incoming") or is_known, f"a killed run left a file that no put made: {path}"

    def fault(self, ended: Ended, moments: list[str]) -> str:
        """Return the fault of the folder of an ended run, or ""."""
        count = sum(moment <= ended.until for moment in moments)
        if not ended.least <= count <= ended.greatest:
            return f"it is of {count} changes, not of {ended.least} to {ended.greatest}"
        wanted, found = laid_out(self.resources_after(count)), ended.folder
        differing = sorted(name for name in wanted.keys() | found.keys() if wanted.get(name, 0) != found.get(name, 0))
        return f"after {count} changes these differ: {differing}" if differing else ""

    def judge(self) -> None:
        """Compare every folder with the history that the source lists at the end."""
        self.note_history()
        made = [(name, digests(body)) for name, body in self.changes]
        assert [change[1:] for change in self.reported] == made, "changes of the Change List"
        moments = [change[0] for change in self.reported]
        for number, run in enumerate(self.ended, 1):
            why = self.fault(run, moments)
            assert not why, f"run {number} of {len(self.ended)} that ended, as of {run.until}: {why}"
        self.see_wrong(self.ended[-1], moments)

    def see_wrong(self, last: Ended, moments: list[str]) -> None:
        """Check that the judge rejects wrong folders, derived from the last folder."""
        made_up = [last._replace(folder=last.folder | {"zz": b""})]
        files = [path for path, body in last.folder.items() if body is not None]
        made_up += [last._replace(folder=last.folder | {path: b"made up"}) for path in files]
        made_up += [last._replace(until=moment) for moment in moments[-2:-1]]
        assert all(self.fault(run, moments) for run in made_up), "a wrong folder passes"

    def go(self) -> None:
        """Run the whole round."""
        try:
            for _ in range(self.rng.randrange(24)):
                self.command()
            for _ in range(RUNS):
                self.mirror()
                for _ in range(self.rng.randrange(6)):
                    self.command()
            self.mirror_at_last()
            self.judge()
        finally:
            self.server.kill()


def digests(body: bytes | None) -> str | None:
    """Return the digests of bytes as lists have them; a deleted name has no digest."""
    if body is None:
        return None
    return f"md5:{hashlib.md5(body).hexdigest()} sha-256:{hashlib.sha256(body).hexdigest()}"


def mirror_here(words: list[str], output: pathlib.Path) -> None:
    """Run the mirror in this process, and exit; write its lines to a file."""
    os.environ.update(DIRECT)
    with open(output, "w", encoding="utf-8") as file:
        with contextlib.redirect_stdout(file), contextlib.redirect_stderr(file):
            status = command.main(["mirror", *words])
    sys.exit(status)


def pytest_generate_tests(metafunc: pytest.Metafunc) -> None:
    """Draw rounds."""
    give_seeds(metafunc, "ROUNDS", ROUNDS, DEEP)


@pytest.mark.plain
def test_the_folder_is_as_the_source_was_at_the_moment_of_each_run(program: str, tmp_path: pathlib.Path,
                                                                  room: pathlib.Path, seed: str) -> None:
    Round(program, tmp_path, room / "mirror", random.Random(seed)).go()
