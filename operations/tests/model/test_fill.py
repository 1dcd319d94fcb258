"""Fill a source from random folders by `ropepeach fill`, and compare the source with a model after each run.

A source refuses at random, loses responses to applied changes, or goes down after some request; others put to it during
a run; runs are killed (taking.py). The folder changes between runs, and has files that cannot be resources.
fill_model.py has the resources that the source must have, and the counts that the run may report.
"""
from __future__ import annotations

import os
import pathlib
import random

from operations.tests.harness.server import Request
from operations.tests.model.fill_model import Expected, Wanted, fault_of
from operations.tests.model.histories import LENGTHS, History
from operations.tests.model.made_up_source import MadeUpSource
from operations.tests.model.runs import Ended, Runner, check_end
from operations.tests.model.taking import Taking

# The number of histories, and runs per history.
HISTORIES, RUNS = 40, 5
PLAIN = b"ABCDEFGHIJKLMNOPQRSTUVWXYZabcdefghijklmnopqrstuvwxyz0123456789-._~!$&'()*+,;=:@/"
NAMES = ["a.txt", "b.html", "c", "d e", "\u00fc", "n/1", "n/2.txt", "n/deep/3", "p%41", "q?x",
         "m" * 240, *(f"many/{number:02}" for number in range(20))]
TYPES = {".txt": "text/plain", ".html": "text/html", "": "application/octet-stream"}
# Files that cannot be resources, by name.
UNFIT = ["l" * 241, "link", "pipe", "large", "linked"]
OPTIONS = [["--yes"]] * 6 + [[], ["--max-delete", "2"], ["--no-publish", "--yes"]]
WEATHER = ["calm", "calm", "refusing", "refusing", "losing", "unread", "shared", "killing", "gone", "full"]


def name_of(path: str) -> str:
    """Return the name of a path."""
    return "".join(chr(byte) if byte in PLAIN else f"%{byte:02X}" for byte in path.encode())


class Trial:
    """A folder, a source, and the runs."""

    def __init__(self, runner: Runner, room: pathlib.Path, seed: str) -> None:
        self.runner, self.room, self.rng = runner, room, random.Random(seed.replace("-", " "))
        self.folder, self.bodies, self.number = room / "folder", dict[str, bytes](), 0
        self.folder.mkdir()
        self.unfit, self.foreign = set[str](), set[str]()
        self.are_typed = self.rng.random() < 0.3
        self.give_type("application/x-n")

    def give_type(self, kind: str) -> None:
        """Set the type of the folder's files."""
        self.kind = kind
        (self.room / "types").write_text(f"n/* {kind}\n*.html text/x-page\n")

    def go(self) -> None:
        """Do all runs of a history; the last two, in calm weather, must succeed."""
        with MadeUpSource(lambda request: self.taking.answer(request)) as self.source:
            self.history = History(self.source.base, self.rng, self.rng.choice([3, 10, 1_000]))
            self.taking = Taking(self.history, self.rng)
            self.source.stays = self.rng.random() < 0.3
            for _ in range(self.rng.randrange(8)):
                self.history.advance([*map(name_of, NAMES), "link/x", "linked/y", "other"])
            if self.rng.random() < 0.5:
                # (these stay once `link` and `linked` are links, and are deleted before)
                self.history.put("link/x", b"x")
                self.history.put("linked/y", b"y")
            for weather in [*self.rng.choices(WEATHER, k=RUNS), "calm", "calm"]:
                self.change_folder()
                self.run(weather, self.rng.choice(OPTIONS))
            self.run("calm", ["--yes"])

    def change_folder(self) -> None:
        """Write, change, retype and remove files and objects that cannot be resources. All times of files differ."""
        for name in self.rng.sample(NAMES, self.rng.choice([0, 1, 3, 3, 30])):
            path = self.folder / name
            if name in self.bodies and self.rng.random() < 0.4:
                path.unlink()
                del self.bodies[name]
            else:
                body = self.rng.randbytes(self.rng.choice(LENGTHS))
                path.parent.mkdir(parents=True, exist_ok=True)
                path.write_bytes(body)
                self.bodies[name], self.number = body, self.number + 1
                os.utime(path, (1_700_000_000 + self.number, 1_700_000_000 + self.number))
        if self.rng.random() < 0.2:
            self.make_unfit(self.rng.choice(UNFIT))
        if self.rng.random() < 0.2:
            self.give_type(self.rng.choice(["application/x-n", "application/x-m"]))

    def make_unfit(self, name: str) -> None:
        """Make an object that fill leaves out."""
        path = self.folder / name
        if name in self.unfit:
            return
        if name == "pipe":
            os.mkfifo(path)
        elif name.startswith("link"):
            path.symlink_to(self.folder / "n" if name == "linked" else "/etc/passwd")
        else:
            path.touch()
            os.truncate(path, (16 << 20) + 1 if name == "large" else 3)
            os.utime(path, (1_700_000_000, 1_700_000_000))
        self.unfit.add(name)

    def wanted(self, options: list[str]) -> Wanted:
        """Return the current files of the folder."""
        files, typed = {}, set[str]()
        for path, body in self.bodies.items():
            name = name_of(path)
            kind = TYPES[pathlib.PurePath(path).suffix]
            if self.are_typed and (path.startswith("n/") or path.endswith(".html")):
                kind = self.kind if path.startswith("n/") else "text/x-page"
                typed.add(name)
            files[name] = (body, kind)
        return Wanted(files, typed, self.unfit, options)

    def others_put(self, request: Request) -> None:
        """Put or delete a name of the folder or another one, as others do."""
        names = sorted(self.history.state.held)
        name = self.rng.choice([*map(name_of, NAMES), "theirs"])
        if names and self.rng.random() < 0.4:
            name = self.rng.choice(names)
            self.history.do(f"delete {name}")
        else:
            self.history.put(name, b"theirs" + self.rng.randbytes(4), "a/theirs")
        self.foreign.add(name)

    def run(self, weather: str, options: list[str]) -> None:
        """Run fill, and compare the source with the model."""
        if self.rng.random() < 0.2:
            self.dry_run(options)
        self.foreign.clear()
        self.taking.begin(weather, self.runner.kill, self.others_put)
        expected = Expected(self.wanted(options), self.taking)
        ended = self.run_command(options)
        fault = fault_of(expected, ended, self.foreign)
        assert not fault, (f"{weather}, {' '.join(options)}: {fault}; "
                           f"it said {ended.output!r} {ended.complaints[-300:]!r}")

    def run_command(self, options: list[str]) -> Ended:
        """Run the command."""
        types = ["--types", self.room / "types"] if self.are_typed else []
        words = ["fill", self.folder, self.source.base, "--patience", "0.3", *types, *options]
        ended = self.runner.run(self.room, *words)
        if self.source.fault:
            raise self.source.fault
        check_end(ended)
        return ended

    def dry_run(self, options: list[str]) -> None:
        """Check that a dry run makes no change, and prints the changes of a run."""
        self.taking.begin("calm", lambda: None, lambda request: None)
        expected = Expected(self.wanted(options), self.taking)
        ended = self.run_command([*options, "--dry-run"])
        assert not self.taking.sent and not self.taking.publications, "a dry run changed the source"
        lines = [line for line in ended.output.splitlines() if line.startswith(("put ", "delete "))]
        deletions, puts = sorted(expected.gone), sorted(expected.differing)
        lines_wanted = [f"delete {name}" for name in deletions] + [f"put {name}" for name in puts]
        assert lines == lines_wanted, "lines of a dry run"
        assert ended.status == (1 if expected.is_refused() else 3 if self.unfit else 0), "status of a dry run"


def test_the_source_holds_what_a_model_says_after_each_run(runner: Runner, room: pathlib.Path, seed: str) -> None:
    Trial(runner, room, seed).go()
