"""Grow random collections by `ropepeach grow`, fill them by `ropepeach fill`, and compare the sources with a model.

A source refuses at random, loses responses, or goes down after some request; others put to a source that a name leaves;
runs are killed (taking.py). After every response some source holds every resource with its newest bytes.
"""
from __future__ import annotations

import collections
import contextlib
import functools
import os
import pathlib
import random
import re

from operations.tests.harness.server import Request
from operations.tests.model import fill_model
from operations.tests.model.grow_model import Expected, fault_of, home_of
from operations.tests.model.histories import History
from operations.tests.model.made_up_source import Answer, MadeUpSource
from operations.tests.model.runs import Ended, Runner, check_end
from operations.tests.model.taking import Taking, word
from tests.reading import crash_model

# The number of histories, and runs per history.
HISTORIES, RUNS = 20, 4
NAMES = ["a", "b/c", "d", "e", "x&y", "z%20z"] + [f"n/{number:02}" for number in range(18)]
WEATHER = ["calm", "calm", "refusing", "losing", "unread", "shared", "shared", "killing", "gone", "full"]
# Options of a run of grow.
OPTIONS: list[list[str]] = [[], [], [], ["--no-publish"]]


class Whole:
    """A collection: its served sources, its description and its file."""

    def __init__(self, room: pathlib.Path, rng: random.Random, count: int,
                 stack: contextlib.ExitStack) -> None:
        self.rng, self.file = rng, room / "collection.toml"
        self.front = stack.enter_context(MadeUpSource(self.described))
        self.names: list[str] = []
        self.sources: dict[str, Taking] = {}
        self.servers: dict[str, MadeUpSource] = {}
        self.newest: dict[str, bytes | None] = {}
        self.lost = ""
        for number in range(1, count + 1):
            name = f"s{number}"
            taking = Taking(History(f"{self.front.base}/{name}", rng, 1_000), rng)
            self.servers[name] = stack.enter_context(MadeUpSource(functools.partial(self.answered, name)))
            self.sources[name] = taking
        self.write(list(self.sources))

    def write(self, names: list[str]) -> None:
        """Write the file of the collection and its description, with these sources."""
        self.names = names
        lines = [f'address = "{self.front.base}"']
        for name in names:
            lines += [f"[source.{name}]", f'address = "{self.servers[name].base}"',
                      f'base = "{self.front.base}/{name}"', f'file = "/nowhere/{name}.disk"']
        self.file.write_text("".join(f"{line}\n" for line in lines))

    def described(self, request: Request) -> Answer:
        """Return the Source Description of the collection."""
        if request.path != "/.well-known/resourcesync":
            return word(404, "NoSuchDocument")
        links = [f"<url><loc>{self.front.base}/{name}/capabilitylist.xml</loc>"
                 '<rs:md capability="capabilitylist"/></url>' for name in self.names]
        return Answer(200, crash_model.document("urlset", [], 'capability="description"', links).encode())

    def answered(self, name: str, request: Request) -> Answer | None:
        """Return the response of a source. Record a resource that no source then holds with its newest bytes."""
        answer = self.sources[name].answer(request)
        holdings = [self.resources_of(member) for member in self.sources]
        for path, body in self.newest.items():
            if body not in [those.get(path) for those in holdings] and not self.lost:
                request_text = f"{request.method} {request.path} of {name}"
                self.lost = f"{path} is nowhere with its newest bytes, behind {request_text}"
        return answer

    def resources_of(self, name: str) -> dict[str, bytes]:
        """Return the resources of a source."""
        return {path: body for path, (body, _) in self.sources[name].history.state.held.items()}

    def note(self) -> None:
        """Record the newest bytes of every name before a run of grow. If two sources differ, neither is newest."""
        self.lost, found = "", collections.defaultdict[str, set[bytes]](set)
        for member in self.sources:
            for name, body in self.resources_of(member).items():
                found[name].add(body)
        self.newest = {name: next(iter(bodies)) for name, bodies in found.items() if len(bodies) == 1}


class Trial:
    """A collection, and the runs on it."""

    def __init__(self, runner: Runner, room: pathlib.Path, seed: str) -> None:
        self.runner, self.room, self.rng = runner, room, random.Random(seed.replace("-", " "))
        self.foreign = set[str]()

    def go(self) -> None:
        """Grow a collection several times, then fill it, in random weather; the last runs are in calm weather."""
        with contextlib.ExitStack() as stack:
            self.whole = Whole(self.room, self.rng, self.rng.choice([2, 3, 4]), stack)
            self.settle(list(self.whole.sources)[:-1])
            for weather in [*self.rng.choices(WEATHER, k=RUNS), "calm", "calm"]:
                self.grow(weather, self.rng.choice(OPTIONS))
                self.resolve()
                self.unsettle()
                self.look()
            self.resolve()
            self.grow("calm", [])
            for weather in [*self.rng.choices(WEATHER, k=2), "calm"]:
                self.fill(weather)

    def settle(self, members: list[str]) -> None:
        """Distribute names over some sources, most of them correctly."""
        for name in NAMES:
            if self.rng.random() < 0.8:
                home = home_of(name, members if self.rng.random() < 0.9 else list(self.whole.sources))
                history = self.whole.sources[home].history
                body = self.rng.randbytes(self.rng.choice([0, 9, 9, 70_000]))
                history.put(name, body, self.rng.choice(["text/plain", "a/b"]))
        for taking in self.whole.sources.values():
            if self.rng.random() < 0.7:
                taking.history.do("publish")

    def resolve(self) -> None:
        """Delete all but one of the differing bodies, as others do."""
        for name, members in self.holders().items():
            if len({self.whole.sources[member].history.state.held[name] for member in members}) > 1:
                for member in members[1:]:
                    self.whole.sources[member].history.do(f"delete {name}")

    def holders(self) -> dict[str, list[str]]:
        """Return the sources that hold a name, for every name."""
        found = collections.defaultdict[str, list[str]](list)
        for member in self.whole.sources:
            for name in self.whole.resources_of(member):
                found[name].append(member)
        return found

    def look(self) -> None:
        """Check that `ropepeach collection` counts every source's resources, reports whether it is published, and fails
        if a name is in the wrong source.
        """
        self.begin("calm")
        ended, sources = self.run_command("collection", self.whole.file), self.whole.sources
        members = list(sources)
        found = re.findall(r"(?m)^(s\d): (\d+) held at \S+, (all published|with changes)", ended.output)
        words = {True: "all published", False: "with changes"}
        wanted = [(name, str(len(taking.history.state.held)), words[taking.is_published()])
                  for name, taking in sources.items()]
        astray = sum(home_of(name, members) != member
                     for name, those in self.holders().items() for member in those)
        is_told = not astray or f"{astray} names are where they do not live" in ended.complaints
        assert found == wanted, f"{ended}"
        assert ended.status == bool(astray) and is_told, f"{astray} are astray; it ended with {ended}"

    def unsettle(self) -> None:
        """Move some names to wrong sources, as after a source is added; leave some in both, as after a stopped run."""
        members = list(self.whole.sources)
        for name in self.rng.sample(NAMES, self.rng.choice([0, 2, 6, 20])):
            home, other = home_of(name, members), self.rng.choice(members)
            body, entry = self.whole.sources[home].history.state.held.get(name, (self.rng.randbytes(9), None))
            if other != home:
                self.whole.sources[other].history.put(name, body, entry.kind if entry else "text/plain")
                if entry and self.rng.random() < 0.7:
                    self.whole.sources[home].history.do(f"delete {name}")

    def others_put(self, member: str, request: Request) -> None:
        """Put newer bytes to the source that a name leaves, as others do. They must not be lost. The put comes before a
        read: no run can detect a put between its last read and a deletion. Mostly the read is of a Change List, since a
        changed body ends a run.
        """
        if request.method != "GET" or (request.path != "/changelist.xml" and self.rng.random() < 0.95):
            return
        names_held = sorted(self.whole.resources_of(member))
        members, newest = list(self.whole.sources), self.whole.newest
        going = [name for name in names_held if home_of(name, members) != member and name in newest]
        if going:
            name, body = self.rng.choice(going), b"theirs" + self.rng.randbytes(4)
            self.whole.sources[member].history.put(name, body, "a/theirs")
            self.whole.newest[name] = body
            self.foreign.add(name)

    def begin(self, weather: str) -> None:
        """Prepare a run: one source has this weather; the others have it too, or calm weather."""
        ill = self.rng.choice(list(self.whole.sources))
        for name, taking in self.whole.sources.items():
            own = weather if name == ill or weather == "shared" or self.rng.random() < 0.3 else "calm"
            taking.begin(own, self.runner.kill, functools.partial(self.others_put, name))

    def run_command(self, *words: object) -> Ended:
        """Run the command, and check that the sources served correctly."""
        ended = self.runner.run(self.room, *words, "--patience", "0.3")
        for server in self.whole.servers.values():
            if server.fault:
                raise server.fault
        check_end(ended)
        return ended

    def grow(self, weather: str, options: list[str]) -> None:
        """Run grow, sometimes with a description that lacks a source."""
        self.whole.note()
        self.foreign.clear()
        is_named = self.rng.random() < 0.9 or weather == "calm"
        names = list(self.whole.sources)
        self.whole.names = names if is_named else names[:-1]
        is_dry = self.rng.random() < 0.15
        expected = Expected(self.whole.sources, is_named)
        self.begin(weather)
        ended = self.run_command("grow", self.whole.file, *options, *["--dry-run"] * is_dry)
        fault = self.whole.lost or fault_of(expected, ended, options, self.foreign, is_dry)
        assert not fault, f"grow, {weather}, {options}{' dry' * is_dry}: {fault}; it ended with {ended}"

    def fill(self, weather: str) -> None:
        """Run fill on the collection, from a new folder with many of the resources."""
        self.whole.newest, self.whole.lost = {}, ""
        folder, files = self.room / f"folder{self.rng.random()}", dict[str, bytes]()
        resources = {name: body for member in self.whole.sources
                     for name, body in self.whole.resources_of(member).items()}
        for name in NAMES:
            if "%" not in name and self.rng.random() < 0.7:
                is_same = name in resources and self.rng.random() < 0.6
                files[name] = resources[name] if is_same else self.rng.randbytes(9)
                path = folder / name
                path.parent.mkdir(parents=True, exist_ok=True)
                path.write_bytes(files[name])
                os.utime(path, (1_700_000_000, 1_700_000_000))
        members = list(self.whole.sources)
        self.begin("refusing" if weather == "shared" else weather)
        expected = {member: fill_model.Expected(self.wanted(files, member), self.whole.sources[member])
                    for member in members}
        is_astray = any(home_of(name, members) != member
                        for member in members for name in self.whole.resources_of(member))
        ended = self.run_command("fill", folder, self.whole.file, "--yes")
        fault = self.fault_of_fill(expected, ended, is_astray)
        assert not fault, f"fill, {weather}: {fault}; it said {ended.output!r} {ended.complaints[-500:]!r}"

    def wanted(self, files: dict[str, bytes], member: str) -> fill_model.Wanted:
        """Return the files of a source's names."""
        kind, members = "application/octet-stream", list(self.whole.sources)
        own = {name: (body, kind) for name, body in files.items() if home_of(name, members) == member}
        return fill_model.Wanted(own, set(), set(), ["--yes"])

    def fault_of_fill(self, expected: dict[str, fill_model.Expected], ended: Ended, is_astray: bool) -> str:
        """Return the fault of a run of fill: it makes no change if it ends before its first source; else every source
        is as its line reports.
        """
        lines = {line.partition(": ")[0]: line for line in ended.output.splitlines()}
        if is_astray or (not lines and ended.status >= 0):
            is_changed = any(taking.sent or taking.publications for taking in self.whole.sources.values())
            if ended.status == 0 or is_changed:
                return "it changed something, though it ended before"
            is_calm = all(taking.name == "calm" for taking in self.whole.sources.values())
            return "it did nothing" if is_calm and not is_astray else ""
        early = {name: name not in lines or "ended early" in lines[name] for name in expected}
        if (ended.status == 0) == any(early.values()) and ended.status >= 0:
            return f"status {ended.status}, and {early}"
        for name, one in expected.items():
            status = ended.status if ended.status < 0 else 1 if early[name] else 0
            fault = fill_model.fault_of(one, Ended(status, lines.get(name, ""), ""), set())
            if fault:
                return f"{name}: {fault}"
        return ""


def test_the_sources_hold_what_a_model_says_after_each_response(runner: Runner, room: pathlib.Path, seed: str) -> None:
    Trial(runner, room, seed).go()
