"""Fill, mirror, change, mirror again and grow a collection of many resources, while two sources are killed per part.

Every acknowledged put must be there, every part of the mirror must equal its source, and all parts together must equal
the folder, to the byte. A line per part has its seconds, its share of the processors and of the disk, and the memory.
RESOURCES and SOURCES in the environment replace the defaults of 20,000 and 4; --long has 1,000,000 in 24 sources, and
first measures sources in parallel.
"""
from __future__ import annotations

import os
import pathlib
import random
import resource
from collections.abc import Iterable

import pytest

from operations.tests.collection.host import SETTINGS, Host
from operations.tests.collection.killing import killing
from operations.tests.collection.measuring import Meter, size_of
from operations.tests.collection.processes import most_memory
from operations.tests.collection.rates import tell_rates

pytestmark = [pytest.mark.needs("nginx", "openssl"), pytest.mark.alone]

BODY, TENTH = 1_024, 10
# Files per folder; bytes of disk per resource, in addition to a few MiB.
IN_FOLDER, ROOM = 500, 2_600
# Timeout of a run: seconds per resource, in addition to two minutes for a busy machine.
SECONDS = 0.05
# Sources that are killed per part.
KILLED = 2


class Scenario:
    """A collection in the current folder."""

    def __init__(self, program: str, room: pathlib.Path, count: int, sources: int) -> None:
        self.count, self.names = count, [f"s{number}" for number in range(1, sources + 1)]
        self.random = random.Random(f"{count} {sources}")
        self.host = Host(program, room, self.names, size=(16 << 20) + 2 * count // sources * ROOM, limit=1_000)
        self.meter, self.wait = Meter("collection", room, self.host), 120 + SECONDS * count
        self.versions: dict[int, int] = {}
        # The numbers of the names, by source.
        self.homes: dict[str, list[int]] = {}

    def path(self, number: int) -> str:
        """Return the path of a file by its number."""
        return f"folder/{number // IN_FOLDER:04}/{number:07}.txt"

    def body(self, number: int) -> bytes:
        """Return the bytes of a resource: its number and its version, repeated."""
        line = b"%d %d\n" % (number, self.versions.get(number, 0))
        return (line * (BODY // len(line) + 1))[:BODY]

    def write(self, numbers: Iterable[int]) -> None:
        """Write files with an old time, as fill waits for a young file."""
        for number in numbers:
            path = self.path(number)
            if number % IN_FOLDER == 0:
                os.makedirs(os.path.dirname(path), exist_ok=True)
            with open(path, "wb") as file:
                file.write(self.body(number))
            os.utime(path, (1_700_000_000, 1_700_000_000))

    def run(self, what: str, count: int, victims: Iterable[str], *words: str) -> str:
        """Run the command; kill these sources once the run works with them."""
        with self.meter.part(what, count):
            with killing(self.host, victims, words[0]) as killed:
                output = self.host.well(*words, seconds=self.wait)
        assert sorted(killed) == sorted(victims), what
        return output

    def victims(self) -> list[str]:
        """Choose the sources to kill during a part, by chance."""
        return self.random.sample(self.names, KILLED)

    def mirror(self, what: str, count: int, *victims: str) -> None:
        """Mirror the collection while sources are killed, and check the mirror."""
        output = self.run(what, count, victims or self.victims(), "mirror", self.host.address, "mirror")
        all_sources = f"{len(self.host.sources)} of {len(self.host.sources)} sources"
        assert output.splitlines()[-1].partition(", each")[0] == all_sources, what
        with self.meter.part(f"{what}, compared", self.count):
            self.compare_mirror()

    def compare_mirror(self) -> None:
        """Check that the parts of the mirror have exactly the files of the folder, in the parts of their sources."""
        assert sum(map(len, self.homes.values())) == self.count
        for name, numbers in self.homes.items():
            # (names that begin with # are files of the mirror itself)
            found = sum(not file.startswith("#") for _, _, files in os.walk(f"mirror/{name}") for file in files)
            assert found == len(numbers), name
            for number in numbers:
                with open(f"mirror/{name}/{self.path(number)[7:]}", "rb") as file:
                    assert file.read() == self.body(number), f"{self.path(number)} in the part of {name}"

    def place(self) -> None:
        """Ask the command for the numbers of the names of every source."""
        names = [self.path(number)[7:] for number in range(self.count)]
        pathlib.Path("names").write_text("".join(f"{name}\n" for name in names))
        lines = self.host.well("collection", SETTINGS, "--names", "names", seconds=self.wait).splitlines()
        assert len(lines) == self.count
        self.homes = {source: [] for source in self.host.sources}
        for number, line in enumerate(lines):
            self.homes[line.split(" ", 1)[0]].append(number)

    def grow(self) -> None:
        """Add a source, and move its names to it."""
        new = f"s{len(self.names) + 1}"
        self.host.add(new)
        self.host.sources[new].start()
        self.host.serve()
        self.place()
        moved = len(self.homes[new])
        output = self.run("grown", moved, [self.names[-1], new], "grow", SETTINGS)
        assert output.partition(";")[0] == f"{moved:,} of {self.count:,} are where they do not live"
        assert sum(map(len, self.homes.values())) == self.count
        print(f"collection: {moved:,} of {self.count:,} moved, one of {self.count / moved:.2f}", flush=True)

    def compare_sources(self) -> None:
        """Stop the sources, and check that every source's file has exactly its names, to the byte."""
        for name, numbers in self.homes.items():
            wanted = b"".join(b"bytes %d\n%b\n" % (BODY, self.body(number)) for number in numbers)
            self.host.end(name)
            shown = self.host.sources[name].answers("status", *(f"show /resource/{self.path(number)[7:]}"
                                                                for number in numbers)).partition(b"\n")
            assert shown[0].split()[:2] == [b"resources", b"%d" % len(numbers)], name
            assert shown[2] == wanted, f"{name} holds other bytes than the folder"

    def tell_room(self) -> None:
        """Print the bytes on disk, the bytes of all lists, and the peak memory of a program."""
        def mega(size: float) -> str:
            return f"{size / 1e6:,.1f} MB"

        sources = self.host.sources
        of_sources = max(most_memory(server.process.pid) for server in sources.values() if server.process)
        of_tools = 1024 * resource.getrusage(resource.RUSAGE_CHILDREN).ru_maxrss
        disks = sum(size_of(server.disk) for server in sources.values())
        lists = sum(len(text) for name in sources for text in self.host.texts(name))
        print(f"collection: on the disk: the folder {mega(size_of('folder'))}, sources {mega(disks)}, "
              f"the mirror {mega(size_of('mirror'))}; lists of all {mega(lists)}; "
              f"memory of a source {mega(of_sources)} at most, of a tool {mega(of_tools)}", flush=True)

    def go(self) -> None:
        """Run all parts in order."""
        numbers = range(self.count)
        with self.meter.part("written", self.count):
            self.write(numbers)
        self.place()
        with self.host:
            self.run("filled", self.count, self.victims(), "fill", "folder", SETTINGS)
            self.mirror("mirrored", self.count)
            changed = sorted(self.random.sample(numbers, self.count // TENTH))
            self.versions.update(dict.fromkeys(changed, 1))
            self.write(changed)
            self.run("a tenth changed", len(changed), self.victims(), "fill", "folder", SETTINGS)
            self.mirror("mirrored again", len(changed))
            self.grow()
            new = list(self.host.sources)[-1]
            self.mirror("mirrored once grown", len(self.homes[new]), new, self.names[0])
            self.tell_room()
            with self.meter.part("the sources, compared", self.count):
                self.compare_sources()


@pytest.mark.long
def test_rates_of_sources_side_by_side_are_measured(program: str, tmp_path: pathlib.Path,
                                                    monkeypatch: pytest.MonkeyPatch) -> None:
    monkeypatch.chdir(tmp_path)
    tell_rates(program)


@pytest.mark.timeout(86_400)
def test_a_collection_loses_nothing_while_its_sources_are_killed(
        program: str, tmp_path: pathlib.Path, monkeypatch: pytest.MonkeyPatch, request: pytest.FixtureRequest) -> None:
    is_long = request.config.getoption("--long")
    count, sources = (int(os.environ.get(name) or (long if is_long else short))
                      for name, long, short in (("RESOURCES", 1_000_000, 20_000), ("SOURCES", 24, 4)))
    monkeypatch.chdir(tmp_path)
    Scenario(program, tmp_path, count, sources).go()
