"""Mirror sources with random histories by `ropepeach mirror`, and compare the folder with a model after each run.

A source changes while it is mirrored. It answers correctly, late, partly, with an older file, with other bytes, with
4xx and 5xx, at random (weather.py). Runs have random options, and some are killed. mirror_model.py has the files that
the folder must have, and the moment that the mirror may remember. Sometimes others change files of the mirror before a
baseline.
"""
from __future__ import annotations

import json
import pathlib
import random

from operations.tests.model.histories import History
from operations.tests.model.made_up_source import MadeUpSource
from operations.tests.model.mirror_model import Before, Expected, fault_of, files_of
from operations.tests.model.runs import Ended, Runner, check_end
from operations.tests.model.weather import Weather

# The number of histories, and runs per history.
HISTORIES, RUNS = 50, 6
# Options of a run; most runs may remove all files.
OPTIONS: list[list[str]] = [
    *[["--yes"]] * 5, ["--yes", "--baseline"], ["--baseline"], [], [], ["--max-delete", "1"],
    ["--yes", "--incremental"],
]


class Trial:
    """One history, its mirror, and the runs."""

    def __init__(self, runner: Runner, room: pathlib.Path, seed: str) -> None:
        self.runner, self.room, self.rng = runner, room, random.Random(seed.replace("-", " "))
        self.folder = room / "mirror"

    def go(self) -> None:
        """Do all runs of a history; the last one, in calm weather, must succeed."""
        with MadeUpSource(lambda request: self.weather.answer(request)) as self.source:
            self.history = History(self.source.base, self.rng)
            self.weather = Weather(self.history, self.rng)
            self.source.stays = self.rng.random() < 0.3
            for _ in range(self.rng.randrange(12)):
                self.history.advance()
            for _ in range(RUNS):
                self.weather.change()
                status = self.run(self.rng.choice(OPTIONS))
                # (more often after a killed run, which left newer bytes than it remembers)
                if self.rng.random() < (0.4 if status < 0 else 0.15):
                    self.restored()
                for _ in range(self.rng.choice([0, 0, 1, 3, 8])):
                    self.history.advance()
            self.weather.calm()
            self.run(["--yes", *self.disturbed()])
            self.run(["--yes"])

    def restored(self) -> None:
        """Restore the source from an old copy: the next run detects it, before more changes follow."""
        self.history.restore()
        self.weather.calm()
        self.weather.has_lied = True
        self.run(["--yes"])

    def disturbed(self) -> list[str]:
        """Sometimes change files of the mirror, as others do. Return the options that repair them."""
        if not self.folder.exists() or self.rng.random() < 0.6:
            return []
        files = [path for path in self.folder.rglob("*") if path.is_file() and not path.name.startswith("#")]
        for path in sorted(files):
            what = self.rng.choice(["no", "no", "removed", "emptied", "changed"])
            if what == "removed":
                path.unlink()
            elif what != "no":
                body = path.read_bytes()
                path.write_bytes(b"" if what == "emptied" else bytes(len(body)))
        foreign = self.folder / self.rng.choice(["foreign", "x/y", "n/9"])
        foreign.parent.mkdir(exist_ok=True)
        foreign.write_bytes(b"foreign")
        return ["--baseline"]

    def before(self) -> Before:
        """Return the facts before a run."""
        state = self.folder / "#state"
        remembered = json.loads(state.read_text())["until"] if state.exists() else None
        return Before(files_of(self.folder), remembered, len(self.history.changes), self.folder.exists())

    def run(self, options: list[str]) -> int:
        """Run the mirror, sometimes after a dry run, and compare the folder with the model. Return the status."""
        before = self.before()
        if self.rng.random() < 0.15:
            self.dry_run(options)
            before = self.before()
        expected = Expected(self.history, before, options, self.weather)
        self.source.requests.clear()
        self.weather.begin(self.runner.kill)
        ended = self.runner.run(self.room, "mirror", self.source.base, self.folder, "--patience", "0.3",
                                *options)
        self.look(ended, "a run")
        after = self.before()
        fault = fault_of(expected, ended, after, self.source.paths())
        assert not fault, (f"{self.weather.name}, {' '.join(options)}: {fault}; "
                           f"it said {ended.output!r} {ended.complaints[-300:]!r}")
        return ended.status

    def look(self, ended: Ended, what: str) -> None:
        """Check that the source served correctly, and that the run ended as a command does."""
        if self.source.fault:
            raise self.source.fault
        assert ended.status != 2, f"{what} was misused: {ended.complaints}"
        check_end(ended)

    def dry_run(self, options: list[str]) -> None:
        """Check that a dry run makes no change."""
        before = tree_of(self.room)
        self.weather.begin(lambda: None)
        words = ["mirror", self.source.base, self.folder, "--patience", "0.1", "--dry-run", *options]
        self.look(self.runner.run(self.room, *words), "a dry run")
        assert tree_of(self.room) == before, f"a dry run with {options} changed the folder"


def tree_of(room: pathlib.Path) -> dict[str, bytes | None]:
    """Return all files of the mirror's folder, including the mirror's own."""
    return {str(path): path.read_bytes() if path.is_file() else None for path in (room / "mirror").rglob("*")}


def test_the_folder_is_as_a_model_says_after_each_run(runner: Runner, room: pathlib.Path, seed: str) -> None:
    Trial(runner, room, seed).go()
