"""Copies of the tree, and the plain program (rust/README.md), in which bugs are planted."""
from __future__ import annotations

import os
import shutil
import subprocess
from abc import ABC, abstractmethod
from collections.abc import Iterator
from contextlib import AbstractContextManager, contextmanager
from pathlib import Path

import pytest

from rust import __main__ as writing
from rust.build import SETTINGS
from rust.workspace import PROGRAM
from tests.planted.plants import Bug, Runner, Unfit, runner_of, words_of
from tests.planted.runs import End, Outcome, run_tests
from tests.program import ROOT

# Build fast rather than optimized, with overflow checks.
FAST = {"OPT_LEVEL": "1", "CODEGEN_UNITS": "16", "LTO": "off", "INCREMENTAL": "true"}
# The longest build, in seconds.
BUILDING = 900
# Files that are not copied: build output, and results of earlier runs.
LEFT_OUT = shutil.ignore_patterns(".git", "out", "__pycache__", ".mypy_cache", ".pytest_cache", ".hypothesis")


class Ground(ABC):
    """A copy of code in which one bug is planted at a time."""

    def __init__(self) -> None:
        self.sound: dict[str, Outcome] = {}

    @abstractmethod
    def planted(self, bug: Bug) -> AbstractContextManager[None]:
        """Plant a bug, and remove it at the end of the context."""

    @abstractmethod
    def run(self, tests: str) -> Outcome:
        """Run tests of the copy in its present state."""

    def check_noticed(self, bug: Bug) -> None:
        """Check that the tests of a bug pass without it, and that at least one fails by an assertion with it."""
        if bug.tests not in self.sound:
            self.sound[bug.tests] = self.run(bug.tests)
        sound = self.sound[bug.tests]
        if sound.end is End.SKIPPED:
            pytest.skip(f"its tests are skipped: {sound.output.strip()[-200:]}")
        assert sound.end is End.PASSED, f"without the bug {bug.tests}: {sound}"
        with self.planted(bug):
            found = self.run(bug.tests)
        assert found.end is End.NOTICED, f"with the bug {bug.tests}: {found}"


class Tree(Ground):
    """A copy of the tree, whose tests run a given program."""

    def __init__(self, folder: Path, program: str) -> None:
        super().__init__()
        self.folder, self.program = folder, program
        shutil.copytree(ROOT, folder, symlinks=True, ignore=LEFT_OUT)

    @contextmanager
    def planted(self, bug: Bug) -> Iterator[None]:
        """Plant a bug in a file of the copy."""
        file = self.folder / bug.file
        text = file.read_text()
        file.write_text(bug.planted(text))
        try:
            yield
        finally:
            file.write_text(text)

    def run(self, tests: str) -> Outcome:
        """Run tests of the copy."""
        return run_tests(tests, self.folder, self.program)


class Workspace(Ground):
    """The program's sources as plain Rust. The tests of our own tree run the program built from them."""

    def __init__(self, folder: Path, tool: str) -> None:
        super().__init__()
        self.top, self.tool = folder / writing.NAME, tool
        if writing.run(folder):
            raise Unfit("the sources cannot be written as plain Rust")
        self.program = self.sound_program = self.built("sound")

    def cargo(self, *words: str) -> subprocess.CompletedProcess[str]:
        """Run cargo in the workspace."""
        settings = os.environ | {f"CARGO_PROFILE_RELEASE_{word}": value for word, value in FAST.items()}
        settings["PATH"] = f"{Path(self.tool).parent}{os.pathsep}{settings.get('PATH', '')}"
        return subprocess.run([self.tool, *words, "-j", "2", *SETTINGS], cwd=self.top, env=settings,
                              capture_output=True, text=True, timeout=BUILDING, check=False)

    def built(self, name: str) -> str:
        """Build the program and copy it to this name; return its path."""
        finished = self.cargo("build", "--release", "-p", PROGRAM)
        if finished.returncode:
            raise Unfit(f"cargo cannot build it: {finished.stderr[-1_000:]}")
        place = self.top.parent / name
        place.unlink(missing_ok=True)
        shutil.copy2(self.top / "target" / "release" / PROGRAM, place)
        return str(place)

    @contextmanager
    def planted(self, bug: Bug) -> Iterator[None]:
        """Plant a bug in the sources, and build the program if the tests run it."""
        path = (self.top / bug.file).with_suffix(".rs")
        text = path.read_text()
        path.write_text(bug.planted(text))
        try:
            if runner_of(bug.tests) is not Runner.CARGO:
                self.program = self.built("wrong")
            yield
        finally:
            self.program = self.sound_program
            path.write_text(text)

    def run(self, tests: str) -> Outcome:
        """Run tests of the program, or of a library."""
        if runner_of(tests) is not Runner.CARGO:
            return run_tests(tests, ROOT, self.program)
        finished = self.cargo("test", "--release", "-p", *words_of(tests))
        output = finished.stdout + finished.stderr
        is_run = "test result: " in output and "error: could not compile" not in output
        return Outcome((End.NOTICED if finished.returncode else End.PASSED) if is_run else End.BROKEN, output)
