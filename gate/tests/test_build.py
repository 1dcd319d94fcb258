"""Test `make build`: the files that it copies, when it runs, and which results it takes."""

import contextlib
import io
import subprocess
from collections.abc import Callable
from pathlib import Path

import pytest

from gate import build
from gate.edits import kit
from gate.tests.samples import write, write_program

# A toolchain that proves the program, or fails to; it makes the program from the words of its source.
RT = """[ "$1" = version ] && echo 'a-kit logic 1a' && exit
echo run >> {room}/runs
cat crates.txt > {room}/crates
mkdir -p crates/rs_source/out
cat crates/low/src/lib.rt crates/rs_source/src/main.rt > crates/rs_source/out/rs_source
echo 'rt: low is kept: an earlier run'
echo 'rt: rs_source proved'
echo '2 passed, {failed} failed'
exit {failed}
"""
CRATES = "# the lowest first\nlow: std\nlow_tests: low\nother: std\nrs_source: low\n"


class Building:
    """A repository, and a toolchain that proves its program."""

    def __init__(self, room: Path, monkeypatch: pytest.MonkeyPatch) -> None:
        self.room, self.root = room, room / "repository"
        for name in ("low/src/lib.rt", "low/must-fail/a.edit", "low_tests/src/lib.rt", "other/src/lib.rt",
                     "rs_source/src/main.rt"):
            write(f"{name}\n", self.root, f"crates/{name}")
        write(CRATES, self.root, "crates.txt")
        write("Handles allowed: none.\n", self.root, "HANDLES")
        write("out/\n", self.root, ".gitignore")
        subprocess.run(["git", "init", "-q"], cwd=self.root, check=True)
        out = self.root / "crates/rs_source/out"
        for name, value in (("ROOT", self.root), ("LOG", self.root / "out/build.log"), ("BUILT", out / "rs_source"),
                            ("MADE_OF", out / "rs_source.made_of")):
            monkeypatch.setattr(build, name, value)
        monkeypatch.setattr(kit, "RT", f"{self.room}/rt")
        self.toolchain(failed=0)

    def toolchain(self, failed: int) -> None:
        """Set up the toolchain, which fails if `failed` is 1."""
        write_program(RT.format(room=self.room, failed=failed), self.room, "rt")

    def built(self) -> tuple[int, str]:
        """Return the exit status of `make build`, and its last line."""
        with contextlib.redirect_stdout(io.StringIO()) as out, contextlib.redirect_stderr(io.StringIO()):
            status = build.main()
        return status, out.getvalue().splitlines()[-1]

    def runs(self) -> int:
        """Return the number of runs of the toolchain."""
        noted = self.room / "runs"
        return len(noted.read_text().splitlines()) if noted.exists() else 0


@pytest.fixture
def made(tmp_path: Path, monkeypatch: pytest.MonkeyPatch) -> Building:
    """Return a repository of CRATES."""
    return Building(tmp_path, monkeypatch)


def test_it_proves_the_program_and_those_below_it_and_no_more(made: Building) -> None:
    copy = build.copied(made.root, str(made.room), ["low", "rs_source"])
    names = sorted(str(path.relative_to(copy)) for path in copy.rglob("*") if path.is_file())
    assert names == ["HANDLES", "crates.txt", "crates/low/src/lib.rt", "crates/rs_source/src/main.rt"]
    assert (copy / "crates.txt").read_text() == "low: std\nrs_source: low\n"
    assert made.built() == (0, "crates/rs_source/out/rs_source")
    assert (made.room / "crates").read_text() == "low: std\nrs_source: low\n"


def test_the_program_is_that_of_the_copy(made: Building) -> None:
    assert made.built()[0] == 0
    assert build.BUILT.read_text() == "low/src/lib.rt\nrs_source/src/main.rt\n"
    assert build.BUILT.stat().st_mode & 0o777 == 0o755


def test_it_runs_again_where_a_file_the_kit_or_the_program_is_another_one(
        made: Building, monkeypatch: pytest.MonkeyPatch) -> None:
    made.built()
    made.built()
    assert made.runs() == 1
    changes: tuple[Callable[[], object], ...] = (
        lambda: write("changed\n", made.root, "crates/low/src/lib.rt"),
        lambda: write("new\n", made.root, "crates/rs_source/specs/New.antt"),
        lambda: write("Handles allowed: Net.\n", made.root, "HANDLES"),
        lambda: write("low: std hex\nrs_source: low\n", made.root, "crates.txt"),
        lambda: build.BUILT.write_text("another program"),
        lambda: monkeypatch.setattr(kit, "identity", lambda: ("another-kit", "2b")),
    )
    for number, change in enumerate(changes, 2):
        change()
        made.built()
        made.built()
        assert made.runs() == number


def test_it_does_not_run_for_what_the_program_is_not_made_of(made: Building) -> None:
    made.built()
    for name in ("crates/other/src/lib.rt", "crates/low_tests/src/lib.rt", "crates/low/must-fail/a.edit",
                 "docs/A.md"):
        write("changed\n", made.root, name)
    made.built()
    assert made.runs() == 1


def test_what_is_not_proved_leaves_the_program_that_was(made: Building) -> None:
    made.built()
    write("wrong\n", made.root, "crates/low/src/lib.rt")
    made.toolchain(failed=1)
    assert made.built()[0] == 1
    assert build.BUILT.read_text() == "low/src/lib.rt\nrs_source/src/main.rt\n"
    assert made.built()[0] == 1
