"""The gate, `make test`. Its last line is 'N passed, M failed', with ', K skipped' if something was not tried.

The exit status is 1 if M is not 0. With STRICT=1 a skip is a failure. The gate proves and builds a copy of the
repository by the toolchain's own run (`rt ci`), tries the must-fail edits of changed crates and of two more, and runs
pytest over all other tests: docs/keepers/GATE.md has each part. N counts crates, edits, tests and the other parts. The
gate prints the processor minutes of each part before its last line.
"""

import os
import shutil
import subprocess
import sys
import tempfile
import time
from collections.abc import Callable, Sequence
from pathlib import Path

from gate import runs, tested
from gate.edits import edit, edits, kit, record
from gate.tested import Result, line_of
from rattle.crates import crates_of
from tests import verdict

ROOT = Path(__file__).resolve().parent.parent
LOG = ROOT / "out" / "test.log"
# The tests that read texts of the repository, and those that run programs.
TEXTS = ("gate", "statement", "rust", "tests/house")
PROGRAMS = ("tests", "operations", "--ignore=tests/house")
# The columns of a line of Python, at most.
WIDTH = 120
# The exit status of a program that could not try its part.
SKIPPED = 77


class Parts:
    """The parts of the gate: the counts of passed, failed and skipped, and the seconds of each part."""

    def __init__(self) -> None:
        self.passed = 0
        self.failed: list[str] = []
        self.skipped: list[str] = []
        # The name of each part, its seconds of a processor, and its seconds on the clock.
        self.rows: list[tuple[str, float, float]] = []

    def run(self, name: str, call: Callable[[], Result]) -> bool:
        """Run a part; return whether all of it passed."""
        print(f"== {name}", flush=True)
        before, started = kit.used(), time.time()
        passed, failed, skipped = call()
        self.rows.append((name, kit.used() - before, time.time() - started))
        self.passed, self.failed, self.skipped = self.passed + passed, self.failed + failed, self.skipped + skipped
        return not failed

    def concluded(self, is_strict: bool) -> tuple[list[str], list[str], str]:
        """Return the failures, the skips and the last line; with `is_strict` each skip is a failure."""
        failed = self.failed + [f"not tried: {why}" for why in self.skipped] * is_strict
        skipped = [] if is_strict else self.skipped
        line = f"{self.passed} passed, {len(failed)} failed" + f", {len(skipped)} skipped" * bool(skipped)
        return failed, skipped, line

    def conclude(self, is_strict: bool) -> int:
        """Print the failures, the skips and the last line; return the exit status."""
        failed, skipped, line = self.concluded(is_strict)
        print("".join(f"FAILED: {why}\n" for why in failed) + "".join(f"SKIPPED: {why}\n" for why in skipped), end="")
        print(line)
        return 1 if failed else 0


def files_of(*kinds: str, below: Path = ROOT) -> list[Path]:
    """Return the files of these kinds, without what a build makes."""
    return [path for kind in kinds for path in sorted(below.rglob(kind)) if "out" not in path.relative_to(below).parts]


def layout(files: Sequence[Path]) -> Result:
    """Check the toolchain's layout of code, specs and proofs, and the width of Python."""
    wrong = [line for file in files if file.suffix == ".py" for line in wide(file)]
    if laid := [file for file in files if file.suffix in (".rt", ".antt")]:
        words: list[str | Path] = [f"{kit.folder()}/bin/rattle", "fmt", "--check", *laid]
        finished = subprocess.run(words, capture_output=True, text=True)
        output = (finished.stdout + finished.stderr).splitlines()
        wrong += output or ["the layout was not checked"] if finished.returncode else []
    return int(not wrong), wrong, []


def wide(file: Path) -> list[str]:
    """Return a line for each line of a file that has more than WIDTH columns."""
    lines = enumerate(file.read_text().splitlines(), 1)
    return [f"{file}:{number}: more than {WIDTH} columns" for number, line in lines if len(line) > WIDTH]


def dates() -> Result:
    """Check that the record of edits is at least as young as each crate."""
    old = record.outdated(ROOT)
    wrong = [f"gate/edits/record.txt is older than {crate}: make edits CRATES={crate}" for crate in old]
    return int(not old), wrong, []


def fitting() -> Result:
    """Check that each must-fail edit still fits the code that it changes."""
    crates = sorted(folder for folder in Path(ROOT, "crates").iterdir() if folder.is_dir())
    every = [(crate, one) for crate in crates for one in edit.of_crate(ROOT, crate.name, {})]
    unfit = [f"{one.label} no longer fits its code" for crate, one in every if edit.applied(one, crate) is None]
    return int(not unfit), unfit, []


def due() -> dict[str, list[str]]:
    """Return the edits to try, by crate: all that the record does not cover, and some of other crates."""
    commit = verdict.git(ROOT, "rev-parse", "HEAD").strip()
    picked = {name: record.drawn(ROOT, name, commit) for name in record.picked(ROOT, commit)}
    return picked | {name: record.edits_of(ROOT, name) for name in record.uncovered(ROOT)}


def some_edits(copy: Path, tried: dict[str, list[str]]) -> Result:
    """Try these edits, by crate."""
    print(f"trying the edits of: {' '.join(f'{name} ({len(paths)})' for name, paths in tried.items())}", flush=True)
    for name, paths in tried.items():
        (copy / "crates" / name / "must-fail").mkdir()
        for path in paths:
            shutil.copy2(ROOT / "crates" / name / path, copy / "crates" / name / path)
    every = [found for edits_of in edits.try_crates(str(copy), tried, kit.lanes()).values() for found in edits_of]
    return sum(found.is_refused for found in every), [found.label for found in every if not found.is_refused], []


def program(*words: str, folder: Path = ROOT) -> Result:
    """Run a module of Python in a folder; its exit status 0 passes, and SKIPPED skips it."""
    finished = subprocess.run([sys.executable, "-m", *words], cwd=folder, check=False)
    name = " ".join(words)
    if finished.returncode == SKIPPED:
        return 0, [], [line_of(name, "its output has the reason")]
    failed = [f"{name} ended with status {finished.returncode}"] if finished.returncode else []
    return int(not failed), failed, []


def types() -> Result:
    """Check the types of Python in the files that both settings of mypy name."""
    if not shutil.which("mypy"):
        return 0, [], [line_of("types", "there is no mypy here")]
    statuses = {name: subprocess.run(["mypy", "--config-file", name], cwd=ROOT, check=False).returncode
                for name in ("mypy.ini", "operations/mypy.ini")}
    failed = [f"mypy --config-file {name} ended with status {status}" for name, status in statuses.items() if status]
    return int(not failed), failed, []


def print_minutes(parts: Parts, meter: runs.Meter, started: float) -> None:
    """Print the processor minutes of each part, and the seconds of each crate."""
    print("== minutes of a processor, and minutes on the clock")
    for name, seconds, clock in parts.rows:
        print(f"{name}: {seconds / 60:.1f}, {clock / 60:.1f}")
    print(f"in all: {sum(row[1] for row in parts.rows) / 60:.1f}, {(time.time() - started) / 60:.1f}")
    print("== seconds of a processor by crate: proofs, tests, compiling, edits")
    for crate in crates_of(ROOT):
        figures = [f"{meter.seconds(crate, kind):.0f}" for kind in ("proofs", "tests", "compiling", "edits")]
        print(f"{crate}: {', '.join(figures)}")


def announce(uses: dict[str, list[str]], tried: dict[str, list[str]]) -> None:
    """Print the work ahead, and about how long it takes."""
    processors, known = kit.lanes(), runs.table()
    number = sum(map(len, tried.values()))
    seconds = runs.proving(processors, with_tests=True) + number * known["an_edit"] / processors + known["all_else"]
    text = (f"make test: proves {len(uses)} crates and their tests, tries {number} must-fail edits of {len(tried)} "
            "crates, and runs the tests of pytest.")
    runs.announce(text, seconds, processors, LOG)


def is_strict() -> bool:
    """Return whether STRICT=1 is set."""
    return os.environ.get("STRICT", "") not in ("", "0")


def note(parts: Parts, is_strict: bool, before: verdict.State) -> None:
    """Write the verdict of this run for a release (out/verdict.json), with the changes since the run began."""
    failed, skipped, line = parts.concluded(is_strict)
    state = verdict.joined(before, verdict.state_of(ROOT))
    counts = parts.passed, tuple(failed), tuple(skipped), line
    verdict.write(ROOT, verdict.Verdict(state.commit, state.changes, " logic ".join(kit.identity()), *counts))


def run_parts(parts: Parts, copy: Path, tried: dict[str, list[str]], meter: runs.Meter) -> None:
    """Run all parts over a copy of the repository: texts first, then proofs, then the proved program."""
    lanes = kit.lanes()
    parts.run("tests of texts", lambda: tested.run(TEXTS, ROOT, lanes))
    parts.run("the layout", lambda: layout([*files_of("*.rt", "*.antt", below=ROOT / "crates"), *files_of("*.py")]))
    parts.run("the texts of edits", fitting)
    parts.run("the record of edits", dates)
    parts.run("types", types)
    uses = crates_of(ROOT)
    if parts.run("proofs, tests and builds", lambda: runs.rt_ci(copy, uses, LOG, meter.seconds)):
        parts.run("must-fail edits", lambda: some_edits(copy, tried))
        parts.run("plain Rust", lambda: program("rust.build", folder=copy))
        parts.run("tests", lambda: tested.run([*PROGRAMS, "-m", "not alone"], copy, lanes))
        parts.run("tests that run alone", lambda: tested.run([*PROGRAMS, "-m", "alone"], copy, 1))


def main() -> int:
    """Run all parts; return the exit status."""
    kit.require()
    # (a run that is stopped leaves no verdict)
    verdict.drop(ROOT)
    before = verdict.state_of(ROOT)
    # The setup installs the Debian packages that the tests use, or names the tests that it leaves out.
    if subprocess.run([sys.executable, "-m", "tests.house.setup"], cwd=ROOT).returncode:
        return 1
    parts, started, tried = Parts(), time.time(), due()
    LOG.parent.mkdir(exist_ok=True)
    announce(crates_of(ROOT), tried)
    with tempfile.TemporaryDirectory(prefix="gate-") as room, runs.Meter(room) as meter:
        # The toolchain runs programs as nobody, on copies below this folder.
        os.chmod(room, 0o711)
        os.environ["TMPDIR"] = tempfile.tempdir = room
        copy = runs.copied(ROOT, room, lambda name: "/must-fail/" not in name)
        run_parts(parts, copy, tried, meter)
        print_minutes(parts, meter, started)
    note(parts, is_strict(), before)
    return parts.conclude(is_strict())


if __name__ == "__main__":
    sys.exit(main())
