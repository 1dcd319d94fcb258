"""Run the tests of a planted bug, and classify the result."""
from __future__ import annotations

import os
import re
import signal
import subprocess
import sys
import tempfile
from dataclasses import dataclass
from enum import Enum
from pathlib import Path
from xml.etree import ElementTree

from tests.planted import assertions
from tests.planted.plants import settings_of, words_of

# The longest run, in seconds.
LONGEST = 900
# Variables that a run does not inherit: the state folder of the tests (operations/tests), and the outer run's settings.
OWN = re.compile(r"ROPEPEACH_TESTS_STATE|XDG_STATE_HOME|PYTEST_\w+|STRICT|PLANTED|HISTORIES|ROUNDS|SEED")
# Errors of broken code, which prove nothing about a test.
BROKEN = re.compile(r"\b(NameError|SyntaxError|IndentationError|ImportError|ModuleNotFoundError|UnboundLocalError)\b")
# Every run uses the same random draws.
SEED = 20261129


class End(Enum):
    """The result of a run of tests."""

    PASSED = "passed"
    NOTICED = "failed by an assertion"
    BROKEN = "neither passed nor failed by an assertion"
    SKIPPED = "skipped"


@dataclass(frozen=True)
class Outcome:
    """The result of a run, and its output."""

    end: End
    output: str

    def __str__(self) -> str:
        """Return the end of the output."""
        return f"{self.end.value}\n{self.output.strip()[-2_000:]}"


def run_tests(tests: str, folder: Path, program: str) -> Outcome:
    """Run Python tests in a folder, on a program."""
    with tempfile.TemporaryDirectory(prefix="planted-") as room:
        report = Path(room, "report.xml")
        options = ["-q", "-n", "0", "--tb=short", "-p", assertions.__name__, "-p", "no:cacheprovider",
                   f"--junit-xml={report}", f"--basetemp={room}/tests", f"--hypothesis-seed={SEED}"]
        status, output = run_python(["pytest", *options, *words_of(tests)], folder,
                                    {"PROGRAM": program} | settings_of(tests))
        return outcome(end_of(status, report), output)


def outcome(end: End, output: str) -> Outcome:
    """Return an outcome; a failure caused by broken code does not count as noticed."""
    return Outcome(End.BROKEN if end is End.NOTICED and BROKEN.search(output) else end, output)


def end_of(status: int, report: Path) -> End:
    """Return the result of a run of pytest, from its exit status and report."""
    cases = [*ElementTree.parse(report).iter("testcase")] if report.exists() else []
    if any(case.find(f"./properties/property[@name='{assertions.BY_ASSERTION}']") is not None for case in cases):
        return End.NOTICED
    if status or not cases:
        return End.BROKEN
    return End.SKIPPED if all(case.find("skipped") is not None for case in cases) else End.PASSED


def run_python(words: list[str], folder: Path, own: dict[str, str]) -> tuple[int, str]:
    """Run a module in a folder with its own settings; return its exit status and output.

    Kill all its processes after LONGEST seconds.
    """
    settings = {name: value for name, value in os.environ.items() if not OWN.fullmatch(name)}
    # (Python treats a compiled file as current if the source has the same size and was changed in the same second)
    settings |= {"PYTHONDONTWRITEBYTECODE": "1"} | own
    with subprocess.Popen([sys.executable, "-m", *words], cwd=folder, env=settings, stdout=subprocess.PIPE,
                          stderr=subprocess.STDOUT, text=True, errors="replace", start_new_session=True) as process:
        try:
            output, _ = process.communicate(timeout=LONGEST)
        except subprocess.TimeoutExpired:
            os.killpg(process.pid, signal.SIGKILL)
            output, _ = process.communicate()
            return -1, f"{output}\nnot done within {LONGEST} seconds"
    return process.returncode, output
