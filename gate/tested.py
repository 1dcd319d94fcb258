"""The tests of pytest as parts of the gate: how many passed, which failed, and which were skipped for which reason.

usage: python3 -m gate.tested [--note] [WORD OF PYTEST..]
    runs the tests that the words choose (all without words) as the gate does; with --note it writes executed.txt, the
    seconds of each file of tests and the modules of `ropepeach` that its tests execute
"""

import os
import subprocess
import sys
import tempfile
from collections.abc import Iterable
from pathlib import Path
from xml.etree import ElementTree

# Debian's Python, which has pytest and the modules that the command imports; `python3` on PATH may be another one.
PYTHON = "/usr/bin/python3"
# The modules without which no test runs, and the packages of Debian that have them.
NEEDED = {"pytest": "python3-pytest", "xdist": "python3-pytest-xdist", "pytest_timeout": "python3-pytest-timeout",
          "hypothesis": "python3-hypothesis"}
# The table of `make quick` (chosen.py).
TABLE = Path(__file__).with_name("executed.txt")
# The seed of random cases, where no other one is given.
SEED = 20261201
# The folders of tests, which pytest.ini has too.
FOLDERS = ("gate", "statement", "rust", "tests", "operations")
# The report's type of a test that fails as expected.
EXPECTED = "pytest.xfail"
# The exit statuses of pytest by which all chosen tests ran: none failed, or some did.
ENDED = (0, 1)
# How many passed, which failed, which were skipped for which reason.
Result = tuple[int, list[str], list[str]]


def line_of(name: str, why: str) -> str:
    """Return the line for something that was not tried, and the reason."""
    return f"{name}: NOT TRIED: {' '.join(why.split()) or 'no reason'}"


def missing() -> list[str]:
    """Return the packages whose modules Debian's Python does not find."""
    looks = "import importlib.util, sys; print(*(name for name in sys.argv[1:] if not importlib.util.find_spec(name)))"
    found = subprocess.run([PYTHON, "-c", looks, *NEEDED], capture_output=True, text=True, check=True)
    return [NEEDED[name] for name in found.stdout.split()]


def files(root: Path) -> list[str]:
    """Return the files of tests of the repository."""
    words = ["git", "ls-files", "-z", "--cached", "--others", "--exclude-standard", *FOLDERS]
    listed = subprocess.run(words, cwd=root, capture_output=True, check=True).stdout.decode().split("\0")
    return sorted(name for name in {*listed} if Path(name).match("test_*.py") and (root / name).is_file())


def command(words: Iterable[str], lanes: int) -> list[str]:
    """Return the command that runs the tests which these words choose, so many at a time."""
    own = ["-q", f"--numprocesses={lanes if lanes > 1 else 0}", f"--hypothesis-seed={SEED}"]
    return [PYTHON, "-m", "pytest", *own, *words]


def name_of(case: ElementTree.Element) -> str:
    """Return the name of a test in a report: its file and its own name."""
    return f"{case.get('file')}::{case.get('name')}"


def read(report: ElementTree.Element) -> Result:
    """Return the result that a report (JUnit XML) holds. A test that fails as expected passes."""
    cases = {name_of(case): case for case in report.iter("testcase")}
    failed = [name for name, case in cases.items() if any(child.tag in ("failure", "error") for child in case)]
    whys = {name: why for name, case in cases.items() if (why := case.find("skipped")) is not None}
    skipped = [line_of(name, why.get("message") or "") for name, why in whys.items() if why.get("type") != EXPECTED]
    return len(cases) - len(failed) - len(skipped), failed, skipped


def report_of(words: Iterable[str], folder: Path, lanes: int) -> tuple[int, ElementTree.Element]:
    """Run the tests that these words choose in a folder; return the status of pytest, and its report."""
    with tempfile.TemporaryDirectory(prefix="report-") as room:
        file = Path(room, "report.xml")
        settings = {name: value for name, value in os.environ.items() if name != "PROGRAM"}
        # (reports of this family have the files of tests)
        options = [f"--junit-xml={file}", "--override-ini=junit_family=xunit1"]
        status = subprocess.run([*command(words, lanes), *options], cwd=folder, env=settings, check=False).returncode
        return status, ElementTree.parse(file).getroot() if file.exists() else ElementTree.Element("testsuites")


def run(words: Iterable[str], folder: Path, lanes: int) -> Result:
    """Run the tests that these words choose in a folder, and return their result.

    A failure that stops pytest before its end (a module that cannot be imported, say) counts once.
    """
    words = [*words]
    if lacking := missing():
        return 0, [], [line_of(f"pytest {' '.join(words)}", f"there is no {' '.join(lacking)} here")]
    status, report = report_of(words, folder, lanes)
    passed, failed, skipped = read(report)
    if status not in ENDED or status and not failed:
        failed.append(f"pytest {' '.join(words)} ended with status {status}")
    return passed, failed, skipped


def noted(report: ElementTree.Element, executed: Path) -> str:
    """Return the lines of executed.txt: files of tests, their seconds, and the modules that are noted in a folder."""
    seconds: dict[str, float] = {}
    for case in report.iter("testcase"):
        file = name_of(case).partition("::")[0]
        seconds[file] = seconds.get(file, 0) + float(case.get("time", "0"))
    lines = []
    for file, total in sorted(seconds.items()):
        note = executed / file.replace("/", "%")
        modules = sorted({*note.read_text().split()}) if note.exists() else []
        lines.append(" ".join([file, f"{total:.1f}", *(module.partition(".")[2] for module in modules)]))
    return "".join(f"{line}\n" for line in lines)


def note(words: Iterable[str], folder: Path, lanes: int) -> None:
    """Run the tests that these words choose, and replace their lines of executed.txt."""
    with tempfile.TemporaryDirectory(prefix="executed-") as room:
        _, report = report_of([*words, f"--executed={room}"], folder, lanes)
        new = noted(report, Path(room))
    files_of_run = {line.split()[0] for line in new.splitlines()}
    old = TABLE.read_text().splitlines(keepends=True) if TABLE.exists() else []
    head = [line for line in old if line.startswith("#")]
    kept = [line for line in old if line not in head and line.split()[0] not in files_of_run]
    TABLE.write_text("".join([*head, *sorted([*kept, *new.splitlines(keepends=True)])]))


def main() -> int:
    """Run the tests that the arguments choose as the gate does; return the exit status."""
    words, lanes = sys.argv[1:], len(os.sched_getaffinity(0))
    if "--note" in words:
        note([word for word in words if word != "--note"], Path.cwd(), lanes)
        return 0
    passed, failed, skipped = run(words, Path.cwd(), lanes)
    print("".join(f"FAILED: {name}\n" for name in failed) + "".join(f"SKIPPED: {name}\n" for name in skipped), end="")
    print(f"{passed} passed, {len(failed)} failed" + f", {len(skipped)} skipped" * bool(skipped))
    return 1 if failed else 0


if __name__ == "__main__":
    sys.exit(main())
