"""Lines of a long run: the work ahead and its minutes, and every crate when it is done: `12 of 33 rs_plan 54 s`."""

import contextlib
import glob
import os
import re
import shutil
import subprocess
import threading
from collections.abc import Callable, Collection
from itertools import count
from pathlib import Path

from gate.edits import kit
from rattle.tables import lines

# The toolchain's line for a crate or its tests, after its other output on them.
DONE = re.compile(r"rt: (\w+)(: its tests are)? (proved|NOT PROVED|is kept)")
# The seconds of proofs, tests and the rest.
SECONDS = Path(__file__).with_name("seconds.txt")


def copied(root: Path, room: str, is_wanted: Callable[[str], bool]) -> Path:
    """Copy the wanted files of a repository, chosen by their paths, without ignored files; return the copy."""
    words = ["git", "ls-files", "-z", "--cached", "--others", "--exclude-standard"]
    listed = subprocess.run(words, cwd=root, capture_output=True, check=True).stdout.decode().split("\0")
    copy = Path(room, "copy")
    for name in filter(is_wanted, listed):
        if (root / name).is_file():
            (copy / name).parent.mkdir(parents=True, exist_ok=True)
            shutil.copy2(root / name, copy / name)
    return copy


def table() -> dict[str, int]:
    """Return seconds of a processor by name."""
    return {name: int(figure) for name, figure in map(str.split, lines(SECONDS.read_text()))}


def proving(processors: int, with_tests: bool = False) -> float:
    """Estimate the seconds of all proofs from nothing: at least those of the longest chain of crates."""
    known = table()
    return max(known["longest_chain_of_crates"], (known["proofs"] + known["tests"] * with_tests) / processors)


def announce(what: str, seconds: float, processors: int, log: Path) -> None:
    """Print the first two lines of a run."""
    duration = f"about {round(seconds / 60)} minutes" if seconds > 60 else "less than a minute"
    print(f"{what}\nThat takes {duration} on {processors} of the processors here, and less over kept work. "
          f"What the toolchain says goes to {log}.", flush=True)


def rt_ci(copy: str | Path, crates: Collection[str], log: str | Path,
          seconds: Callable[[str, str], float]) -> tuple[int, list[str], list[str]]:
    """Run the toolchain's gate in a copy of the repository; return the passed crates, and the failures.

    It prints a line for every crate. The toolchain's output goes to a log, and is shown after a failure. `seconds`
    returns those of a processor.
    """
    number, last = count(1), ""
    since: list[str] = []
    with open(log, "w") as output, subprocess.Popen([kit.RT, "ci"], cwd=copy, stdout=subprocess.PIPE, text=True,
                                                    stderr=subprocess.STDOUT, errors="replace") as process:
        for line in process.stdout or ():
            output.write(line)
            since.append(line)
            last = line if line.strip() else last
            if found := DONE.match(line):
                name, tests, result = found.groups()
                if result == "NOT PROVED":
                    print("".join(since), end="")
                figure = f"{seconds(name, 'tests' if tests else 'proofs'):.0f} s" if result == "proved" else result
                front = "the tests of" if tests else f"{next(number)} of {len(crates)}"
                print(f"{front} {name} {figure}", flush=True)
                since = []
    ended = re.fullmatch(r"(\d+) passed, (\d+) failed\n", last)
    if not process.returncode and ended and not int(ended[2]):
        print(last, end="")
        return int(ended[1]), [], []
    print("".join(since), end="")
    return 0, [f"rt ci ended with status {process.returncode}: {last.strip()} ({log} has all that it said)"], []


class Meter:
    """Measures the prover's processes below a folder once a second: the last second of a process is missed."""

    def __init__(self, folder: str | Path) -> None:
        self.folder, self.stop = os.path.realpath(folder), threading.Event()
        self.times: dict[tuple[str, str, str, str], float] = {}

    def __enter__(self) -> "Meter":
        threading.Thread(target=self.look_on, daemon=True).start()
        return self

    def __exit__(self, *_: object) -> None:
        self.stop.set()

    def look_on(self) -> None:
        """Measure all processes, until the meter is stopped."""
        while not self.stop.wait(1.0):
            for process in glob.glob("/proc/[0-9]*"):
                with contextlib.suppress(OSError):
                    self.look(process)

    def look(self, process: str) -> None:
        """Measure one process."""
        words = Path(f"{process}/cmdline").read_text(errors="replace").split("\0")
        folder = os.readlink(f"{process}/cwd") if "--crate-name" in words else ""
        if folder.startswith(self.folder):
            fields = Path(f"{process}/stat").read_text().rpartition(")")[2].split()
            kinds = {"tests": "--test" in words, "edits": "/edits-" in folder, "compiling": "--crate-checked" in words,
                     "proofs": True}
            # A process is known by its number and its start.
            key = (process, fields[19], words[words.index("--crate-name") + 1], next(filter(kinds.get, kinds)))
            self.times[key] = (int(fields[11]) + int(fields[12])) / os.sysconf("SC_CLK_TCK")

    def seconds(self, crate: str, kind: str) -> float:
        """Return the processor seconds of a crate's proofs, tests, edits or compilation."""
        return sum(seconds for key, seconds in [*self.times.items()] if key[2:] == (crate, kind))
