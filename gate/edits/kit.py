"""The Rattle kit's prover."""

import os
import re
import resource
import shutil
import subprocess
import sys
from dataclasses import dataclass
from functools import cache
from pathlib import Path

# The command of the kit, as the Makefile's RT names it.
RT = os.environ.get("RT", "rt")


@dataclass(frozen=True)
class Report:
    """The report of a check: its exit status, its text, and the seconds of a processor that it took."""

    status: int
    text: str
    seconds: float = 0.0

    @property
    def is_proved(self) -> bool:
        """Whether it ended well."""
        return self.status == 0


def require() -> None:
    """Ends the run in a line where there is no kit."""
    if not shutil.which(RT):
        sys.exit(f"there is no Rattle kit here (the command `{RT}`): a release has the built program (README.md)")


@cache
def folder() -> Path:
    """The kit's folder: that of the page that `rt doc` names."""
    finished = subprocess.run([RT, "doc"], capture_output=True, text=True, check=True)
    return Path(finished.stdout.strip()).parent


def identity() -> tuple[str, str]:
    """The kit's name, and the sum of the program logic that it proves in: several kits can have one logic."""
    output = subprocess.run([RT, "version"], capture_output=True, text=True, check=True).stdout
    name, logic = re.findall(r"\A(\S+) logic (\w+)\s*\Z", output)[0]
    return name, logic


def lanes() -> int:
    """Return the number of parallel checks: one a processor and 4 GB of free memory. None took more than 3.1 GB."""
    free = int(re.findall(r"MemAvailable:\s+(\d+)", Path("/proc/meminfo").read_text())[0])
    return max(1, min(len(os.sched_getaffinity(0)), free // 4_000_000))


def check(words: list[str], crate_folder: str | Path) -> Report:
    """Runs a check in a crate's folder."""
    none, pipe, same = subprocess.DEVNULL, subprocess.PIPE, subprocess.STDOUT
    with subprocess.Popen(words, cwd=crate_folder, errors="replace", stdin=none, stdout=pipe, stderr=same) as process:
        text = process.stdout.read() if process.stdout else ""
        _, status, usage = os.wait4(process.pid, 0)
        process.returncode = os.waitstatus_to_exitcode(status)
    return Report(process.returncode, text, usage.ru_utime + usage.ru_stime)


def used() -> float:
    """The seconds of a processor that the programs took which have ended."""
    return sum(resource.getrusage(resource.RUSAGE_CHILDREN)[:2])


def linked_copy(work: str | Path, to: str | Path) -> None:
    """A copy of kept work by links, which serve since the prover replaces files and never writes into one."""
    if os.path.isdir(work):
        shutil.copytree(work, to, copy_function=os.link)
    else:
        os.makedirs(to)
