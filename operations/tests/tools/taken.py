"""Measure the memory of a run of the command per file."""
from __future__ import annotations

import os
import pathlib
import shutil
import subprocess
from collections.abc import Callable

from operations.tests import PYTHON
from operations.tests.mirror.mirrors import DIRECT
from operations.tests.tools.running import SECONDS
from tests.program import TOOLS

# The most bytes of memory per file, the numbers of files of the two compared folders, the most measurements.
MEMORY, COUNTS, TRIES = 300, (10_000, 40_000), 3
# A script that runs the command, and prints its peak memory in KiB.
MEASURED = """import re, sys
sys.path.insert(0, sys.argv.pop(1))
from ropepeach.cli.command import main
status = main()
print(re.search(r"VmHWM:\\s*(\\d+)", open("/proc/self/status").read())[1])
sys.exit(status)
"""


def most_memory(*words: object) -> int:
    """Return the peak memory of a run of the command, in bytes."""
    process = subprocess.run([PYTHON, "-c", MEASURED, str(TOOLS), *map(str, words)], stdout=subprocess.PIPE, text=True,
                             env=os.environ | DIRECT, timeout=SECONDS)
    assert process.returncode == 0
    return int(process.stdout.split()[-1]) * 1024


def small_files(path: str | os.PathLike[str], count: int) -> pathlib.Path:
    """Return a new folder of the files in the source of tests/disks/paged_disk.py."""
    folder = pathlib.Path(path)
    shutil.rmtree(folder, ignore_errors=True)
    folder.mkdir()
    for number in range(count):
        (folder / f"name{number:05}").write_bytes(b"abc")
    os.utime(folder / "name00000", (1_700_000_000, 1_700_000_000))
    return folder


def little(what: str, most: Callable[[int], int]) -> None:
    """Check the memory per file, by the peak memory of runs over these numbers of files.

    The system's share differs from run to run, so one of three measurements must be within MEMORY.
    """
    found: list[float] = []
    while len(found) < TRIES and min(found, default=MEMORY + 1) > MEMORY:
        few, many = map(most, COUNTS)
        found.append((many - few) / (COUNTS[1] - COUNTS[0]))
        print(f"{found[-1]:.0f} bytes of memory a file: {what}")
    assert min(found) <= MEMORY, found
