"""Measure a publication that drops the whole Change List.

A disk has 50,000 changes at an item limit of 2 and no publication: the first publication drops nothing, as no earlier
one exists, and the second drops 25,000 parts. One open source on a file in the folder ROOM makes both, five times over.
The memory of the source is measured before and after them.

usage: python3 -m bench.dropping [PROGRAM]     default: the built program
"""
import os
import statistics
import sys
import tempfile
import time
from pathlib import Path
from typing import Any

from bench.asked import Asked
from tests.disks import made_disks
from tests.program import PROGRAM

TIMES = 5


def timed(source: Asked, line: str, answer: str) -> float:
    """Return the seconds until the answer to a line, which must begin with `answer`."""
    began = time.perf_counter()
    response = source.ask(line)
    seconds = time.perf_counter() - began
    if not response.startswith(answer):
        raise SystemExit(f"{line}: {response.strip()}, and not {answer}")
    return seconds


def once(program: str, file: str) -> tuple[float, float, int, int]:
    """Return the seconds of publications that drop nothing and everything, and the memory before and after both."""
    disks: dict[str, Any] = made_disks.DISKS
    Path(file).write_bytes(disks["most_changes"]())
    source = Asked(program, file)
    before = source.resident()
    none, every = timed(source, "publish", "published 1"), timed(source, "publish", "published 2")
    status, after = source.ask("status"), source.resident()
    if "changes 0 " not in status:
        raise SystemExit(f"not all were dropped: {status.strip()}")
    source.end()
    return none, every, before, after


def main() -> None:
    """Print the medians."""
    program = sys.argv[1] if sys.argv[1:] else str(PROGRAM)
    with tempfile.TemporaryDirectory(dir=os.environ.get("ROOM")) as room:
        rows = [once(program, f"{room}/{i}.disk") for i in range(TIMES)]
    none, every, before, after = (statistics.median(column) for column in zip(*rows))
    print(f"drops nothing {1000 * none:.2f} ms, drops 25,000 parts {1000 * every:.2f} ms: {every / none:.2f} times")
    print(f"resident {before >> 10} KiB before, {after >> 10} KiB after")


if __name__ == "__main__":
    main()
