"""Read the processor time, children and memory of a process."""
from __future__ import annotations

import contextlib
import os
import pathlib
import re


def used_by(number: int) -> float:
    """Return the processor seconds of a process."""
    with contextlib.suppress(OSError):
        words = pathlib.Path(f"/proc/{number}/stat").read_text().rpartition(")")[2].split()
        return (int(words[11]) + int(words[12])) / os.sysconf("SC_CLK_TCK")
    return 0.0


def children_of(number: int) -> list[int]:
    """Return the child processes of a process."""
    with contextlib.suppress(OSError):
        return [int(word) for word in pathlib.Path(f"/proc/{number}/task/{number}/children").read_text().split()]
    return []


def most_memory(number: int) -> int:
    """Return the peak memory of a process in bytes."""
    with contextlib.suppress(OSError):
        found = re.search(r"VmHWM:\s*(\d+)", pathlib.Path(f"/proc/{number}/status").read_text())
        return int(found[1]) * 1024 if found else 0
    return 0
