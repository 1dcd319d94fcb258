"""Types of arguments for argparse: times, counts, sizes in bytes, ports."""
from __future__ import annotations

import argparse
import re
from collections.abc import Callable

from ropepeach.disk.formula import LONGEST_BODY, MOST_CHANGES

# The units of sizes: `M` is `MiB`, and `MB` is decimal.
UNITS = {"": 1, "KiB": 1 << 10, "MiB": 1 << 20, "GiB": 1 << 30, "KB": 10**3, "MB": 10**6, "GB": 10**9}
MOST_PORT, MOST_CONNECTIONS, MOST_NUMBER = 65_535, 64, 999_999_999
DECIMAL = re.compile(r"[0-9]{1,6}(\.[0-9]{1,6})?")


def between(least: int, most: int, rule: str) -> Callable[[str], int]:
    """Return the type of whole numbers from `least` to `most`, and the rule that the message names."""

    def parsed(text: str) -> int:
        """Parse a number within the bounds."""
        if not re.fullmatch(r"[0-9]{1,9}", text) or not least <= int(text) <= most:
            raise argparse.ArgumentTypeError(f"{text!r}: {rule}")
        return int(text)

    return parsed


number = between(0, MOST_NUMBER, f"a number is 0 to {MOST_NUMBER:,}")
count = between(1, MOST_NUMBER, f"a number is 1 to {MOST_NUMBER:,}")
any_port = between(0, MOST_PORT, f"a port is 0 to {MOST_PORT}")
port = between(1, MOST_PORT, f"a port is 1 to {MOST_PORT}")
connections = between(1, MOST_CONNECTIONS, f"connections are 1 to {MOST_CONNECTIONS}")
change_count = between(0, MOST_CHANGES, f"a source keeps 0 to {MOST_CHANGES:,} changes")


def seconds(text: str) -> float:
    """Parse a time: 0 to a million seconds."""
    if not DECIMAL.fullmatch(text):
        raise argparse.ArgumentTypeError(f"{text!r} is no number of seconds")
    return float(text)


def positive(text: str) -> float:
    """Parse a number above 0, such as an age in days."""
    if not DECIMAL.fullmatch(text) or not float(text) > 0:
        raise argparse.ArgumentTypeError(f"{text!r} is no number above 0")
    return float(text)


def size(text: str) -> int:
    """Parse a number of bytes, as 921698304, 879M, 879MiB or 5GB."""
    parts = re.fullmatch(r"([0-9]{1,18})([KMG]i?B|[KMG])?", text)
    if not parts:
        raise argparse.ArgumentTypeError(f"{text!r} is no size, as 921698304, 879M, 879MiB or 5GB")
    unit = parts[2] or ""
    return int(parts[1]) * UNITS[f"{unit}iB" if len(unit) == 1 else unit]


def body_size(text: str) -> int:
    """Parse the size of a body."""
    if size(text) > LONGEST_BODY:
        raise argparse.ArgumentTypeError(f"{text!r}: a body has 0 to {LONGEST_BODY:,} bytes")
    return size(text)


def rate(text: str) -> int:
    """Parse a rate in bytes a second: at least 1."""
    if size(text) < 1:
        raise argparse.ArgumentTypeError(f"{text!r} is less than 1 byte a second")
    return size(text)
