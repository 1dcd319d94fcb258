"""`ropepeach collection` and `ropepeach grow`: several sources under one Source Description."""
from __future__ import annotations

import argparse

from ropepeach.cli import numbers


def add_option_of_jobs(parser: argparse.ArgumentParser) -> None:
    """Add the option --jobs: the number of sources that a command works on at once."""
    parser.add_argument("--jobs", type=numbers.count, default=32, metavar="N",
                        help="work on this many of several sources at once (32)")


def is_collection(text: str) -> bool:
    """Return whether an argument is the file of a collection, and no address."""
    return text.endswith(".toml")
