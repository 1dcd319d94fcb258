"""Numbers of a random search: of how many cases, with which seed, and in which parts."""

import itertools
import os
from collections.abc import Iterator, Sequence

import pytest

# A search has so many parts, which pytest-xdist runs side by side.
PARTS = 8
in_parts = pytest.mark.parametrize("part", range(PARTS))


def number(config: pytest.Config, name: str, short: int, long: int) -> int:
    """Return the number that the environment names, else that of the long form with --long, else the short one."""
    return int(os.environ.get(name) or (long if config.getoption("--long") else short))


def seed(default: int) -> int:
    """Return the seed that SEED names."""
    return int(os.environ.get("SEED") or default)


def case_alone(part: int) -> int | None:
    """Return the number of the case that CASE repeats, in the first part; skip the others."""
    if not (case := os.environ.get("CASE")):
        return None
    if part:
        pytest.skip("CASE repeats one case, in the first part")
    return int(case)


def cases(count: int, part: int, parts: int = PARTS) -> Sequence[int]:
    """Return the numbers of the cases of one part."""
    alone = case_alone(part)
    return range(part * count // parts, (part + 1) * count // parts) if alone is None else [alone]


def numbers(part: int) -> Iterator[int]:
    """Yield the numbers of the cases of one part, without end."""
    alone = case_alone(part)
    return itertools.count(part, PARTS) if alone is None else iter([alone])


def report(faults: Sequence[str], most: int = 20) -> None:
    """Fail with the first faults, if there are any."""
    if faults:
        pytest.fail(f"{len(faults)} wrong:\n" + "\n".join(faults[:most]), pytrace=False)
