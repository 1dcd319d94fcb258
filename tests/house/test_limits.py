"""Test that the table of limits agrees with the code."""

import dataclasses

import pytest

from tests.house import limits


@pytest.fixture
def figures() -> dict[limits.Limit, str]:
    """Return the figures of all limits in the code."""
    return {limit: limit.figures() for limit in limits.LIMITS}


def test_the_table_is_made_from_the_code(figures: dict[limits.Limit, str]) -> None:
    part = limits.MADE.part_of(limits.PAGE.read_text())
    assert part.rstrip("\n") == limits.drawn(figures), "python3 -m tests.house.limits --write"


def test_each_limit_that_changes_is_seen_in_the_table(figures: dict[limits.Limit, str]) -> None:
    for limit, figure in figures.items():
        assert limits.drawn({**figures, limit: f"{figure}0"}) != limits.drawn(figures)


def test_a_limit_that_the_code_does_not_tell_is_refused() -> None:
    with pytest.raises(ValueError):
        dataclasses.replace(limits.LIMITS[0], pattern=r"FEWEST_ITEMS: usize = (\S+);").figures()
