"""Fixtures of the tests of the statement."""

import pytest

from tests.program import ROOT


@pytest.fixture(scope="session")
def headline() -> str:
    """Return the lines for every promise, the headline, and the promises that print words of it."""
    shared, first, *others = (ROOT / "statement" / "promises.txt").read_text().split("\n== ")
    printing = [each for each in others if f"elsewhere: {each.splitlines()[0]}: " in first]
    return "\n== ".join([shared, first, *printing])
