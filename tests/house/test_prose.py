"""Test that the prose of the repository is plain technical English: few uses of some words in every kind of prose."""

from pathlib import Path

import pytest

from tests.house import prose
from tests.program import ROOT

# The most occurrences of `what`, of `each`, and of `stand, tell, beside, behind, anew` together, per 1,000 words. The
# aim is 3, 4 and 2 (for specs and proofs 6, 4 and 2): a limit above it only falls. No limit justifies a worse sentence.
LIMITS = {
    "pages": (3.0, 4.0, 2.0),
    "manual pages": (3.0, 4.0, 2.0),
    "docstrings of code": (3.0, 4.0, 2.0),
    "docstrings of tests": (3.0, 4.0, 2.0),
    "comments of code": (3.0, 4.0, 2.0),
    "comments of tests": (3.0, 4.0, 2.0),
    "comments of Rattle": (3.0, 4.0, 2.0),
    "comments of specs and proofs": (6.0, 4.0, 2.0),
}


def test_words_that_plain_english_seldom_needs_are_below_their_limits() -> None:
    found = prose.rates_of(ROOT)
    assert set(found) == set(LIMITS)
    above = {(kind, name): round(rate, 1) for kind, limits in LIMITS.items()
             for (name, rate), limit in zip(found[kind].items(), limits) if rate > limit}
    assert above == {}


@pytest.mark.parametrize(("name", "text", "wanted"), [
    ("a.py", '"""One."""\n# two\nx = "three"  # four\n',
     [("docstrings of code", "One."), ("comments of code", "two\nfour")]),
    ("tests/a.py", '"""One."""\n', [("docstrings of tests", "One."), ("comments of tests", "")]),
    ("a.md", "One `two` three.\n```\nfour\n```\n", [("pages", "One   three.\n\n")]),
    ("a.1", '.\\" one\n.Nd two\nthree\n', [("manual pages", ".Nd two\nthree")]),
    ("a.rt", "/// one\nlet x = 1; // two\n", [("comments of Rattle", "one\ntwo")]),
    ("a.antt", "-- one\nx = y\n", [("comments of specs and proofs", "one")]),
    ("a.txt", "one\n", []),
])
def test_prose_is_read_by_the_kind_of_its_file(name: str, text: str, wanted: list[tuple[str, str]]) -> None:
    assert [*prose.of_file(Path(name), text)] == wanted


def test_words_are_counted_per_thousand() -> None:
    found = prose.rates("What each of these files tells, and what is new, stands behind it. " + "word " * 87)
    assert found == {"what": 10, "each": 10, "stand, tell, beside": 30}
