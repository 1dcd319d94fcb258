"""Test that VERSION has one number, and that all other places have the same."""

import re

from tests.program import ROOT

PLACES = {"CHANGELOG.md": r"(?m)^## \[(\d.*?)\]",
          "operations/install/rs_source.8": r"(?m)^This page is that of Ropepeach (\S+)\.$",
          "operations/ropepeach/__init__.py": r'(?m)^__version__ = "(.*)"$',
          "debian/changelog": r"\Aropepeach \((\S+)\)"}


def test_each_place_has_the_number() -> None:
    number = (ROOT / "VERSION").read_text()
    assert re.search(r"\A\d+\.\d+\.\d+\n\Z", number)
    for name, place in PLACES.items():
        found = re.search(place, (ROOT / name).read_text())
        assert (found and found[1]) == number.strip(), name
