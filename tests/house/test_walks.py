"""Test that the crates in the walks of docs/ARCHITECTURE.md have the functions that the walks name."""

import functools
import re
from pathlib import Path

from rattle import code

ROOT = Path(__file__).resolve().parents[2]
PAGE = ROOT / "docs" / "ARCHITECTURE.md"
# A line of a walk: a crate, and its functions.
STEP = re.compile(r"^ (rs_\w+) +([a-z_]+(?:, [a-z_]+)*)$")


def steps(text: str) -> list[tuple[str, list[str]]]:
    """Return the lines of all walks of a page: crates with their functions."""
    walks = text.partition("\n## Three walks\n")[2].partition("\n## ")[0]
    found = [STEP.match(line) for block in walks.split("```")[1::2] for line in block.strip("\n").splitlines()]
    return [(step[1], step[2].split(", ")) for step in found if step]


@functools.cache
def functions_of(crate: Path) -> set[str]:
    """Return the functions of a crate's source."""
    return {found.name for file in crate.glob("src/**/*.rt") for found in code.functions_of(file.read_text())}


def missing(text: str) -> list[str]:
    """Return the functions that the walks of a page name, but their crates do not have."""
    return [f"{crate}: {name}" for crate, names in steps(text) for name in names
            if name not in functions_of(ROOT / "crates" / crate)]


def test_each_function_stands_in_its_crate() -> None:
    assert missing(PAGE.read_text()) == []


def test_each_line_of_a_walk_is_read() -> None:
    text = PAGE.read_text().partition("\n## Three walks\n")[2].partition("\n## ")[0]
    assert len(steps(PAGE.read_text())) == text.count("\n rs_")
    assert text.count("```") == 6


def test_a_function_that_moved_is_noticed() -> None:
    wrong = PAGE.read_text().replace("put_from, accept_put", "put_from, moment_of_put", 1)
    assert missing(wrong) == ["rs_store: moment_of_put"]
