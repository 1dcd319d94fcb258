"""Read the tables of the tool, which are plain text: kit_words.txt and evidence.txt."""

from collections.abc import Iterable, Mapping
from pathlib import Path
from typing import Any

from rattle.tables import lines

HERE = Path(__file__).resolve().parent
LANGUAGE = "language."


class Wrong(Exception):
    """A line of a table is malformed, or does not agree with the repository."""


def rows(name: str, text: str | None = None) -> list[str]:
    """Return the lines of a table that are no comments."""
    return lines(text if text is not None else (HERE / name).read_text())


def kit_words(text: str | None = None) -> dict[str, str]:
    """Return the meanings of the kit's words."""
    return dict(line.split(": ", 1) for line in rows("kit_words.txt", text))


def faults_of_kit(promises: Iterable[Any], meanings: Mapping[str, str]) -> list[str]:
    """Return the words without a line, and the lines without a word."""
    reached = {word.label for promise in promises for word in promise.reach.kit}
    known = {word for word in meanings if not word.startswith(LANGUAGE)}
    without = [f"statement/kit_words.txt has no line for {word}" for word in sorted(reached - known)]
    return without + [f"statement/kit_words.txt has a line for {word}, which no promise reaches"
                      for word in sorted(known - reached)]
