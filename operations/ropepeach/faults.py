"""Errors that end a command early: lines for the user, and the exit status."""
from __future__ import annotations

import os

from ropepeach.cli.statuses import Status


def printable(text: object) -> str:
    """Return a text as one line, with `?` for unprintable characters: control characters and line feeds."""
    return "".join(character if character.isprintable() else "?" for character in str(text))


class Fault(Exception):
    """A run that ends early; its work so far is kept. The arguments are lines."""

    status: int = Status.ENDED_EARLY

    def __str__(self) -> str:
        return "\n".join(self.lines())

    def lines(self) -> list[str]:
        """Return the lines for the user, made printable: they may quote input."""
        return [printable(line) for line in self.args]


class Misused(Fault):
    """Invalid arguments."""

    status = Status.MISUSED


class Unusable(Fault):
    """An unusable file or folder."""

    status = Status.UNUSABLE


class Silent(Fault):
    """An address that did not respond."""


class Slow(Fault):
    """A response that took too long."""


class Long(Fault):
    """A response longer than the caller's limit."""


def lines_of(why: BaseException) -> list[str]:
    """Return the lines that explain the end of a run."""
    if isinstance(why, OSError) and why.filename is not None and why.strerror:
        return [printable(f"{os.fsdecode(why.filename)}: {why.strerror}")]
    return why.lines() if isinstance(why, Fault) else [printable(why)]

