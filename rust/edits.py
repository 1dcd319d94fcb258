"""The changes of a source: a list of edits, which can be undone."""
import enum
from collections.abc import Iterable
from dataclasses import dataclass


class Form(enum.Enum):
    """The reason of an edit."""
    GHOST = "a ghost item or field"
    CLAUSE = "a clause"
    TACTIC = "an attribute of the proofs"
    DERIVE = "a derive"
    FORMATTER = "the writer of a formatter"
    RUNTIME = "the runtime of `main` or of a test"
    WORD = "a word that Rust does without"
    NAME = "a name"
    PRELUDE = "the prelude of a module"


@dataclass(frozen=True)
class Edit:
    """At this place of the source, `old` becomes `new`. Both have as many line feeds."""
    at: int
    old: str
    new: str
    form: Form


class Refused(Exception):
    """A source has a form that the eraser does not know."""


def ordered(edits: Iterable[Edit]) -> list[Edit]:
    """Return the edits in their order. No two may overlap, and all keep the lines."""
    found = sorted(edits, key=lambda edit: (edit.at, len(edit.old)))
    end = 0
    for edit in found:
        if edit.at < end:
            raise Refused(f"two edits meet at {edit.at}: {edit.form.value}")
        if edit.old.count("\n") != edit.new.count("\n"):
            raise Refused(f"an edit at {edit.at} moves lines: {edit.form.value}")
        end = edit.at + len(edit.old)
    return found


def applied(text: str, edits: list[Edit]) -> str:
    """Return the source with its edits, which are in order."""
    pieces, at = [], 0
    for edit in edits:
        pieces += [text[at:edit.at], edit.new]
        at = edit.at + len(edit.old)
    return "".join([*pieces, text[at:]])


def undone(text: str, edits: list[Edit]) -> str:
    """Return the source from the result of `applied` and the edits. An edit that is not found there is refused."""
    pieces, at, moved = [], 0, 0
    for edit in edits:
        place = edit.at + moved
        if not text.startswith(edit.new, place):
            raise Refused(f"an edit at {edit.at} is not found again: {edit.form.value}")
        pieces += [text[at:place], edit.old]
        at = place + len(edit.new)
        moved += len(edit.new) - len(edit.old)
    return "".join([*pieces, text[at:]])
