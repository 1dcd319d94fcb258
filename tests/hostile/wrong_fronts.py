"""Wrong rules of names, types, moments and lists, which both scripts and requests must show.

A program that breaks a rule answers like the independent reading with a wrong rule. The tests put every wrong rule into
that reading; the first scripts or rounds of the search must show the difference (test_line_judge.py,
test_request_judge.py).
"""
import dataclasses
import re
from collections.abc import Callable
from contextlib import AbstractContextManager
from typing import Any
from unittest import mock

from tests.reading import crash_model, front_model
from tests.reading.crash_model import State
from tests.reading.front_model import Source

Rules = dict[str, Callable[[], AbstractContextManager[object]]]
LAWFUL, PUT, DELETE, DOCUMENTS = front_model.is_lawful, Source.put, Source.delete, crash_model.documents


def rule(of: object, name: str, wrong: object) -> AbstractContextManager[object]:
    """Replace a rule by a wrong one."""
    return mock.patch.object(of, name, wrong)


def pattern(of: object, name: str, old: bytes, new: bytes) -> AbstractContextManager[object]:
    """Replace a part of a pattern of a module."""
    expression = getattr(of, name)
    if old not in expression.pattern:
        raise ValueError(f"{name} has no {old!r}")
    return rule(of, name, re.compile(expression.pattern.replace(old, new), expression.flags))


def more_bytes(kind: Any, shortest: int, longest: int, text: bytes) -> Any:
    """A text may have one byte more."""
    return LAWFUL(kind, shortest, longest + 1, text)


def kept_moment(self: Source, name: str, now: int) -> Any:
    """A refused delete uses up a moment."""
    if name not in self.state.held:
        self.become(dataclasses.replace(self.state, last=self.moment(now)))
    return DELETE(self, name, now)


def equal_puts(self: Source, name: str, kind: str, length: int, body: bytes, now: int) -> Any:
    """A put of an equal resource changes nothing."""
    resource = self.state.held.get(name)
    if resource and body == resource[0] and kind == resource[1].kind:
        return f"updated {crash_model.moment_text(resource[1].moment)}"
    return PUT(self, name, kind, length, body, now)


def chunks_with_an_empty_one(items: Any, limit: int) -> list[Any]:
    """The last part of a list of resources may be empty; changes are split by the right rule."""
    end = len(items) + (len(items) > limit and isinstance(items[0], str))
    return [items[at : at + limit] for at in range(0, end, limit)]


def chunks_of_one_more(items: Any, limit: int) -> list[Any]:
    """A part has one entry more than the limit."""
    return [items[at : at + limit + 1] for at in range(0, len(items), limit + 1)]


def by_any_number(self: Source, path: bytes, document: Any = Source.document) -> Any:
    """The parts of all publications remain."""
    return document(self, re.sub(rb"^/resourcelist/[0-9]+/", b"/resourcelist/%d/" % self.state.number, path))


def held_documents(state: State) -> Any:
    """The Resource List has the present resources instead of the published ones."""
    return DOCUMENTS(dataclasses.replace(state, listed=state.entries()))


def dropped_too_soon(state: State) -> int:
    """A publication drops the parts that end before itself, not only those before the previous publication."""
    return len(state.changes) // state.limit


def parts_numbered_anew(state: State) -> Any:
    """The first remaining part gets the number 0 again."""
    return DOCUMENTS(dataclasses.replace(state, first=0))


def begun_at_the_start(state: State) -> Any:
    """The Change List keeps its first start after parts were dropped."""
    return DOCUMENTS(dataclasses.replace(state, begin=0))


def last_changes(state: State) -> Any:
    """The list keeps only the later of two changes of a resource."""
    latest = {change.name: change for change in state.changes}
    return DOCUMENTS(dataclasses.replace(state, changes=tuple(latest.values())))


SHARED_RULES: Rules = {
    "names and types have one byte more": lambda: rule(front_model, "is_lawful", more_bytes),
    "names have dots": lambda: pattern(front_model, "NAME", rb"(?!\.{1,2}(?:/|\Z))", b""),
    "names have a percent sign alone": lambda: pattern(front_model, "NAME", rb"@]", rb"@%]"),
    "names have no percent sign": lambda: pattern(front_model, "NAME", rb"|%[0-9A-Fa-f]{2}", b""),
    "types have tokens alone": lambda: pattern(front_model, "TYPE", rb"(?:[\x20-\x7e]*[\x21-\x7e])?", b""),
    "moments come as the clock has them": lambda: rule(Source, "moment", lambda self, now: now),
    "a refused command uses up a moment": lambda: rule(Source, "delete", kept_moment),
    "equal puts are no change": lambda: rule(Source, "put", equal_puts),
    "a part of one item more": lambda: rule(crash_model, "chunks", chunks_of_one_more),
    "an empty last part of the Resource List": lambda: rule(crash_model, "chunks", chunks_with_an_empty_one),
    "parts of each publication stay": lambda: rule(Source, "document", by_any_number),
    "what is held is listed": lambda: rule(crash_model, "documents", held_documents),
    "the last change of each resource is kept": lambda: rule(crash_model, "documents", last_changes),
    "no part is dropped": lambda: rule(State, "dropped_parts", lambda state: 0),
    "parts are dropped too soon": lambda: rule(State, "dropped_parts", dropped_too_soon),
    "parts are numbered anew": lambda: rule(crash_model, "documents", parts_numbered_anew),
    "the Change List begins at the start for ever": lambda: rule(crash_model, "documents", begun_at_the_start),
    "an ampersand alone is escaped": lambda: rule(crash_model, "REFERENCES", {"&": "&amp;"}),
}
