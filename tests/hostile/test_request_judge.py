"""Tests of the judge of hostile requests: it rejects wrong rules and wrong responses.

The rounds of the search must show every wrong rule.
"""
import contextlib
import re
import urllib.parse
from collections.abc import Callable, Iterator
from contextlib import AbstractContextManager
from functools import cache
from typing import Any

import pytest

from tests.hostile import request_rounds
from tests.hostile.wrong_fronts import PUT, SHARED_RULES, Rules, pattern, rule
from tests.program import Differs
from tests.reading import front_model, request_heads, request_judge
from tests.reading.front_model import Refused, Source
from tests.reading.request_judge import Request

# The numbers of the tested rounds.
SEED, ROUNDS, NOW = 20261125, range(13), 951_782_400_001
LOOK, RESPONSE, DATE_OF = Request.look, request_judge.response, request_judge.date_of


def put_short(self: Source, name: str, kind: str, length: int, body: bytes | None, now: int) -> Any:
    """The server executes a put with an incomplete body, as an empty body."""
    return PUT(self, name, kind, length, b"" if body is None else body, now)


def short_first(self: Source, name: str, kind: str, length: int, body: bytes | None, now: int) -> Any:
    """The server checks first whether the body ends early."""
    if body is None:
        raise Refused("ShortBody")
    return PUT(self, name, kind, length, body, now)


def look_with(look: Callable[[Request], None], **wrong: object) -> Callable[[Request], None]:
    """Return the checks of a request with one replaced."""

    def looked(self: Request) -> None:
        with contextlib.ExitStack() as stack:
            for name, replacement in wrong.items():
                stack.enter_context(rule(Request, name, replacement))
            look(self)

    return looked


def lengths_first(self: Request) -> None:
    """The server checks the length before the rest of the head."""
    self.length()
    LOOK(self)


def hosts_for_all(self: Request) -> None:
    """Every version needs a Host field."""
    if not self.values(b"host") and len(self.fields) <= request_judge.MOST_FIELDS:
        raise Refused("BadHost")
    LOOK(self)


def no_host(self: Request) -> None:
    """No request needs a Host field."""
    self.fields = [*self.fields, (b"host", b"a")] if not self.values(b"host") else self.fields
    LOOK(self)


def distinct_values(self: Request, name: bytes) -> list[bytes]:
    """Equal values of a field count once."""
    return list(dict.fromkeys(value for field, value in self.fields if field.lower() == name))


def values_by_case(self: Request, name: bytes) -> list[bytes]:
    """The name of a field must have its usual case."""
    return [value for field, value in self.fields if field in (name, name.title())]


def values_as_they_are(self: Request, name: bytes, values: Any = Request.values) -> list[bytes]:
    """White space before a value belongs to it."""
    return [b" " + value for value in values(self, name)]


def method_first(self: Request, allowed: Any = Request.allowed) -> Any:
    """The server checks the method before the name."""
    if self.path.startswith(front_model.RESOURCE) and self.method not in request_judge.OF_RESOURCES:
        return request_judge.OF_RESOURCES
    return allowed(self)


def made_so(change: Callable[[Request], None]) -> AbstractContextManager[object]:
    """Change the reading of requests."""

    def made(self: Request, head: bytes, rest: bytes, make: Any = Request.__init__) -> None:
        make(self, head, rest)
        change(self)

    return rule(Request, "__init__", made)


def written_so(**wrong: object) -> AbstractContextManager[object]:
    """Change the writing of responses."""

    def written(status: int, date: str, kind: str, body: bytes, allowed: Any = (), is_head: bool = False) -> Any:
        arguments = {"status": status, "date": date, "kind": kind, "body": body, "allowed": allowed, "is_head": is_head}
        return RESPONSE(**{**arguments, **wrong})

    return rule(request_judge, "response", written)


def asks_any(self: Request, length: int, is_asked: Any = Request.waits) -> Any:
    """The server sends `100 Continue` for empty bodies too."""
    return is_asked(self, max(length, 1))


def waits_in_lists(self: Request, length: int) -> bool:
    """The server sends `100 Continue` also if it is one of several expectations."""
    return length > 0 and self.minor == 1 and any(b"100-continue" in value.lower() for value in self.values(b"expect"))


def waits_in_both(self: Request, length: int) -> bool:
    """The server sends `100 Continue` to HTTP/1.0 too."""
    return length > 0 and b"100-continue" in [value.lower() for value in self.values(b"expect")]


def fields_but_encodings(request: Request) -> list[tuple[bytes, bytes]]:
    """Return the fields without the transfer encodings."""
    return [field for field in request.fields if field[0].lower() != b"transfer-encoding"]


def with_length(status: int, *arguments: Any, **settings: Any) -> bytes:
    """A response without a body has a Content-Length."""
    found = RESPONSE(status, *arguments, **settings)
    return found.replace(b"\r\n\r\n", b"\r\nContent-Length: 0\r\n\r\n", 1) if status == 204 else found


def set_to(name: str, of: Callable[[Request], object]) -> Callable[[Request], None]:
    """Return a change of a part of a request."""
    return lambda request: setattr(request, name, of(request))


HEADS = request_heads
RULES: Rules = {
    "spaces between the parts of a first line": lambda: pattern(HEADS, "FIRST", b" ", b" +"),
    "HTTP/1.2": lambda: pattern(HEADS, "FIRST", b"[01]", b"[012]"),
    "no empty line first": lambda: pattern(HEADS, "FIRST", rb"(?:\r?\n)*", b""),
    "a DEL in a target": lambda: pattern(HEADS, "FIRST", rb"\x7e\x80", rb"\x7e\x7f\x80"),
    "targets of any bytes": lambda: rule(HEADS, "is_text", lambda data: True),
    "a space before a colon": lambda: pattern(HEADS, "FIELD", rb"):(", rb") ?:("),
    "folded lines": lambda: pattern(HEADS, "FIELD", rb"]*)", rb"]*(?:\r?\n[ \t][\t\x20-\x7e\x80-\xff]*)*)"),
    "lines that LF alone does not end": lambda: pattern(HEADS, "FIELD", rb"\r?\n", rb"\r\n"),
    "a NUL in a value": lambda: pattern(HEADS, "FIELD", rb"[\t", rb"[\0\t"),
    "values of ASCII alone": lambda: pattern(HEADS, "FIELD", rb"\x80-\xff", b""),
    "an @ in the name of a field": lambda: pattern(HEADS, "FIELD", rb"A-Z", rb"A-Z@"),
    "heads that CR LF CR LF alone ends": lambda: pattern(request_judge, "END", rb"\n\r?\n", rb"\r\n\r\n"),
    "heads of a byte less": lambda: rule(request_judge, "MOST_BYTES", 8_191),
    "heads of a byte more": lambda: rule(request_judge, "MOST_BYTES", 8_193),
    "31 fields": lambda: rule(request_judge, "MOST_FIELDS", 31),
    "33 fields": lambda: rule(request_judge, "MOST_FIELDS", 33),
    "no Host in HTTP/1.1": lambda: rule(Request, "look", no_host),
    "a Host in HTTP/1.0": lambda: rule(Request, "look", hosts_for_all),
    "lengths before encodings and hosts": lambda: rule(Request, "look", lengths_first),
    "no encodings": lambda: made_so(set_to("fields", fields_but_encodings)),
    "lengths of a PUT alone": lambda: rule(Request, "look", look_with(LOOK, length=lambda self: None)),
    "equal values are one": lambda: rule(Request, "values", distinct_values),
    "names of fields by their case": lambda: rule(Request, "values", values_by_case),
    "values with a space": lambda: rule(Request, "values", values_as_they_are),
    "lengths of 19 digits": lambda: pattern(request_judge, "LENGTH", b"18", b"19"),
    "lengths with a sign": lambda: pattern(request_judge, "LENGTH", b"[0-9]{1,18}", b"[+]?[0-9]{1,18}"),
    "methods without case": lambda: made_so(set_to("method", lambda request: request.method.upper())),
    "methods before names": lambda: rule(Request, "allowed", method_first),
    "schemes by their case": lambda: rule(request_judge, "SCHEME", re.compile(request_judge.SCHEME.pattern)),
    "a query is cut off": lambda: made_so(set_to("path", lambda request: request.path.split(b"?")[0])),
    "escapes are decoded": lambda: made_so(set_to("path", lambda request: urllib.parse.unquote_to_bytes(request.path))),
    "numbers of more than 64 bits": lambda: rule(request_judge, "is_document", front_model.DOCUMENT.fullmatch),
    "numbers with leading zeros": lambda: pattern(front_model, "DOCUMENT", rb"(0|[1-9][0-9]*)", rb"([0-9]+)"),
    "a word to go on in HTTP/1.0": lambda: rule(Request, "waits", waits_in_both),
    "a word to go on for no bytes": lambda: rule(Request, "waits", asks_any),
    "a word to go on in a list": lambda: rule(Request, "waits", waits_in_lists),
    "no word to go on": lambda: rule(request_judge, "CONTINUE", b""),
    "a body to HEAD": lambda: written_so(is_head=False),
    "no Allow": lambda: written_so(allowed=()),
    "Content-Length of 204": lambda: rule(request_judge, "response", with_length),
    "the type text/plain": lambda: rule(request_judge, "type_of", lambda text: "text/plain"),
    "short bodies that are kept": lambda: rule(Source, "put", put_short),
    "ShortBody before Full": lambda: rule(Source, "put", short_first),
    "dates of the next second": lambda: rule(request_judge, "date_of", lambda moment: DATE_OF(moment + 999)),
}


ALL_RULES = RULES | SHARED_RULES


@cache
def requests(number: int) -> tuple[Any, Any]:
    """Return the source before a round, and its requests."""
    trial = request_rounds.Round("", {}, "", SEED, number)
    return trial.source.state, trial.requests


def responses_of(number: int) -> Iterator[Any]:
    """Yield the responses to a round at a fixed clock, computed without a program; then the state."""
    state, made = requests(number)
    judge = request_judge.Judge(Source(state, request_rounds.SIZE))
    yield from (judge.answer(request.data, NOW) for request in made)
    yield judge.source.state


@cache
def right_responses(number: int) -> list[Any]:
    """Return the responses of the right rules in a round."""
    return list(responses_of(number))


def are_told() -> bool:
    """Return whether a round shows a difference between the present rules and the right ones."""
    return any(response != right for number in ROUNDS
               for response, right in zip(responses_of(number), right_responses(number)))


@pytest.fixture(scope="module", autouse=True)
def right_rules() -> None:
    """Compute the responses of the right rules first."""
    for number in ROUNDS:
        right_responses(number)


@pytest.mark.parametrize("name", ALL_RULES)
def test_the_requests_reject_a_wrong_rule(name: str) -> None:
    # (a rule that leads to a moment without a date shows by an exception)
    with ALL_RULES[name](), contextlib.suppress(OverflowError):
        assert are_told()


def test_the_requests_accept_the_right_rules() -> None:
    assert not are_told()


WANTED: bytes = RESPONSE(405, request_judge.date_of(NOW), "text/plain", b"BadMethod\n", ["GET", "HEAD"])
WRONG = {
    "a response that is cut": WANTED[:-1],
    "a byte too many": WANTED + b"\n",
    "no response": b"",
    "another status": WANTED.replace(b"405", b"404"),
    "another date": WANTED.replace(b"Tue, 29 Feb", b"Wed, 01 Mar"),
    "no date": re.sub(rb"Date: [^\r]*\r\n", b"", WANTED),
    "another order": re.sub(rb"(Connection: close\r\n)(.*?\r\n)\r\n", rb"\2\1\r\n", WANTED, flags=re.DOTALL),
    "LF alone": WANTED.replace(b"\r\n", b"\n"),
    "names in lower case": WANTED.replace(b"Content", b"content"),
}


@pytest.mark.parametrize("name", WRONG)
def test_the_judge_rejects_a_wrong_response(name: str) -> None:
    with pytest.raises(Differs):
        request_rounds.is_lost(WANTED, (WRONG[name], False))


def test_the_judge_accepts_the_right_response() -> None:
    assert not request_rounds.is_lost(WANTED, (WANTED, True))
