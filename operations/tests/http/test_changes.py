"""`Sending` does not repeat a change that the source has executed without a response."""
from __future__ import annotations

import itertools
import threading
import time
from collections.abc import Iterator
from types import SimpleNamespace
from typing import Any

import pytest

from operations.tests.harness.server import CLOSE, RESET, Answer, RawServer, Request, answer
from ropepeach.faults import Fault, Silent
from ropepeach.fill.send import MOST_GROUPED, PutOrDelete, Sending
from ropepeach.http.client import Client

TYPE = "text/plain"
NOT_HELD = answer(b"NotHeld\n", "404 Not Found", f"Content-Type: {TYPE}")
SMALL, LARGE = PutOrDelete("a", b"new", TYPE), PutOrDelete("a", b"x" * 100_000, TYPE)
EMPTY, DELETION = PutOrDelete("a", b"", TYPE), PutOrDelete("b")
GROUP = [PutOrDelete(f"g{number}", b"%d" % number, TYPE) for number in range(MOST_GROUPED - 1)] + [DELETION]


class FakeSource:
    """A source of resources in memory. Its first changes get the answers `lost`, and are executed or not."""

    def __init__(self, lost: list[Answer], is_taken: bool) -> None:
        self.lost, self.is_taken, self.publications = lost, is_taken, 0
        self.bodies = {"a": b"old", "b": b"deleted"}
        self.lock = threading.Lock()

    def answer(self, request: Request) -> Answer:
        """Answer a request."""
        with self.lock:
            name = request.path.rpartition("/")[2]
            if request.method == "GET":
                return answer(self.bodies[name], "200 OK", f"Content-Type: {TYPE}") if name in self.bodies else NOT_HELD
            lost = self.lost.pop(0) if self.lost else None
            if lost is None or self.is_taken:
                self.take(request, name)
            return lost or answer(b"published 1 2\n" if name == "publish" else b"",
                                  "200 OK" if request.method == "POST" else "204 No Content")

    def take(self, request: Request, name: str) -> None:
        """Execute a change."""
        if name == "publish":
            self.publications += 1
        elif name == "group":
            for line in request.body.decode().splitlines():
                word, of, *body = line.split(" ")
                self.bodies.pop(of, None) if word == "delete" else self.bodies.update({of: bytes.fromhex(body[0])})
        elif request.method == "PUT":
            self.bodies[name] = request.body
        else:
            self.bodies.pop(name)


def sending(server: RawServer, made_up: FakeSource, patience: float = 20) -> Sending:
    """Return a `Sending` to a server."""
    source: Any = SimpleNamespace(client=Client(server.base, patience),
                                  published_at=lambda: "2" if made_up.publications else "1")
    return Sending(source, "1", True)


def changes_of(server: RawServer) -> list[tuple[str, str]]:
    """Return the requests that change something."""
    return [(request.method, request.path) for request in server.requests if request.method != "GET"]


@pytest.mark.parametrize("changes", [[SMALL], [LARGE], [EMPTY], [DELETION], GROUP])
@pytest.mark.parametrize("lost", [CLOSE, RESET, answer(b"", "502 Bad Gateway"), answer(b"", "504 Timeout"),
                                  Answer([b"HTTP/1.1 204 No Con"], "close")])
@pytest.mark.parametrize(("is_open", "is_taken"), itertools.product([False, True], repeat=2))
def test_change_without_an_answer_is_looked_for(changes: list[PutOrDelete], lost: Answer, is_open: bool,
                                                is_taken: bool) -> None:
    """A change that the source has executed is not sent again; another one is."""
    made_up = FakeSource([lost], is_taken)
    with RawServer(made_up.answer) as server:
        sender = sending(server, made_up)
        if is_open:
            sender.ask("GET", "/resource/a")
        for change in changes:
            sender.add(change)
        sender.flush()
        assert len(changes_of(server)) == (1 if is_taken else 2)
        assert (sender.put, sender.deleted) == (sum(change.body is not None for change in changes),
                                                sum(change.body is None for change in changes))
        for change in changes:
            assert made_up.bodies.get(change.name) == change.body


@pytest.mark.parametrize("is_taken", [False, True])
def test_publication_without_an_answer_is_looked_for(is_taken: bool) -> None:
    made_up = FakeSource([CLOSE], is_taken)
    with RawServer(made_up.answer) as server:
        sender = sending(server, made_up)
        sender.publish()
        assert (made_up.publications, sender.at) == (1, "2")
        assert changes_of(server) == [("POST", "/publish")] * (1 if is_taken else 2)


def test_changes_without_answers_end_with_the_patience_after_growing_pauses() -> None:
    made_up = FakeSource([answer(b"", "502 Bad Gateway")] * 1_000, False)
    with RawServer(made_up.answer) as server:
        started = time.monotonic()
        with pytest.raises(Silent, match="PUT .*/resource/a: no answer: 502 Bad Gateway"):
            sending(server, made_up, 1).send(SMALL)
        assert 0.9 < time.monotonic() - started < 4
        assert 3 <= len(changes_of(server)) <= 7


def test_source_that_is_gone_ends_a_change() -> None:
    def answers(request: Request) -> Answer:
        return CLOSE

    with RawServer(answers) as server:
        with pytest.raises(Silent, match="GET .*/resource/a: no answer for 0.5 seconds"):
            sending(server, FakeSource([], False), 0.5).send(SMALL)
        assert changes_of(server) == [("PUT", "/resource/a")]


@pytest.mark.parametrize("seconds", ["", "1"])
def test_change_waits_as_a_proxy_asks(seconds: str) -> None:
    """A proxy that responds 429 has not forwarded the request."""
    made_up = FakeSource([answer(b"", "429 Too Many Requests", f"Retry-After: {seconds}")] * 2, False)
    with RawServer(made_up.answer) as server:
        sending(server, made_up).send(SMALL)
        first, second, third = (request.moment for request in server.requests)
        assert second - first >= float(seconds or 0.05) and third - second >= float(seconds or 0.1)


def test_change_that_is_sent_too_fast_for_the_whole_patience_is_refused() -> None:
    made_up = FakeSource([answer(b"", "429 Too Many Requests")] * 1_000, False)
    with RawServer(made_up.answer) as server, pytest.raises(Fault, match="was refused: 429 Too Many Requests"):
        sending(server, made_up, 0.5).send(SMALL)


def test_body_that_grew_meanwhile_is_another_one() -> None:
    """After another client's put of a longer body, the change was not made or is no longer there."""
    def answers() -> Iterator[Answer]:
        yield CLOSE
        yield answer(b"new and longer", "200 OK", f"Content-Type: {TYPE}")
        yield answer(b"", "204 No Content")

    left = answers()
    with RawServer(lambda _: next(left)) as server:
        sending(server, FakeSource([], False)).send(SMALL)
        assert changes_of(server) == [("PUT", "/resource/a")] * 2
