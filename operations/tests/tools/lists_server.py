"""Serve the responses of a function by path: the documents of a state of a source, or faults."""
from __future__ import annotations

import time
from collections.abc import Callable, Sequence

from operations.tests.harness import server as harness
from operations.tests.harness.server import Answer, RawServer, Request
from tests.reading import crash_model

Answering = Callable[[str], tuple[int, str, bytes]]


class Server(RawServer):
    """Serve the results of `answer` by path: a status, a type and a body."""

    def __init__(self, answer: Answering) -> None:
        super().__init__(self.answered)
        self.answer, self.url = answer, self.base

    def answered(self, request: Request) -> Answer:
        """Return the server's response for the path."""
        status, kind, body = self.answer(request.path)
        return harness.answer(body, f"{status} Said", f"Content-Type: {kind}", then="close")


def serving(answer: Answering) -> Server:
    """Return a server that runs in `with`."""
    return Server(answer)


def documents_of(state: crash_model.State) -> Answering:
    """Return responses with the documents of a state."""
    texts = {path: text.encode() for path, text in crash_model.documents(state).items()}
    return lambda path: (
        200, "application/xml", texts[path]) if path in texts else (404, "text/plain", b"NoSuchDocument\n")


def always(status: int, body: bytes, kind: str = "text/plain") -> Answering:
    """Return one response for every path."""
    return lambda path: (status, kind, body)


def slow(seconds: float) -> Answering:
    """Return delayed responses."""

    def answer(path: str) -> tuple[int, str, bytes]:
        time.sleep(seconds)
        return 200, "application/xml", b"<a/>"

    return answer


def after(state: crash_model.State, lines: Sequence[tuple[int, str]]) -> crash_model.State:
    """Return a state after these lines, given with their moments."""
    for moment, line in lines:
        state = state.after(line, moment)[1]
    return state
