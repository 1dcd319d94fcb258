"""Serve HTTP, one request at a time: send the response of a function, whole or cut, or close the connection."""
from __future__ import annotations

from collections.abc import Callable
from typing import NamedTuple

from operations.tests.harness import server
from operations.tests.harness.server import CLOSE, RawServer, Request


class Answer(NamedTuple):
    """A response. `length` is Content-Length if that differs from the body's; `is_cut` then closes the connection."""

    status: int
    body: bytes = b""
    kind: str = "application/xml"
    fields: str = ""
    length: int | None = None
    is_cut: bool = False

    def text(self, is_head: bool) -> bytes:
        """Return the bytes of the response."""
        length = len(self.body) if self.length is None else self.length
        size = "" if self.status == 204 else f"Content-Length: {length}\r\n"
        head = f"HTTP/1.1 {self.status} Said\r\nContent-Type: {self.kind}\r\n{size}{self.fields}\r\n"
        return head.encode("latin-1") + (b"" if self.status == 204 or is_head else self.body)


# A function that answers requests: None closes the connection without a response.
Answering = Callable[[Request], Answer | None]


class MadeUpSource(RawServer):
    """A server by a function; `stays` keeps connections open."""

    def __init__(self, answer: Answering) -> None:
        super().__init__(self.answered)
        self.answer, self.stays = answer, False

    def answered(self, request: Request) -> server.Answer:
        """Return the bytes of the response."""
        with self.lock:
            found = self.answer(request)
        if found is None:
            return CLOSE
        stays = self.stays and not found.is_cut
        fields = found.fields + ("" if stays else "Connection: close\r\n")
        return server.Answer([found._replace(fields=fields).text(request.method == "HEAD")],
                             "keep" if stays else "close")
