"""Serve an empty source in Python that keeps put resources."""
from __future__ import annotations

from operations.tests.harness.server import Answer, Request
from operations.tests.tools.hostile_source import Liar, answered


class Taking(Liar):
    """A source that is empty at first, accepts PUT and publications, and keeps the bodies."""

    def __init__(self) -> None:
        super().__init__()
        self.resources([])
        self.put: dict[str, bytes] = {}
        self.published = b"published 2 2000-02-29T00:00:00.002Z\n"

    def answer(self, request: Request) -> Answer:
        """Return the response to a request, and keep the body of a PUT."""
        if request.method == "PUT":
            self.put[request.path.removeprefix("/resource/")] = request.body
            return Answer([answered(b"created\n", "201 Created")], "close")
        if request.path == "/publish":
            return Answer([answered(self.published, fields="X: y\r\n")], "close")
        return super().answer(request)
