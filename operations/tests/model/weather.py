"""Simulate the responses of a source: correct or wrong, at once or late, with or without changes meanwhile."""
from __future__ import annotations

import random
import time
from collections.abc import Callable

from operations.tests.harness.server import Request
from operations.tests.model.histories import History
from operations.tests.model.made_up_source import Answer
from tests.reading import crash_model

# The probability that a request fails, by weather; in `moving` it is 0, but the source changes.
FAULTS = {"calm": 0.0, "moving": 0.0, "unsettled": 0.04, "stormy": 0.2, "cached": 0.2, "gone": 0.0,
          "killing": 0.02}
STATUSES = [400, 401, 403, 404, 404, 410, 429, 500, 500, 501, 502, 503, 503, 504, 507]
WRONG = [b"", b"<html><body>Error</body></html>\n", b"NoSuchDocument\n"]


def served(state: crash_model.State, path: str) -> Answer | None:
    """Return the response for a path in a state of the source, or None."""
    if path.startswith("/resource/"):
        body = state.held.get(path.removeprefix("/resource/"), (None,))[0]
        return None if body is None else Answer(200, body, "a/b")
    text = crash_model.documents(state).get(path)
    return None if text is None else Answer(200, text.encode())


class Weather:
    """Responses of a source. `faults` counts the wrong ones; `has_lied` is true once a response was too old."""

    def __init__(self, history: History, rng: random.Random) -> None:
        self.history, self.rng, self.name = history, rng, "calm"
        self.faults, self.requests, self.end, self.has_lied = 0, 0, -1, False
        self.kill: Callable[[], None] = lambda: None

    def calm(self) -> None:
        """Answer correctly from now on, and make no more changes."""
        self.name = "calm"

    def change(self) -> None:
        """Draw new weather."""
        self.name = self.rng.choice(["calm", "calm", "moving", "moving", "unsettled", "unsettled", "stormy",
                                     "cached", "cached", "gone", "killing"])

    def begin(self, kill: Callable[[], None]) -> None:
        """Prepare a run. In some weather it is killed at a request, or the source goes down after one."""
        self.requests, self.faults, self.kill = 0, 0, kill
        self.end = self.rng.randrange(1, 25) if self.name in ("gone", "killing") else -1

    def answer(self, request: Request) -> Answer | None:
        """Return the response to a request."""
        self.requests += 1
        if self.requests == self.end and self.name == "killing":
            self.kill()
            return None
        if self.requests >= self.end > 0 and self.name == "gone":
            self.faults += 1
            return self.rng.choice([None, Answer(503), Answer(502, b"<html>")])
        if self.name != "calm" and self.rng.random() < 0.3:
            self.history.advance()
        if self.rng.random() < FAULTS[self.name]:
            self.faults += 1
            return self.older(request) if self.name == "cached" else self.wrong(request)
        answer = self.right(request)
        if self.name != "calm" and self.rng.random() < 0.05:
            # A late response: the source has changed meanwhile.
            time.sleep(0.003)
            self.history.advance()
        return answer

    def right(self, request: Request) -> Answer:
        """Return the correct response."""
        return served(self.history.state, request.path) or Answer(404, b"NoSuchDocument\n", "text/plain")

    def older(self, request: Request) -> Answer:
        """Return the response of an earlier state, as from a cache."""
        self.has_lied = True
        state = self.rng.choice(self.history.states[-8:])
        return served(state, request.path) or self.right(request)

    def wrong(self, request: Request) -> Answer | None:
        """Return a wrong response."""
        right, what = self.right(request), self.rng.choice(["cut", "short", "older", "older", "other",
                                                            "status", "status", "none", "moved", "partial",
                                                            "space", "space"])
        if what == "cut":
            return right._replace(body=right.body[: self.rng.randrange(len(right.body) + 1)],
                                  length=len(right.body) + 1, is_cut=True)
        if what == "short":
            return right._replace(body=right.body[: self.rng.randrange(len(right.body) + 1)])
        if what == "older":
            return self.older(request)
        if what == "space":
            # A document of another kind, with unknown words in Sitemap 0.9 or ResourceSync.
            space = self.rng.choice([b"sitemap/0.9", b"rs/terms"])
            return right._replace(body=right.body.replace(space, self.rng.choice([b"sitemap/0.8", b"", space.upper()])))
        if what == "other":
            return right._replace(body=self.other(right.body))
        if what == "status":
            body = self.rng.choice([*WRONG, right.body, self.older(request).body])
            return Answer(self.rng.choice(STATUSES), body, self.rng.choice(["text/plain", "text/html",
                                                                            "application/xml"]))
        if what == "moved":
            return Answer(self.rng.choice([301, 302, 307]), right.body,
                          fields=f"Location: {self.history.state.base}/resource/a\r\n")
        return None if what == "none" else right._replace(status=206, body=right.body[:20],
                                                          fields="Content-Range: bytes 0-19/20\r\n")

    def other(self, body: bytes) -> bytes:
        """Return other bytes, mostly of the same length."""
        if not body or self.rng.random() < 0.3:
            return body + b"\n"
        at = self.rng.randrange(len(body))
        return body[:at] + bytes([body[at] ^ 1 << self.rng.randrange(8)]) + body[at + 1 :]
