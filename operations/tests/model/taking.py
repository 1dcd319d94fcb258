"""Simulate a source that accepts puts, deletions, groups and publications, refuses some, and loses responses."""
from __future__ import annotations

import random
from collections.abc import Callable

from operations.tests.harness.server import Request
from operations.tests.model.histories import History
from operations.tests.model.made_up_source import Answer
from operations.tests.model.weather import served
from tests.reading import crash_model

# The probability that a change fails, and a list, by weather.
CHANGES = {"calm": 0.0, "refusing": 0.15, "losing": 0.15, "unread": 0.02, "shared": 0.0, "killing": 0.0,
           "gone": 0.0, "full": 0.0}
LISTS = {"unread": 0.15}
# Refusals of a source, and of a proxy before it; the change is not applied.
REFUSALS = [(400, "BadLine"), (403, ""), (404, "NoSuchDocument"), (404, ""), (405, "BadMethod"), (413, "TooLong"),
            (500, "Device"), (500, "Exhausted"), (501, ""), (502, ""), (503, "NoMemory"), (503, "Closed"),
            (504, ""), (507, "Full"), (507, "TooManyResources")]
STATUSES = [403, 404, 500, 502, 503]
# Statuses that are retried.
AWAY = {502, 503, 504}
MOST_GROUPED = 16


class Taking:
    """Responses of a source that accepts changes. `acknowledged` has the changes that a response confirmed."""

    def __init__(self, history: History, rng: random.Random) -> None:
        self.history, self.rng, self.name = history, rng, "calm"
        self.kill: Callable[[], None] = lambda: None
        self.others: Callable[[Request], None] = lambda request: None
        self.has_groups, self.requests, self.end = True, 0, -1
        # Publications until there is room for a change; applied and acknowledged changes; all requested changes.
        self.due = 0
        self.acknowledged: set[tuple[str, str]] = set()
        self.sent: list[tuple[str, str]] = []
        # The last body that a run sent, by name.
        self.bodies: dict[str, bytes] = {}
        self.publications = self.faults = 0
        # Whether a refusal has ended the run, and the requests after it; groups that no source accepts.
        self.is_over, self.behind, self.misused = False, list[str](), list[str]()

    def begin(self, name: str, kill: Callable[[], None], others: Callable[[Request], None]) -> None:
        """Prepare a run in this weather.

        Something happens before a random request: a kill, or a change by others.
        """
        self.name, self.kill, self.others = name, kill, others
        self.requests, self.acknowledged, self.sent, self.publications, self.faults = 0, set(), [], 0, 0
        self.bodies = {}
        self.end = self.rng.randrange(1, 14) if name in ("killing", "gone") else -1
        self.due = self.rng.randrange(1, 4) if name == "full" else 0
        self.has_groups, self.is_over, self.behind = self.rng.random() < 0.85, False, []
        self.misused.clear()

    def answer(self, request: Request) -> Answer | None:
        """Return the response to a request."""
        self.requests += 1
        if self.name == "killing" and self.requests == self.end:
            self.kill()
            return None
        if self.name == "gone" and self.requests >= self.end:
            self.faults += 1
            return self.rng.choice([None, Answer(502, b"<html>"), Answer(503, b"Closed\n", "text/plain")])
        if self.name == "shared" and self.rng.random() < 0.3:
            self.others(request)
        if request.method in ("GET", "HEAD"):
            return self.read(request)
        if self.is_over:
            self.behind.append(f"{request.method} {request.path}")
        answer = self.changed(request)
        self.is_over = self.is_over or ends_run(request, answer)
        return answer

    def read(self, request: Request) -> Answer | None:
        """Return the response to GET."""
        right = served(self.history.state, request.path) or word(404, "NoSuchDocument")
        if self.rng.random() < LISTS.get(self.name, 0.0):
            self.faults += 1
            cut = right._replace(body=right.body[:50], length=len(right.body) + 1, is_cut=True)
            return self.rng.choice([None, Answer(self.rng.choice(STATUSES), right.body), cut,
                                    right._replace(body=right.body[:60])])
        # (after a lost response a run reads the resource: it is as wanted, or the change is sent again)
        name = request.path.removeprefix("/resource/")
        if right.status == 200 and self.bodies.get(name) == right.body:
            self.acknowledged.add(("put", name))
        if right.status == 404 and ("delete", name) in self.sent:
            self.acknowledged.add(("delete", name))
        return right

    def changed(self, request: Request) -> Answer | None:
        """Return the response to a change, applied or not."""
        if request.path != "/publish":
            self.sent += items_of(request)
            self.bodies |= bodies_of(request)
        if self.rng.random() < CHANGES[self.name]:
            self.faults += 1
            if self.name == "losing":
                self.done(request)
                return self.rng.choice([None, Answer(502), Answer(504),
                                        Answer(200, b"", length=9, is_cut=True)])
            refusal = word(*self.rng.choice(REFUSALS))
            return self.rng.choice([refusal, refusal, None])
        answer = self.done(request)
        if answer.status < 300 or (request.method == "DELETE" and answer.status == 404):
            self.acknowledged.update(items_of(request))
        return answer

    def done(self, request: Request) -> Answer:
        """Apply a change, or refuse it as the source does (docs/HTTP.md)."""
        if request.path == "/publish":
            self.publications, self.due = self.publications + 1, max(0, self.due - 1)
            return Answer(200, f"{self.history.do('publish')}\n".encode(), "text/plain")
        if self.due and request.path != "/publish":
            return word(507, "TooManyChanges")
        if request.path == "/group":
            return self.grouped(request.body.decode().splitlines())
        name = request.path.removeprefix("/resource/")
        if request.method == "PUT":
            answer = self.history.put(name, request.body,
                                      request.fields.get("content-type", "application/octet-stream"))
            return Answer(201 if answer.startswith("created") else 204)
        is_refused = self.history.do(f"delete {name}").startswith("refused")
        return word(404, "NotHeld") if is_refused else Answer(204)

    def grouped(self, lines: list[str]) -> Answer:
        """Apply a whole group, or refuse it."""
        if not 1 <= len(lines) <= MOST_GROUPED:
            self.misused.append(f"a group of {len(lines)}")
            return word(400, "BadGroup")
        if not self.has_groups:
            return word(404, "NoSuchDocument")
        if self.history.state.after("\n".join([f"group {len(lines)}", *lines]), 0)[1] is None:
            return word(404, "NotHeld")
        answers = [self.history.do(line) for line in lines]
        return Answer(200, f"grouped {len(lines)} {answers[0].split()[1]}\n".encode(), "text/plain")

    def is_published(self) -> bool:
        """Return whether the Resource List has the current names, digests and types. A moment may be newer."""
        state: crash_model.State = self.history.state
        listed, held_entries = state.listed, state.entries()
        return listed.keys() == held_entries.keys() and all(
            listed[name].attributes() == entry.attributes() for name, entry in held_entries.items())


def word(status: int, text: str) -> Answer:
    """Return a refusal by its word, or an error page of a proxy."""
    if text:
        return Answer(status, f"{text}\n".encode(), "text/plain")
    return Answer(status, b"<html></html>\n", "text/html")


def ends_run(request: Request, answer: Answer | None) -> bool:
    """Return whether a refusal ends a run: any refusal of a single change, and a group's if the source itself failed. A
    proxy's refusals are retried.
    """
    if answer is None or answer.status < 300 or answer.status in AWAY or answer.body == b"TooManyChanges\n":
        return False
    if request.path == "/group":
        return answer.status >= 500 and answer.status != 507
    return not (request.method == "DELETE" and answer.body == b"NotHeld\n")


def items_of(request: Request) -> list[tuple[str, str]]:
    """Return the changes of a request: `put` or `delete`, and the name."""
    if request.path == "/group":
        lines = [line.split(" ") for line in request.body.decode().splitlines()]
        return [(line[0], line[1]) for line in lines]
    if request.path == "/publish":
        return []
    return [("put" if request.method == "PUT" else "delete", request.path.removeprefix("/resource/"))]


def bodies_of(request: Request) -> dict[str, bytes]:
    """Return the bodies of the puts of a request, by name; `-` is the empty body in a group."""
    if request.path == "/group":
        puts = [line.split(" ") for line in request.body.decode().splitlines() if line.startswith("put ")]
        return {name: b"" if digits == "-" else bytes.fromhex(digits) for _, name, digits, *_ in puts}
    return {request.path.removeprefix("/resource/"): request.body} if request.method == "PUT" else {}
