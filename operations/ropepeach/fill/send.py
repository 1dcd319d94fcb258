"""The changes that a run sends to a source: groups of up to 16, one commit per group, or single changes."""
from __future__ import annotations

import time
from collections.abc import Callable, Sequence
from typing import NamedTuple

from ropepeach.cli import output
from ropepeach.faults import Fault, Long, Silent
from ropepeach.fill.files import FileReading
from ropepeach.http.limits import FIRST_PAUSE, LONGEST_PAUSE
from ropepeach.http.response import REMEDIES, TOO_MANY_CHANGES, TOO_MANY_REQUESTS, Fields, Response, error_text
from ropepeach.resync.lists import Source

# The most items of a group (docs/HTTP.md), and the longest body in one, in bytes: a group has bodies as
# hexadecimal digits.
MOST_GROUPED, LONGEST_GROUPED = 16, 65_536
# The status of a change that has no room.
FULL = 507
# The source's own answer for a missing name. Another 404 comes from a proxy, and proves nothing.
NOT_HELD = "404 NotHeld"
# The number of publications that make room for changes: the second one drops the changes that the first one keeps.
PUBLICATIONS = 2
# How long a proxy may serve an older list, in seconds (operations/install/ropepeach.nginx).
KEPT = 2.1


def refusal(source: Source, method: str, path: str, answer: Response) -> Fault:
    """Return the fault of a refused request: its URL, the response, and the remedy if there is one."""
    text = error_text(answer)
    remedy = next((f": {remedy}" for word, remedy in REMEDIES.items() if word in text.split()), "")
    return Fault(f"{method} {source.client.address}{path} was refused: {text}{remedy}")


class PutOrDelete(NamedTuple):
    """A put of a body, which may have been read from a file, or a deletion."""

    name: str
    body: bytes | None = None
    kind: str = ""
    reading: FileReading | None = None

    def line(self) -> bytes:
        """Return the line of this change in the body of a group."""
        if self.body is None:
            return f"delete {self.name}\n".encode()
        return f"put {self.name} {self.body.hex() or '-'} {self.kind}\n".encode()


class Sending:
    """Sends changes to a source, publishes if its history is full, and counts the acknowledged changes."""

    def __init__(self, source: Source, at: str, may_publish: bool,
                 acknowledged: Callable[[PutOrDelete], None] | None = None) -> None:
        """`acknowledged` gets every change that the source has acknowledged."""
        self.source, self.ask, self.at, self.may_publish = source, source.client.ask, at, may_publish
        self.acknowledged, self.groups, self.published = acknowledged, True, ""
        self.waiting: list[PutOrDelete] = []
        self.put = self.size = self.deleted = 0

    def add(self, change: PutOrDelete) -> None:
        """Send a change, with others if it fits a group."""
        if not self.groups or len(change.body or b"") > LONGEST_GROUPED:
            self.flush()
            self.send(change)
        else:
            self.waiting.append(change)
            if len(self.waiting) == MOST_GROUPED:
                self.flush()

    def flush(self) -> None:
        """Send the waiting changes as a group, or singly if the source refuses the group."""
        changes, self.waiting = self.waiting, []
        if len(changes) > 1 and self.groups and self.is_grouped(changes):
            for change in changes:
                self.count(change)
        else:
            for change in changes:
                self.send(change)

    def is_grouped(self, changes: list[PutOrDelete]) -> bool:
        """Send changes as a group, and return whether the source took them."""
        answer = self.changed("POST", "/group", b"".join(change.line() for change in changes), "text/plain", changes)
        # (a site may let this client change only names with a prefix, which it does not see in a group)
        if answer.status in (403, 404, 405) and error_text(answer) != NOT_HELD:
            self.groups = False
        if answer.status >= 500 and answer.status != FULL:
            raise refusal(self.source, "POST", "/group", answer)
        is_taken: bool = answer.status == 200
        return is_taken

    def send(self, change: PutOrDelete) -> None:
        """Send one change alone. Raise a fault if it is refused, unless the resource to delete is already gone."""
        is_put, path = change.body is not None, f"/resource/{change.name}"
        method = "PUT" if is_put else "DELETE"
        answer = self.changed(method, path, change.body, change.kind, [change])
        if not is_put and error_text(answer) == NOT_HELD:
            output.message(f"{change.name}: was deleted before")
        elif answer.status not in ((201, 204) if is_put else (204,)):
            raise refusal(self.source, method, path, answer)
        self.count(change)

    def changed(self, method: str, path: str, body: bytes | None, kind: str,
                changes: Sequence[PutOrDelete]) -> Response:
        """Return the response to a request of changes. Publish if the history has no room for them."""
        made = Response(200 if len(changes) > 1 else 204, "", Fields())

        def answer_once() -> Response:
            """Return the response to the request."""
            return self.once(lambda: self.ask(method, path, body, kind),
                             lambda: made if all(map(self.is_made, changes)) else None)

        answer = answer_once()
        for _ in range(PUBLICATIONS):
            if answer.status != FULL or TOO_MANY_CHANGES not in error_text(answer) or not self.may_publish:
                break
            self.publish()
            answer = answer_once()
        return answer

    def once(self, ask: Callable[[], Response], find: Callable[[], Response | None]) -> Response:
        """Return the response to a request that changes something. Without a response the source may have executed the
        request: send it again only if `find` returns no replacement.
        """
        end, pause = time.monotonic() + self.source.client.patience, FIRST_PAUSE
        while True:
            try:
                answer: Response | None = ask()
            except Silent:
                if time.monotonic() > end:
                    raise
                answer = find()
            if answer is not None:
                if answer.status != TOO_MANY_REQUESTS or time.monotonic() > end:
                    return answer
                pause = max(pause, min(answer.retry_after() or 0.0, end - time.monotonic()))
            time.sleep(pause)
            pause = min(2 * pause, LONGEST_PAUSE)

    def is_made(self, change: PutOrDelete) -> bool:
        """Return whether the source holds the outcome of a change."""
        body = change.body
        try:
            answer = self.ask("GET", f"/resource/{change.name}", limit=len(body or b""))
        except Long:
            return False
        if body is None:
            return error_text(answer) == NOT_HELD
        return (answer.status, answer.body, answer.fields.get("Content-Type")) == (200, body, change.kind)

    def count(self, change: PutOrDelete) -> None:
        """Count a change that was acknowledged."""
        if change.body is None:
            self.deleted += 1
        else:
            self.put, self.size = self.put + 1, self.size + len(change.body)
        if self.acknowledged:
            self.acknowledged(change)

    def publish(self) -> None:
        """Publish once, and note the source's response."""
        answer = self.once(lambda: self.ask("POST", "/publish"), self.publication)
        if answer.status != 200:
            raise refusal(self.source, "POST", "/publish", answer)
        self.published = answer.body[:100].decode("ascii", "replace").strip()
        self.at = self.published.rpartition(" ")[2]

    def publication(self) -> Response | None:
        """Return the response to a completed publication, by the moment of the list."""
        time.sleep(KEPT)
        at = self.source.published_at()
        return Response(200, "", Fields(), f"published {at}".encode()) if at > self.at else None
