"""HTTP transfers by libcurl: several at once in one process, with bodies streamed to the caller.

For some seconds a request is retried if the connection fails or is cut, and after the statuses 429, 502, 503 and 504.
The caller follows redirects.
"""
from __future__ import annotations

import collections
import contextlib
import dataclasses
import math
import time
from collections.abc import Iterable, Iterator, Mapping
from typing import Any, TypeVar

import pycurl

from ropepeach.cli import output
from ropepeach.faults import Fault, Long, Silent, Slow
from ropepeach.http.handle import MOST_LINES, Failure, Handle
from ropepeach.http.limits import FIRST_PAUSE, LONGEST_PAUSE, PATIENCE, WHOLE, Limits, Spent
from ropepeach.http.response import TOO_MANY_REQUESTS, Response, error_text
from ropepeach.http.routes import Route, checked_address, origin_of, route_to, usable

# Statuses after which a request is retried; a request that changes something only after 503, which means no effect.
AWAY, UNAVAILABLE = {502, 503, 504}, 503
SAFE = {"GET", "HEAD"}
REDIRECTS = {301, 302, 303, 307, 308}
# The usual form in which sources announce that they close the connection.
CLOSE_LINE = b"Connection: close\r\n"
# The longest body of an unsuccessful response, in bytes; the rest is not read.
LONGEST_REFUSAL = 65_536
# The approximate limit of bytes that all connections may receive in one call of libcurl.
MOST_HELD = 32 << 20
# The longest and the shortest wait for libcurl's sockets, in seconds.
LONGEST_WAIT, SHORTEST_WAIT = 0.2, 0.001


class Transfer:
    """One GET, for a subclass that takes the body. With `is_kept` the response keeps the body instead."""

    method = "GET"
    body: bytes | None = None
    is_kept = False

    @property
    def is_safe(self) -> bool:
        """Whether the request is safe, so that it may be sent twice (RFC 9110, section 9.2.1)."""
        return self.method in SAFE

    def __init__(self, url: str, limit: int, fields: Mapping[str, str] | None = None) -> None:
        """Request a URL, with additional fields. A body of more than `limit` bytes ends the transfer by `Long`."""
        self.url, self.limit, self.fields = url, limit, fields or {}

    def begin(self, response: Response) -> None:
        """Begin to take the body of a success (a status below 300) with this head.

        Every attempt calls it again: discard the body of earlier attempts. A `Fault` ends this transfer.
        """

    def take(self, piece: bytes) -> None:
        """Take the next bytes of the body, up to 1.6 MiB. A `Fault` ends this transfer."""

    def longest(self, response: Response) -> int:
        """Return the most bytes of a body with this head, as they are sent."""
        return self.limit

    def redirect(self, response: Response) -> str | None:
        """Return the URL to follow, or None if the redirect is the result. A `Fault` ends this transfer."""
        return None


AnyTransfer = TypeVar("AnyTransfer", bound=Transfer)
Result = Response | Fault


class Job:
    """A transfer in progress: its attempts, and the response so far."""

    def __init__(self, transfer: Transfer, handle: Handle, patience: float) -> None:
        self.transfer, self.handle, self.patience = transfer, handle, patience
        self.outcome: Result | None = None
        self.go_to(transfer.url)

    def go_to(self, url: str) -> None:
        """Request this URL, with the count of failures reset."""
        self.url, self.origin, self.what = url, origin_of(url), f"{self.transfer.method} {url}"
        self.failures, self.until, self.due = 0, 0.0, 0.0

    def begin(self, route: Route) -> None:
        """Begin an attempt."""
        self.response: Response | None = None
        self.size, self.streamed, self.sent, self.started = 0, 0, 0, time.monotonic()
        self.limit = self.transfer.limit
        self.handle.begin(self.transfer, self.url, route)

    def has_come(self) -> bool:
        """Return whether a part of the response has not been taken yet."""
        handle = self.handle
        return (self.streamed + handle.came.tell() > self.size or len(handle.lines) > MOST_LINES
                or self.response is None and handle.has_head())

    def newly_come(self) -> int:
        """Return the number of new bytes of the body."""
        before, self.size = self.size, self.streamed + self.handle.came.tell()
        return self.size - before

    def newly_sent(self) -> int:
        """Return the number of newly sent bytes of the request's body."""
        before, self.sent = self.sent, self.handle.sent() if self.transfer.body else 0
        return self.sent - before

    def head(self) -> Response:
        """Return the response for the received head; begin the body of a success."""
        if self.response is None:
            self.response = self.handle.response()
            if self.response.status < 300:
                length, self.limit = self.handle.length(), self.transfer.longest(self.response)
                if length > self.limit and self.transfer.method != "HEAD":
                    raise Long(f"{self.what}: the answer has {length:,} bytes, more than {self.limit:,}")
                self.transfer.begin(self.response)
        return self.response

    def take(self) -> None:
        """Take the head, and the received bytes of the body."""
        if self.head().status < 300:
            if self.size > self.limit:
                raise Long(f"{self.what}: the answer has more than {self.limit:,} bytes")
            if self.size > self.streamed and not self.transfer.is_kept:
                self.streamed = self.size
                self.transfer.take(self.handle.taken())

    def has_enough(self) -> bool:
        """Return whether the rest of an unsuccessful response is useless."""
        return self.size - self.streamed > LONGEST_REFUSAL and self.head().status >= 300

    def result(self) -> Response:
        """Return the complete response."""
        response = self.head()
        body = self.handle.taken()[:LONGEST_REFUSAL if response.status >= 300 else None]
        return dataclasses.replace(response, body=body) if body else response

    def pause(self) -> float | None:
        """Count a failure; return the seconds before the next attempt, or None if no time is left."""
        now = time.monotonic()
        self.failures += 1
        self.until = self.until or now + self.patience
        if now >= self.until:
            return None
        asked = self.response.retry_after() if self.response else None
        pause: float = min(FIRST_PAUSE * 2 ** min(self.failures - 1, 20), max(LONGEST_PAUSE, self.patience / 100))
        return min(pause if asked is None else asked, self.until - now)


class Transfers:
    """Transfers over some connections, with handles and connections kept until `close`."""

    def __init__(self, address: str, patience: float = PATIENCE, certificate: str | None = None,
                 whole: float = WHOLE, limits: Limits | None = None, connections: int = 1) -> None:
        """Take the settings. Only the origin of `address` gets the client's certificate.

        Raise `Misused` if the address is invalid or the certificate unusable.
        """
        self.own = origin_of(checked_address(address))
        self.patience, self.certificate, self.whole = patience, usable(certificate), whole
        self.limits, self.connections = limits or Limits(), connections
        self.routes: dict[str, Route] = {}
        self.multi: Any = None
        self.free: list[Handle] = []
        # The jobs in progress by libcurl's handle, and those that wait for a retry.
        self.busy: dict[Any, Job] = {}
        self.waiting: list[Job] = []
        # The jobs whose results the caller lacks, in its order: as they begin over one connection, or else as they end.
        self.order = collections.deque[Job]()
        # Whether the source closes the connection after a response, and the origins reported as not responding.
        self.is_closing, self.away = False, set[str]()

    def each(self, transfers: Iterable[AnyTransfer]) -> Iterator[tuple[AnyTransfer, Result]]:
        """Yield transfers with their responses or faults, in the order in which they end.

        Over one connection this is the order of the transfers. The next transfer begins when a connection is free.
        `Spent`, and an exception other than `Fault`, end all.
        """
        source = iter(transfers)
        self.multi = self.multi or pycurl.CurlMulti()
        try:
            while self.go_on(source):
                yield from self.new_results()
        except (Exception, KeyboardInterrupt):
            yield from self.new_results()
            raise
        finally:
            self.stop()

    def close(self) -> None:
        """Close all connections. The next transfer opens them again."""
        self.stop()
        for handle in self.free:
            handle.curl.close()
        self.free.clear()
        if self.multi is not None:
            self.multi.close()
            self.multi = None

    def new_results(self) -> Iterator[tuple[Any, Result]]:
        """Yield the results that the caller lacks."""
        while self.order and (outcome := self.order[0].outcome) is not None:
            yield self.order.popleft().transfer, outcome

    def go_on(self, source: Iterator[Transfer]) -> bool:
        """Run until a transfer ends. Return False if no transfer is left."""
        self.start(source)
        while self.busy or self.waiting:
            self.limits.check_time()
            if self.waiting:
                self.retry()
            self.multi.perform()
            for job in [*self.busy.values()]:
                if job.has_come():
                    self.receive(job)
                elif self.limits.rate:
                    self.limits.pace(job.newly_sent())
            self.collect()
            if self.order and self.order[0].outcome is not None:
                # (the source sends while the caller works)
                self.start(source)
                self.multi.perform()
                return True
            self.wait()
        return False

    def start(self, source: Iterator[Transfer]) -> None:
        """Begin transfers while a connection is free.

        If the source closes its connection after a response, the next request waits there on another connection.
        """
        most = 2 if self.connections == 1 and self.is_closing else self.connections
        while len(self.busy) + len(self.waiting) < most:
            transfer = next(source, None)
            if transfer is None:
                return
            job = Job(transfer, self.free.pop() if self.free else self.handle(), self.patience)
            output.detail(job.what)
            if self.connections == 1:
                self.order.append(job)
            self.attempt(job)

    def handle(self) -> Handle:
        """Return a new handle, whose reads are small enough to keep a rate by pauses of about a quarter of a second."""
        rate = self.limits.rate.bytes_a_second if self.limits.rate else math.inf
        return Handle(self.whole, min(MOST_HELD / self.connections, rate / 4))

    def attempt(self, job: Job) -> None:
        """Begin an attempt."""
        if job.origin not in self.routes:
            certificate = self.certificate if job.origin == self.own else None
            self.routes[job.origin] = route_to(job.origin, certificate)
        job.begin(self.routes[job.origin])
        self.busy[job.handle.curl] = job
        self.multi.add_handle(job.handle.curl)

    def retry(self) -> None:
        """Begin the attempts whose pause has ended."""
        for job in [job for job in self.waiting if job.due <= time.monotonic()]:
            self.waiting.remove(job)
            self.attempt(job)

    def receive(self, job: Job) -> None:
        """Take the received part of a response."""
        if len(job.handle.lines) > MOST_LINES:
            self.leave(job)
            self.fail(job, Failure(f"its head has more than {MOST_LINES} lines", is_sent=True))
            return
        count = job.newly_come()
        self.limits.take(count)
        if self.limits.rate:
            self.limits.pace(count + job.newly_sent())
        try:
            job.take()
        except Fault as fault:
            self.leave(job)
            self.end(job, fault)
        else:
            if job.has_enough():
                self.finish(job)

    def collect(self) -> None:
        """Collect the transfers that libcurl has ended."""
        try:
            _, whole, broken = self.multi.info_read()
        except UnicodeDecodeError:
            # (pycurl then loses the messages)
            raise Fault("a certificate has a name that is no UTF-8") from None
        for curl in whole:
            job = self.busy[curl]
            if job.response is None and not job.handle.has_head():
                # (libcurl does not count this as an error)
                self.leave(job)
                self.fail(job, Failure("the connection closed within the head of the response", is_sent=True))
            else:
                self.finish(job)
        for curl, code, text in broken:
            job = self.busy[curl]
            self.leave(job)
            # (a failed connection or a pause ends earlier; libcurl's clock may be 0.1 s ahead of ours)
            if code == pycurl.E_OPERATION_TIMEDOUT and time.monotonic() - job.started > self.whole - 0.1:
                self.end(job, Slow(f"{job.what}: the answer took longer than {self.whole:g} seconds"))
            else:
                self.fail(job, job.handle.failure(code, text))

    def finish(self, job: Job) -> None:
        """End a transfer with its response, follow its redirect, or plan a retry."""
        self.leave(job)
        try:
            response = job.result()
            target = job.transfer.redirect(response) if response.status in REDIRECTS else None
        except Fault as fault:
            self.end(job, fault)
            return
        self.is_closing = CLOSE_LINE in response.fields.lines
        if target is not None:
            job.go_to(target)
            self.attempt(job)
        elif response.status in AWAY or (response.status == TOO_MANY_REQUESTS and job.transfer.is_safe):
            self.fail(job, Failure(error_text(response), is_sent=response.status != UNAVAILABLE))
        else:
            self.end(job, response)

    def fail(self, job: Job, failure: Failure) -> None:
        """Plan the next attempt, or end the transfer by a fault."""
        if failure.is_final:
            self.end(job, Fault(f"{job.what}: {failure.why}"))
        elif failure.is_sent and not job.transfer.is_safe:
            self.end(job, Silent(f"{job.what}: no answer: {failure.why}"))
        elif (pause := job.pause()) is None:
            self.end(job, Silent(f"{job.what}: no answer for {self.patience:g} seconds: {failure.why}"))
        else:
            if job.origin not in self.away and (job.failures > 1 or pause > LONGEST_PAUSE):
                output.message(f"{job.what}: {failure.why}; waiting up to {self.patience:g} s")
                self.away.add(job.origin)
            job.due = time.monotonic() + pause
            self.waiting.append(job)

    def leave(self, job: Job) -> None:
        """Remove a job from libcurl, which closes its connection if the response is incomplete."""
        self.multi.remove_handle(job.handle.curl)
        del self.busy[job.handle.curl]

    def end(self, job: Job, result: Result) -> None:
        """Keep a result for the caller, and free the handle. `Spent` ends all transfers."""
        if isinstance(result, Spent):
            raise result
        self.free.append(job.handle)
        job.outcome = result
        if self.connections > 1:
            self.order.append(job)
        if self.away and not any(other.failures for other in [*self.busy.values(), *self.waiting]
                                 if other.origin == job.origin):
            self.away.discard(job.origin)

    def stop(self) -> None:
        """Abort the transfers in progress."""
        for job in [*self.busy.values(), *self.waiting]:
            # (a signal may have come between two lines of `attempt` or `leave`)
            with contextlib.suppress(pycurl.error):
                self.multi.remove_handle(job.handle.curl)
            self.free.append(job.handle)
        self.busy, self.waiting, self.away = {}, [], set()
        self.order.clear()

    def wait(self) -> None:
        """Wait for a socket, the end of a pause, or the end of the run."""
        now = time.monotonic()
        seconds = min([LONGEST_WAIT, self.limits.end - now, *(job.due - now for job in self.waiting)])
        if not self.busy:
            time.sleep(max(0.0, seconds))
            return
        due = self.multi.timeout()
        seconds = max(SHORTEST_WAIT, min(seconds, due / 1_000) if due >= 0 else seconds)
        # (it returns at once if libcurl has no socket for select)
        if not self.multi.select(seconds) and time.monotonic() - now < seconds / 2:
            time.sleep(SHORTEST_WAIT)
