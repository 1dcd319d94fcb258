"""`Client` ends a request at its limits of time and bytes, and names an unreachable source."""
from __future__ import annotations

import socket
import time
from collections.abc import Iterator
from unittest import mock

import pycurl
import pytest

from operations.tests.harness.server import CLOSE, Answer, RawServer, Request, answer, closed_port
from ropepeach.faults import Long, Silent, Slow
from ropepeach.http import handle
from ropepeach.http.client import LONGEST_DOCUMENT, Client
from ropepeach.http.limits import Limits, Spent


def waiting(_: Request) -> Answer:
    """Answer late."""
    time.sleep(20)
    return CLOSE


def dripping(_: Request) -> Answer:
    """Send a byte now and then."""
    def pieces() -> Iterator[bytes]:
        yield b"HTTP/1.1 200 OK\r\nContent-Length: 1000\r\n\r\n"
        for _ in range(200):
            yield b"x"
            time.sleep(0.1)

    return Answer(pieces())


@pytest.mark.parametrize("answers", [waiting, dripping])
def test_slow_answer_ends_and_is_not_asked_for_again(answers: object) -> None:
    with RawServer(answers) as server:  # type: ignore[arg-type]
        started = time.monotonic()
        with pytest.raises(Slow, match=f"GET {server.base}/a: the answer took longer than 0.7 seconds"):
            Client(server.base, whole=0.7).ask("GET", "/a")
        assert 0.6 < time.monotonic() - started < 3
        assert len(server.requests) == 1


@pytest.mark.parametrize("answers", [
    waiting, dripping, lambda _: CLOSE, lambda _: answer(b"", "503 A", "Retry-After: 9"),
])
def test_end_of_the_run_ends_a_request_in_time(answers: object) -> None:
    with RawServer(answers) as server:  # type: ignore[arg-type]
        started = time.monotonic()
        with pytest.raises(Spent, match="the run took longer than --max-duration allows"):
            Client(server.base, limits=Limits(end=started + 0.7)).ask("GET", "/a")
        assert 0.6 < time.monotonic() - started < 2


def test_pause_in_a_transfer_ends_the_attempt() -> None:
    short = handle.OPTIONS | {pycurl.LOW_SPEED_TIME: 1}
    with mock.patch.object(handle, "OPTIONS", short), RawServer(waiting) as server:
        started = time.monotonic()
        with pytest.raises(Silent, match="Operation too slow"):
            Client(server.base, patience=0).ask("GET", "/a")
        assert time.monotonic() - started < 6


def test_bytes_of_answers_are_counted_while_they_come() -> None:
    with RawServer(lambda _: answer(b"x" * 5_000_000)) as server:
        limits = Limits(bytes=8_000_000)
        client = Client(server.base, limits=limits)
        assert len(client.ask("GET", "/a").body) == 5_000_000
        with pytest.raises(Spent, match="more than 8,000,000 bytes, as --max-bytes allows"):
            client.ask("GET", "/a")
        assert 8_000_000 < limits.taken.add(0) < 10_000_000


def test_longest_document_is_the_default_limit() -> None:
    with RawServer(lambda _: answer(b"x" * (LONGEST_DOCUMENT + 1))) as server:
        with pytest.raises(Long):
            Client(server.base).ask("GET", "/a")


# Failures

def test_refused_connection_is_named() -> None:
    url = f"http://127.0.0.1:{closed_port()}"
    with pytest.raises(Silent) as fault:
        Client(url, patience=0).ask("GET", "/a")
    assert str(fault.value) == f"GET {url}/a: no answer for 0 seconds: Connection refused"


def test_unknown_host_is_named_with_a_remedy() -> None:
    with pytest.raises(Silent) as fault:
        Client("http://nowhere.invalid", patience=0).ask("GET", "/a")
    assert "GET http://nowhere.invalid/a: no answer for 0 seconds: Could not resolve host: nowhere.invalid" in str(
        fault.value)
    assert "is the name right" in str(fault.value)


def test_connection_that_is_not_made_ends_early() -> None:
    """A full backlog accepts no connection."""
    with socket.create_server(("127.0.0.1", 0), backlog=0) as listening, socket.socket() as one, socket.socket() as two:
        for blocking in (one, two):
            blocking.setblocking(False)
            blocking.connect_ex(listening.getsockname())
        with mock.patch.object(handle, "OPTIONS", handle.OPTIONS | {pycurl.CONNECTTIMEOUT_MS: 500}):
            started = time.monotonic()
            with pytest.raises(Silent, match="no answer for 0 seconds"):
                Client(f"http://127.0.0.1:{listening.getsockname()[1]}", 0).ask("POST", "/a")
            assert time.monotonic() - started < 3
