"""`Client` repeats only safe requests or those without effect, and pauses as the response asks."""
from __future__ import annotations

import email.utils
import socket
import threading
import time
from unittest import mock

import pytest

from operations.tests.harness.server import (
    CLOSE, RESET, Answer, RawServer, Request, answer, closed_port, in_turn, received)
from ropepeach.cli import output
from ropepeach.faults import Silent
from ropepeach.http.client import Client, Fields, Response


# Incomplete responses.
NO_ANSWERS = [
    CLOSE, RESET, answer(b"", "502 Bad Gateway"), answer(b"", "504 Gateway Timeout"),
    Answer([b"HTTP/1.1 200 OK\r\nContent-Length: 9\r\n\r\nx"], "close"),
    Answer([b"HTTP/1.1 200 OK\r\nContent-Length: 9\r\n\r\nx"], "reset"),
    Answer([b"HTTP/1.1 200 OK\r\nTransfer-Encoding: chunked\r\n\r\n5\r\nab"], "close"),
    Answer([b"HTTP/1.1 200 OK\r\nTransfer-Encoding: chunked\r\n\r\n1\r\na\r\n"], "close"),
    Answer([b"HTTP/1.1 200 OK\r\nTransfer-Encoding: chunked\r\n\r\nx\r\nabc\r\n0\r\n\r\n"], "close"),
    Answer([b"HTTP/1.1 200 OK\r\nContent-Le"], "close"), Answer([b"HTTP/1.1 200 OK\r\n"], "close"),
    Answer([b"HTTP/1.1 2"], "close"), Answer([b"nothing"], "close"), Answer([b"SSH-2.0-OpenSSH\r\n\r\n"], "close"),
    Answer([b"HTTP/1.1 100 Continue\r\n\r\n"], "close"),
]
# Requests that change something: their method, target and body.
CHANGES = {"publication": ("POST", "/publish", None), "group": ("POST", "/group", b"delete a\n"),
           "put": ("PUT", "/resource/a", b"body"), "large put": ("PUT", "/resource/a", b"x" * 3_000_000),
           "put of no bytes": ("PUT", "/resource/a", b""), "deletion": ("DELETE", "/resource/a", None)}


@pytest.mark.parametrize("change", CHANGES)
@pytest.mark.parametrize("no_answer", NO_ANSWERS)
@pytest.mark.parametrize("is_open", [False, True])
def test_request_that_changes_something_is_never_sent_twice(change: str, no_answer: Answer, is_open: bool) -> None:
    """The source reads the whole request and does not respond, on a new or a reused connection."""
    method, target, body = CHANGES[change]
    with RawServer(lambda request: answer(b"x") if request.method == "GET" else no_answer) as server:
        client = Client(server.base, patience=2)
        if is_open:
            assert client.ask("GET", "/a").body == b"x"
        with pytest.raises(Silent, match=f"{method} {server.base}{target}: no answer: "):
            client.ask(method, target, body)
        time.sleep(0.05)
        changes = [(request.path, request.body) for request in server.requests if request.method != "GET"]
        assert changes == [(target, body or b"")]
        assert client.ask("GET", "/a").body == b"x"


def test_changes_use_the_open_connection_unless_libcurl_could_repeat_them() -> None:
    with RawServer(lambda _: answer(b"x")) as server:
        client = Client(server.base)
        client.ask("GET", "/a")
        for method, target, body in CHANGES.values():
            client.ask(method, target, body)
        client.ask("GET", "/a")
        assert [request.connection for request in server.requests] == [0, 1, 0, 0, 0, 2, 3, 0]


def test_request_that_is_not_safe_goes_on_no_connection_that_the_source_has_closed() -> None:
    """The source closes a kept connection before the request comes."""
    with RawServer(lambda request: answer(b"x", then="close" if request.method == "GET" else "keep")) as server:
        client = Client(server.base, patience=0)
        for _ in range(20):
            assert client.ask("GET", "/a").body == b"x"
            assert client.ask("POST", "/publish").body == b"x"
        assert [request.method for request in server.requests] == ["GET", "POST"] * 20


def test_request_that_is_not_safe_is_repeated_where_the_source_has_not_seen_it() -> None:
    with RawServer(in_turn(answer(b"", "503 Service Unavailable"), answer(b"published"))) as server:
        assert Client(server.base).ask("POST", "/publish").body == b"published"
        assert len(server.requests) == 2


def test_request_that_is_not_safe_gets_429_as_its_answer() -> None:
    with RawServer(lambda _: answer(b"", "429 Too Many Requests")) as server:
        assert Client(server.base).ask("POST", "/publish").status == 429
        assert len(server.requests) == 1


def test_request_that_is_not_safe_waits_for_a_source_that_is_refused_at_first() -> None:
    port, requests = closed_port(), list[Request]()

    def serve() -> None:
        time.sleep(0.4)
        with socket.create_server(("127.0.0.1", port)) as listening, listening.accept()[0] as connection:
            request = received(connection, 0)
            assert request is not None
            requests.append(request)
            connection.sendall(b"".join(answer(b"published").pieces))

    thread = threading.Thread(target=serve)
    thread.start()
    assert Client(f"http://127.0.0.1:{port}").ask("POST", "/publish").body == b"published"
    thread.join()
    assert len(requests) == 1


def test_connection_that_stays_open_is_used_again_and_one_that_was_closed_is_no_fault() -> None:
    with RawServer(in_turn(answer(b"1"), answer(b"2", then="close"), answer(b"3"))) as server:
        client = Client(server.base, patience=0)
        bodies = []
        for _ in range(3):
            bodies.append(client.ask("GET", "/a").body)
            time.sleep(0.05)
        assert bodies == [b"1", b"2", b"3"]
        assert [request.connection for request in server.requests] == [0, 0, 1]


def test_close_closes_the_connection_and_the_next_request_opens_another() -> None:
    with RawServer(lambda _: answer(b"x")) as server:
        client = Client(server.base)
        client.ask("GET", "/a")
        assert server.open == 1
        client.close()
        time.sleep(0.2)
        assert server.open == 0
        assert client.ask("GET", "/a").body == b"x"
        client.close()
        client.close()


@pytest.mark.parametrize("first", [answer(b"", "429 Too Many Requests"), answer(b"", "503 Unavailable"), *NO_ANSWERS])
def test_request_that_changes_nothing_is_repeated_without_a_whole_answer(first: Answer) -> None:
    with RawServer(in_turn(first, first, answer(b"whole"))) as server:
        assert Client(server.base).ask("GET", "/a").body == b"whole"
        assert server.paths() == ["/a"] * 3


@pytest.mark.parametrize(("first", "why"), [
    (CLOSE, "Empty reply from server"), (RESET, "Recv failure: Connection reset by peer"),
    (answer(b"", "502 Bad"), "502 Bad"),
    (Answer([b"HTTP/1.1 200 OK\r\nContent-Le"], "close"), "the connection closed within the head of the response"),
    (Answer([b"HTTP/1.1 200 OK\r\nContent-Length: 9\r\n\r\nx"], "close"),
     "transfer closed with 8 bytes remaining to read"),
    (Answer([b"HTTP/1.1 200 OK\r\nTransfer-Encoding: chunked\r\n\r\n5\r\nab"], "close"),
     "transfer closed with outstanding read data remaining"),
    (answer(b"Closed\n", "503 Unavailable", "Content-Type: text/plain"), "503 Closed"),
])
def test_source_that_stays_silent_is_named_with_the_reason(
        first: Answer, why: str, capsys: pytest.CaptureFixture[str]) -> None:
    with RawServer(lambda _: first) as server:
        started = time.monotonic()
        with pytest.raises(Silent) as fault:
            Client(server.base, patience=1).ask("GET", "/a")
        assert 0.9 < time.monotonic() - started < 5
        assert str(fault.value) == f"GET {server.base}/a: no answer for 1 seconds: {why}"
        # (one message, even if several responses ask)
        assert capsys.readouterr().err == f"GET {server.base}/a: {why}; waiting up to 1 s\n"
        assert 3 <= len(server.requests) <= 7


def test_no_patience_asks_once() -> None:
    with RawServer(lambda _: CLOSE) as server:
        with pytest.raises(Silent, match="no answer for 0 seconds"):
            Client(server.base, patience=0).ask("GET", "/a")
        assert len(server.requests) == 1


def test_pauses_double_up_to_a_second() -> None:
    with RawServer(lambda _: CLOSE) as server:
        with pytest.raises(Silent):
            Client(server.base, patience=4).ask("GET", "/a")
        moments = [request.moment for request in server.requests]
        pauses = [later - earlier for earlier, later in zip(moments, moments[1:])]
        for pause, wanted in zip(pauses, [0.05, 0.1, 0.2, 0.4, 0.8, 1, 1]):
            assert wanted <= pause + 0.01 and pause < wanted + 0.4


@pytest.mark.parametrize("form", ["seconds", "date"])
@pytest.mark.parametrize("status", ["503 Unavailable", "429 Too Many"])
def test_retry_after_is_waited_for(form: str, status: str) -> None:
    def away(request: Request) -> Answer:
        if len(server.requests) > 1:
            return answer(b"x")
        # (a date has whole seconds)
        text = "1" if form == "seconds" else email.utils.formatdate(time.time() + 2.01, usegmt=True)
        return answer(b"", status, f"Retry-After: {text}")

    with RawServer(away) as server:
        assert Client(server.base).ask("GET", "/a").body == b"x"
        first, second = server.requests
        assert 0.99 < second.moment - first.moment < 2.8


@pytest.mark.parametrize("text", ["3600", "999999999", "Fri, 31 Dec 9999 23:59:59 GMT"])
def test_retry_after_is_bounded_by_the_patience(text: str, capsys: pytest.CaptureFixture[str]) -> None:
    with RawServer(lambda _: answer(b"", "503 Unavailable", f"Retry-After: {text}")) as server:
        started = time.monotonic()
        with pytest.raises(Silent, match="no answer for 1.5 seconds: 503 Unavailable"):
            Client(server.base, patience=1.5).ask("GET", "/a")
        assert 1.4 < time.monotonic() - started < 3
        assert len(server.requests) == 2
        assert capsys.readouterr().err.count("waiting up to 1.5 s") == 1


@pytest.mark.parametrize("text", ["", "-1", "soon", "1.5", "Mon, 99 Foo 2000 00:00:00 GMT", "0",
                                  "Thu, 01 Jan 1970 00:00:00 GMT", "Thu, 01 Jan 0000 00:00:00 GMT", "9" * 400])
def test_odd_retry_after_delays_nothing(text: str) -> None:
    with RawServer(in_turn(answer(b"", "503 Unavailable", f"Retry-After: {text}"), answer(b"x"))) as server:
        started = time.monotonic()
        assert Client(server.base).ask("GET", "/a").body == b"x"
        assert time.monotonic() - started < 1


@pytest.mark.parametrize("text", ["Sun, 06 Nov 2044 08:49:37 GMT", "Sunday, 06-Nov-44 08:49:37 GMT",
                                  "Sun Nov  6 08:49:37 2044"])
def test_retry_after_reads_the_three_forms_of_dates(text: str, monkeypatch: pytest.MonkeyPatch) -> None:
    """All dates are in GMT (RFC 9110, section 5.6.7), in any time zone of this machine."""
    monkeypatch.setenv("TZ", "Asia/Tokyo")
    time.tzset()
    try:
        with mock.patch.object(time, "time", lambda: 2_362_034_970.0):
            assert Response(503, "", Fields([f"Retry-After: {text}".encode()])).retry_after() == 7
    finally:
        monkeypatch.undo()
        time.tzset()


def test_messages_of_the_client_end_with_the_request() -> None:
    """A message about one request may be repeated for the next one."""
    with RawServer(lambda _: CLOSE) as server, mock.patch.object(output, "message") as message:
        client = Client(server.base, patience=1)
        for _ in range(2):
            with pytest.raises(Silent):
                client.ask("GET", "/a")
        assert message.call_count == 2
