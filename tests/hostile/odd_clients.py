"""Clients that leave, stay silent or reset their connection, and plain requests between them.

The server uses the system's clock: the date of a response has the form of HTTP and lies within the run, and so do the
moments of changes, which rise strictly. tests/system/test_edges.py covers faults that need replaced system calls.
"""
import contextlib
import datetime
import email.utils
import os
import random
import re
import socket
import subprocess
import time
from collections.abc import Callable
from pathlib import Path

from tests.reading.request_judge import date_of, response
from tests.served_source import Ended, connected, exchanged, read_to_end, reset, served

SIZE, LARGE = 20_000_000, 8_000_000
HOST = b"HTTP/1.1\r\nHost: a\r\n"
GET_LARGE = b"GET /resource/large " + HOST + b"\r\n"
CUT_PUT = b"PUT /resource/cut " + HOST + b"Content-Length: 1000\r\n\r\nabc"
DATE = re.compile(rb"\r\nDate: ([^\r\n]*)\r\n")


def connects_and_leaves(port: int) -> None:
    """Close the connection at once."""
    connected(port).close()


def connects_and_resets(port: int) -> None:
    """Reset the connection at once."""
    reset(connected(port))


def sends_nothing_and_waits(port: int) -> None:
    """End the output at once, and wait for the end of the connection."""
    with connected(port) as connection:
        connection.shutdown(socket.SHUT_WR)
        if (found := read_to_end(connection)) != (b"", False):
            raise Ended(f"no byte was sent, and {found!r} came back")


def leaves_within_a_head(port: int) -> None:
    """Leave within the head of a request."""
    with connected(port) as connection:
        connection.sendall(GET_LARGE[:20])


def leaves_within_a_body(port: int) -> None:
    """Leave within the body of a put."""
    with connected(port) as connection:
        connection.sendall(CUT_PUT)


def resets_within_a_body(port: int) -> None:
    """Reset the connection within the body of a put."""
    with connected(port) as connection:
        connection.sendall(CUT_PUT)
        reset(connection)


def leaves_before_the_answer(port: int) -> None:
    """Leave after the request, before the response."""
    with connected(port) as connection:
        connection.sendall(GET_LARGE)


def leaves_while_it_is_answered(port: int) -> None:
    """Leave within a long response."""
    with connected(port) as connection:
        connection.sendall(GET_LARGE)
        connection.recv(1_000)


def resets_while_it_is_answered(port: int) -> None:
    """Reset the connection within a long response."""
    with connected(port) as connection:
        connection.sendall(GET_LARGE)
        connection.recv(100_000)
        reset(connection)


def ends_both_sides_while_it_is_answered(port: int) -> None:
    """Shut down both sides within a long response."""
    with connected(port) as connection:
        connection.sendall(GET_LARGE)
        connection.recv(1)
        connection.shutdown(socket.SHUT_RDWR)


def leaves_with_the_word_to_go_on(port: int) -> None:
    """Leave when `100 Continue` comes."""
    with connected(port) as connection:
        connection.sendall(CUT_PUT.replace(b"\r\n\r\nabc", b"\r\nExpect: 100-continue\r\n\r\n"))
        connection.recv(1_000)


def sends_on_and_never_reads(port: int) -> None:
    """Keep sending after a bad request, and never read."""
    with connected(port) as connection, contextlib.suppress(ConnectionError):
        connection.sendall(b"POST /resource/large " + HOST + b"\r\n" + b"x" * 1_000_000)


def sends_on_behind_an_answer(port: int) -> None:
    """Keep sending after a good request, and never read."""
    with connected(port) as connection, contextlib.suppress(ConnectionError):
        connection.sendall(b"GET /changelist.xml " + HOST + b"\r\n" + b"x" * 1_000_000)


CLIENTS: list[Callable[[int], None]] = [
    connects_and_leaves, connects_and_resets, sends_nothing_and_waits, leaves_within_a_head, leaves_within_a_body,
    resets_within_a_body, leaves_before_the_answer, leaves_while_it_is_answered, resets_while_it_is_answered,
    ends_both_sides_while_it_is_answered, leaves_with_the_word_to_go_on, sends_on_and_never_reads,
    sends_on_behind_an_answer,
]


class Plain:
    """Plain requests, to which the server must always respond well."""

    def __init__(self, port: int) -> None:
        self.port, self.started, self.puts = port, int(time.time()), 0

    def dated(self, found: bytes) -> str:
        """Return the date of a response; check its form, and that it lies within the run."""
        match = DATE.search(found)
        date = match[1].decode() if match else ""
        with contextlib.suppress(ValueError, TypeError):
            second = int(email.utils.parsedate_to_datetime(date).timestamp())
            if date == date_of(second * 1_000) and self.started <= second <= time.time():
                return date
        raise Ended(f"the date {date!r} is none of HTTP within the run, in {found[:200]!r}")

    def ask(self, sent: bytes, status: int, kind: str, body: bytes) -> None:
        """Send a request, and check its response except for the date."""
        found, _ = exchanged(self.port, [sent])
        wanted = response(status, self.dated(found), kind, body)
        if found != wanted:
            raise Ended(f"{sent[:60]!r}: wanted {wanted[:300]!r}, found {found[:300]!r}")

    def put(self, name: bytes, body: bytes) -> None:
        """Put a resource, which must be created."""
        self.puts += 1
        head = b"PUT /resource/%s %sContent-Type: a/b\r\nContent-Length: %d\r\n\r\n" % (name, HOST, len(body))
        self.ask(head + body, 201, "", b"")

    def get(self, name: bytes, body: bytes) -> None:
        """Get a resource, which must have this body."""
        self.ask(b"GET /resource/%s %s\r\n" % (name, HOST), 200, "a/b", body)


def shuffled(times: int) -> list[Callable[[int], None]]:
    """Return every client this many times, in random order."""
    every = CLIENTS * times
    random.Random(5).shuffle(every)
    return every


def moments_of(program: str, file: str) -> list[float]:
    """Return the moments of the changes on a file, in seconds since 1970."""
    finished = subprocess.run([program, "run", file], input=b"show /changelist.xml", capture_output=True, check=True)
    texts = re.findall(rb' datetime="([^"]*)Z"', finished.stdout)
    return [datetime.datetime.fromisoformat(f"{text.decode()}+00:00").timestamp() for text in texts]


def visit(port: int, plain: Plain, body: bytes, times: int) -> None:
    """Run all clients, with a plain request after each."""
    for number, client in enumerate(shuffled(times)):
        client(port)
        try:
            plain.put(b"p%d" % number, b"x") if number % 4 == 0 else plain.get(b"small", body)
        except (Ended, OSError) as fault:
            raise Ended(f"behind a client that {client.__name__}: {fault!r}") from None


def look(program: str, folder: str | Path, times: int) -> None:
    """Run all clients this many times."""
    file, clients = os.path.join(folder, "clients.disk"), len(CLIENTS) * times
    body, started = b"small", time.time()
    subprocess.run([program, "format", file, str(SIZE), "http://a", "4000"], check=True, capture_output=True)
    with served(program, file, 2 * clients + 3) as port:
        plain = Plain(port)
        plain.put(b"large", os.urandom(LARGE))
        plain.put(b"small", body)
        visit(port, plain, body, times)
        plain.get(b"small", body)
    moments = moments_of(program, file)
    if len(moments) != plain.puts or moments != sorted(set(moments)):
        raise Ended(f"{plain.puts} puts, and {len(moments)} moments, which have to rise: {moments[:5]}")
    if not int(started) <= moments[0] <= moments[-1] <= time.time() + 1:
        raise Ended(f"the moments {moments[0]} to {moments[-1]} are not those of the run")
