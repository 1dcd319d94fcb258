"""Tests of the edges of a connection to the program: how it accepts, reads, answers and ends a connection, and how long
it waits for a client.

`settings` set other results of system calls (edge_runs.py).
"""
import contextlib
import random
import socket
import struct
import subprocess
import time
from collections.abc import Callable, Iterator
from email.utils import formatdate
from pathlib import Path

import pytest

from tests.program import Differs, compare, interposed
from tests.served_source import with_clock
from tests.system.edge_runs import HOST, PUT, SECONDS, SYSTEM, TOO_LONG, ask, connected, ends_with
from tests.system.edge_runs import formatted, is_read_from, peak, put_of, read_to_end, run, served

pytestmark = [pytest.mark.plain, pytest.mark.needs("cc")]

# The seconds for which the server reads the rest of a refused request, and within which it then serves the next client.
LONGEST_REST, MARGIN = 2, 4
# The most bytes of the rest that the server reads, the bytes that a client sends, and the bytes per send.
MOST_REST, ENDLESS, AT_ONCE = 64 << 20, 96 << 20, 1 << 20
# The number of connections, plus a random number; and the limit in KiB of the memory growth in their second half.
MANY, GROWN = 4_000, 64
# The time of day before the first connection, and the last one, in seconds.
FIRST_DAY, LAST_DAY = 951_782_400, 253_402_300_799
# A body longer than the send buffer, and a line that puts it.
LARGE = b"x" * 100_000
PUT_LARGE = b"put b %s a/b\n" % LARGE.hex().encode()
GET_LARGE = b"GET /resource/b " + HOST + b"\r\n"
GET_LIST = b"GET /changelist.xml " + HOST + b"\r\n"


def test_100_continue_is_sent_at_once(program: str, room: Path) -> None:
    """A client may wait for `100 Continue` before it sends its body."""
    formatted(program, room)
    with served(program, room, 1) as (port, _), connected(port) as connection:
        connection.sendall(PUT + b"Expect: 100-continue\r\n\r\n")
        compare("the word", b"HTTP/1.1 100 Continue\r\n\r\n", connection.recv(65536))
        connection.sendall(b"abc")
        compare("the response", b"HTTP/1.1 201 Created\r\n", read_to_end(connection)[:22])


def test_the_rest_of_a_refused_request_is_read(program: str, room: Path) -> None:
    """After a refusal the server ends its output, so that the client sees the end, and reads on."""
    formatted(program, room)
    with served(program, room, 2) as (port, _):
        with connected(port) as connection:
            connection.sendall(TOO_LONG)
            ends_with(read_to_end(connection), b"\r\n\r\nTooLong\n")
            if not is_read_from(connection):
                raise Differs("the connection was closed with the response")
        with connected(port) as connection:
            connection.sendall(PUT + b"\r\nabc")
            ends_with(read_to_end(connection), b"\r\nContent-Length: 0\r\n\r\n")
            if is_read_from(connection):
                raise Differs("an accepted request is read on")


def test_a_response_that_cannot_be_sent_ends_the_connection(program: str, room: Path) -> None:
    """If the server cannot send a refusal, it closes the connection without reading on."""
    formatted(program, room)
    with served(program, room, 1, SENDS_FAIL="1") as (port, _), connected(port) as connection:
        connection.sendall(TOO_LONG)
        compare("the response", b"", read_to_end(connection))
        if is_read_from(connection):
            raise Differs("the connection is read on")


def test_a_reset_ends_its_connection_alone(program: str, room: Path) -> None:
    """A client that resets its connection within a head or a body changes nothing; the server accepts the next one."""
    formatted(program, room)
    with served(program, room, 3) as (port, _):
        for part in [PUT, PUT + b"\r\nab"]:
            with connected(port) as connection:
                connection.sendall(part)
                # This way of closing resets the connection.
                connection.setsockopt(socket.SOL_SOCKET, socket.SO_LINGER, struct.pack("ii", 1, 0))
        ends_with(ask(port, b"GET /resource/c " + HOST + b"\r\n"), b"\r\n\r\nNotHeld\n")


def test_a_head_that_is_cut_is_bad(program: str, room: Path) -> None:
    """A head cut at any byte is BadHead; a whole head is not, nor is an empty one."""
    formatted(program, room)
    head = b"PUT /resource/c HTTP/1.1\r\nHost: a\r\nContent-Length: 0\r\n\r\n"
    with served(program, room, len(head) + 1) as (port, _):
        for length in range(len(head) + 1):
            with connected(port) as connection:
                connection.sendall(head[:length])
                connection.shutdown(socket.SHUT_WR)
                found = read_to_end(connection)
            wanted = b"" if length == 0 else b"HTTP/1.1 400 Bad Request\r\n" if length < len(
                head) else b"HTTP/1.1 201 Created\r\n"
            compare(f"{length} bytes", wanted, found[:len(wanted)] if wanted else found)
            ends_with(found, b"\r\n\r\nBadHead\n" if 0 < length < len(head) else b"")


def test_a_command_has_the_time_of_its_connection(program: str, room: Path) -> None:
    """A command has the time at which the server accepted its connection, not an earlier one."""
    formatted(program, room)
    with served(program, room, 2, DAYS="1") as (port, _):
        compare("the put", b"HTTP/1.1 201 Created\r\nDate: Wed, 01 Mar 2000 00:00:00 GMT\r\n",
                ask(port, PUT + b"\r\nabc")[:59])
        found = ask(port, b"POST /publish " + HOST + b"\r\n")
        compare("the publication", b"HTTP/1.1 200 OK\r\nDate: Thu, 02 Mar 2000 00:00:00 GMT\r\n", found[:54])
        ends_with(found, b"\r\n\r\npublished 1 2000-03-02T00:00:00.000Z\n")
    shown = run(program, room, "run", "a.disk", script=b"show /changelist.xml")[2]
    compare("the change", b"<lastmod>2000-03-01T00:00:00.000Z</lastmod>", shown[shown.find(b"<lastmod>"):][:43])


def test_at_most_64_mib_of_a_refused_request_are_read(program: str, room: Path, **settings: str) -> None:
    """The server reads at most 64 MiB from a refused client that keeps sending, and the buffers of later clients."""
    formatted(program, room)
    with served(program, room, 1, **settings) as (port, _), connected(port) as refused:
        refused.sendall(TOO_LONG)
        ends_with(read_to_end(refused), b"\r\n\r\nTooLong\n")
        sent, piece = 0, b"x" * AT_ONCE
        with contextlib.suppress(ConnectionError):
            while sent < ENDLESS:
                refused.sendall(piece)
                sent += AT_ONCE
    if not AT_ONCE <= sent < ENDLESS:
        raise Differs(f"{sent} bytes of a rest are taken, where {MOST_REST} are read at most")


def test_a_refused_body_may_be_sent_before_the_response_is_read(program: str, room: Path, **settings: str) -> None:
    """A client that sends a whole refused body before it reads gets its response without a reset."""
    formatted(program, room)
    sizes = (AT_ONCE, MOST_REST // 4)
    with served(program, room, len(sizes), **settings) as (port, _):
        for size in sizes:
            with connected(port) as refused:
                try:
                    refused.sendall(TOO_LONG + b"x" * size)
                    found = refused.recv(65_536)
                    while piece := refused.recv(65_536):
                        found += piece
                except ConnectionError as fault:
                    raise Differs(f"a refused body of {size} bytes: {fault}") from None
            ends_with(found, b"\r\n\r\nTooLong\n")


@contextlib.contextmanager
def served_in_time(program: str, room: Path, count: int) -> Iterator[tuple[int, subprocess.Popen[bytes]]]:
    """Yield the port and the process of a server of this many connections, whose time of day stands still."""
    env = with_clock(room) | {"CLOCK": "951782400000", "STEP": "0"}
    words = [program, "serve", "a.disk", "0", str(count)]
    with subprocess.Popen(words, cwd=room, stdout=subprocess.PIPE, env=env) as server:
        try:
            assert server.stdout
            yield int(server.stdout.readline().removeprefix(b"listening 127.0.0.1:")), server
            compare("the server's status", b"0", b"%d" % server.wait(SECONDS))
        finally:
            server.kill()


def waited(port: int, refused: socket.socket, is_slow: bool) -> float:
    """Return the seconds that the next client waits after a refused one that stays silent or sends bytes at times."""
    started = time.monotonic()
    with connected(port) as next_one:
        next_one.sendall(b"GET /resource/zz " + HOST + b"\r\n")
        next_one.settimeout(0.3)
        while time.monotonic() < started + LONGEST_REST + MARGIN:
            with contextlib.suppress(TimeoutError):
                ends_with(next_one.recv(65_536), b"\r\n\r\nNotHeld\n")
                return time.monotonic() - started
            with contextlib.suppress(ConnectionError):
                refused.sendall(b"x" * random.randint(1, 8_192) if is_slow else b"")
    raise Differs(f"the next client waits for more than {LONGEST_REST + MARGIN} seconds")


@pytest.mark.alone
def test_a_refused_client_holds_the_next_for_two_seconds(program: str, room: Path, **settings: str) -> None:
    """A refused client that stays, silent or slow, delays the next one by about two seconds."""
    formatted(program, room)
    for is_slow in (False, True):
        serving = served(program, room, 2, **settings) if settings else served_in_time(program, room, 2)
        with serving as (port, _), connected(port) as refused:
            refused.sendall(TOO_LONG)
            ends_with(read_to_end(refused), b"\r\n\r\nTooLong\n")
            seconds = waited(port, refused, is_slow)
        compare(f"a wait of {seconds:.1f} seconds is one of {LONGEST_REST} or somewhat more", b"True",
                str(LONGEST_REST - 1 < seconds).encode())


def test_a_connection_that_cannot_be_accepted_counts(program: str, room: Path, **settings: str) -> None:
    """A connection that cannot be accepted counts: the server serves the next client, and one fewer in all."""
    formatted(program, room)
    for at in ("1", "2", "3"):
        answered = 0
        with served(program, room, 3, **({"ACCEPT_FAILS_AT": at}
                                         | settings)) as (port, _), contextlib.suppress(ConnectionError):
            while ask(port, b"GET /resource/zz " + HOST + b"\r\n").endswith(b"NotHeld\n"):
                answered += 1
        compare(f"the clients that are answered, where connection {at} fails", b"2", b"%d" % answered)


@pytest.mark.parametrize("most", [MANY, pytest.param(100_000, marks=pytest.mark.long)])
def test_thousands_of_connections_are_served_without_more_memory(program: str, room: Path, most: int) -> None:
    """The server answers the last of thousands of connections as the first, each at the time of its connection; its
    memory does not grow, and it does not write its file.
    """
    disk = Path(room, formatted(program, room))
    content, count = disk.read_bytes(), random.randint(most, most + most // 4)
    with served(program, room, count, DAYS="1") as (port, server):
        for at in range(1, count):
            if at == count // 2:
                before = peak(server)
            date = formatdate(min(FIRST_DAY + at * 86_400, LAST_DAY), usegmt=True)
            compare(f"response {at} of {count}", b"HTTP/1.1 200 OK\r\nDate: %s\r\n" % date.encode(),
                    ask(port, GET_LIST)[:54])
        grown = peak(server) - before
        ask(port, GET_LIST)
    compare(f"{grown} KiB more are at most {GROWN}", b"True", str(grown <= GROWN).encode())
    compare("the file", content, disk.read_bytes())


def test_an_interrupted_read_is_a_fault(program: str, room: Path, **settings: str) -> None:
    """The program does not repeat an interrupted read: a connection ends without a change, a script ends with Read."""
    formatted(program, room)
    waiting = PUT + b"Expect: 100-continue\r\n\r\n"
    for at, wanted in [("1", b""), ("2", b"HTTP/1.1 100 Continue\r\n\r\n")]:
        with served(program, room, 2, **({"INTERRUPTED_AT": at} | settings)) as (port, _):
            with connected(port) as connection:
                connection.sendall(waiting)
                found = b""
                with contextlib.suppress(ConnectionError):
                    found = connection.recv(65_536)
                    connection.sendall(b"abc")
                found += read_to_end(connection)
            compare(f"read {at} is interrupted", wanted, found)
            ends_with(ask(port, b"GET /resource/c " + HOST + b"\r\n"), b"\r\n\r\nNotHeld\n")
    environment = interposed(room, "system", SYSTEM) | {"INTERRUPTED_AT": "1"} | settings
    outcome = run(program, room, "run", "a.disk", script=b"put a - a/b\nstatus\n", env=environment)
    compare("a script", b"(1, b'rs_source: Read\\n', b'')", repr(outcome).encode())


def test_a_write_that_takes_no_byte_is_tried_once(program: str, room: Path, **settings: str) -> None:
    """A write that takes no byte is a fault at once; the program tries its buffered output once more as it ends."""
    formatted(program, room, size="1000000")
    run(program, room, "run", "a.disk", script=PUT_LARGE)
    environment = interposed(room, "system", SYSTEM) | {"NONES_TOLD": "1"} | settings
    show, put = b"show /resource/b\n", b"put c 61 a/b\n"
    # From this many bytes on, writes take none: of the body alone, with the buffered output, and of a file.
    for size, script, wanted in [(10_000, show, (1, b"rs_source: Write\n1 took none\n")),
                                 (1, b"status\n", (1, b"rs_source: Write\n2 took none\n")),
                                 (172, put, (0, b"1 took none\n"))]:
        outcome = run(program, room, "run", "a.disk", script=script, env=environment | {"NONE_TAKEN_FROM": str(size)})
        compare(f"{script!r}", repr(wanted).encode(), repr(outcome[:2]).encode())
        compare(f"{script!r}: the output", b"refused Device\n" if script is put else b"bytes 100000\n"
                if script is show else b"", outcome[2])
    with served(program, room, 1, stderr=subprocess.PIPE, NONE_TAKEN_FROM="10000", NONES_TOLD="1", **settings) as (
            port, server):
        found = ask(port, GET_LARGE)
        ends_with(found, b"\r\n\r\n")
        assert server.stderr
        compare("over HTTP", b"1 took none\n", server.stderr.read())


@pytest.mark.long
@pytest.mark.parametrize("pause", [15, 70])
def test_a_paused_upload_goes_on(program: str, room: Path, pause: int) -> None:
    """A client may pause within the head, within the body, and before it reads the response."""
    formatted(program, room, size="40000000")
    put = put_of(16_000_000)
    with served_in_time(program, room, 2) as (port, _):
        with connected(port) as connection:
            for piece in (put[:20], put[20:8_000_000], put[8_000_000:]):
                connection.sendall(piece)
                time.sleep(pause)
            compare("the response", b"HTTP/1.1 201 Created\r\n", read_to_end(connection)[:22])
        with connected(port) as connection:
            connection.sendall(b"GET /resource/c " + HOST + b"\r\n")
            time.sleep(pause)
            ends_with(read_to_end(connection), put[-16_000_000:])


@pytest.mark.parametrize("edge, settings", [
    (test_at_most_64_mib_of_a_refused_request_are_read, {"REST_TIMES": "100"}),
    (test_a_refused_body_may_be_sent_before_the_response_is_read, {"REST_AT_MOST": "100"}),
    (test_a_refused_client_holds_the_next_for_two_seconds, {"CLOCK_STANDS": "1"}),
    (test_a_connection_that_cannot_be_accepted_counts, {"ACCEPT_FAILS_AT": "0"}),
    (test_an_interrupted_read_is_a_fault, {"INTERRUPTED_AT": "0"}),
    (test_a_write_that_takes_no_byte_is_tried_once, {"TRIES": "100"}),
])
def test_the_judge_rejects_a_wrong_program(edge: Callable[..., None], settings: dict[str, str], program: str,
                                           room: Path) -> None:
    """The checks reject a program that reads the rest without limit, or little of it; whose clock does not move, and
    which waits for a minute; that accepts or reads again after a failure; or that tries a hundred times.
    """
    with pytest.raises(Differs):
        edge(program, room, **settings)
