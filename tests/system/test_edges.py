"""Tests of the edges of the program that no contract covers: sockets, the clock, standard input and output.

A C library replaces system calls that must fail or wait at a chosen place (edge_runs.py).
"""
import os
import select
import socket
import subprocess
from pathlib import Path
from typing import Any

import pytest

from tests.program import MEMORY, compare, interposed
from tests.system.edge_runs import HOST, PUT, SECONDS, SYSTEM, ask, ends_with, formatted, peak, put_of, run
from tests.system.edge_runs import served

pytestmark = [pytest.mark.plain, pytest.mark.needs("cc")]


def test_a_server_listens_on_loopback_alone(program: str, room: Path) -> None:
    """The program listens on 127.0.0.1 and the given port, as the system reports it, and on no other address."""
    formatted(program, room)
    with socket.create_server(("127.0.0.1", 0)) as taken:
        wanted = taken.getsockname()[1]
        outcome = run(program, room, "serve", "a.disk", str(wanted), "1")
        compare("a port that is taken", b"(1, b'rs_source: Device\\n', b'')", repr(outcome).encode())
    for asked_for in ["0", str(wanted)]:
        with served(program, room, 1, asked_for) as (port, _):
            lines = [line.split() for name in ["tcp", "tcp6"] for line in open(f"/proc/net/{name}")]
            listening = [fields[1] for fields in lines if fields[3] == "0A" and fields[1].endswith(f":{port:04X}")]
            compare("the addresses", f"0100007F:{port:04X}".encode(), " ".join(listening).encode())
            compare("the port", b"%d" % (wanted if asked_for != "0" else port), b"%d" % port)
            ask(port, b"GET / HTTP/1.0\r\n\r\n")


def test_a_fault_of_standard_input_or_output_ends_with_its_word(program: str, room: Path) -> None:
    """Unreadable standard input is Read, unwritable standard output is Write, with status 1; earlier commands last."""
    file = formatted(program, room)
    unreadable = os.open(room, os.O_RDONLY)
    for words in [MEMORY, ["run", file]]:
        compare(words[0], b"(1, b'rs_source: Read\\n', b'')",
                repr(run(program, room, *words, stdin=unreadable)).encode())
        closed = run(program, room, *words, stdin=None, preexec_fn=lambda: os.close(0))
        compare(f"{words[0]}, no standard input", b"(1, b'rs_source: Read\\n', b'')", repr(closed).encode())
    os.close(unreadable)
    wanted = b"(1, b'rs_source: Write\\n')"
    for number, output in enumerate(["/dev/full", None]):
        on_files = [["format", f"{number}.disk", *MEMORY[1:]], ["serve", file, "0", "1"],
                    ["copy", file, f"{number}.copy", "65536"]]
        for words in [MEMORY, ["run", file], *on_files]:
            with open(output or os.devnull, "wb") as taken:
                stdout = taken if output else None
                closing: dict[str, Any] = {} if output else {"preexec_fn": lambda: os.close(1)}
                found = run(program, room, *words, script=b"put %d - a/b\n" % number, stdout=stdout, **closing)
            compare(f"{words[0]}, output {output}", wanted, repr(found[:2]).encode())
        compare("status", b"resources 0 ", run(program, room, "run", f"{number}.disk", script=b"status")[2][:12])
    compare("status", b"resources 2 changes 2 ", run(program, room, "run", file, script=b"status")[2][:22])


def test_a_line_is_answered_before_the_next_is_read(program: str, room: Path) -> None:
    """A script can be a dialogue: the program answers before it reads more, and at the end of input."""
    talk = [(b"put a 61 a/b", b"created 1970-01-01T00:00:00.001Z\n"), (b"show /resource/a", b"bytes 1\na\n"),
            (b"no line", b"refused BadLine\n"),
            (b"status", b"resources 1 changes 1 publication 0 last 1970-01-01T00:00:00.001Z\n")]
    with subprocess.Popen([program, *MEMORY], stdin=subprocess.PIPE, stdout=subprocess.PIPE) as process:
        assert process.stdin and process.stdout
        for line, wanted in talk:
            for piece in [line[:1], line[1:], b"\n"]:
                os.write(process.stdin.fileno(), piece)
            found = b""
            while len(found) < len(wanted) and select.select(
                    [process.stdout], [], [], SECONDS)[0] and (piece := os.read(process.stdout.fileno(), 4096)):
                found += piece
            compare(line.decode(), wanted, found)
        compare("the end", b"refused NotHeld\n", process.communicate(b"delete b", SECONDS)[0])


@pytest.mark.parametrize("seconds, nanoseconds, date, moment", [
    (5, 999_999, b"Thu, 01 Jan 1970 00:00:05", b"1970-01-01T00:00:05.000Z"),
    (5, 1_999_999, b"Thu, 01 Jan 1970 00:00:05", b"1970-01-01T00:00:05.001Z"),
    (253402300799, 998_000_000, b"Fri, 31 Dec 9999 23:59:59", b"9999-12-31T23:59:59.998Z"),
    (253402300799, 999_999_999, b"Fri, 31 Dec 9999 23:59:59", b"9999-12-31T23:59:59.999Z"),
    (253402300800, 0, b"Fri, 31 Dec 9999 23:59:59", b"9999-12-31T23:59:59.999Z"),
    (2**63 - 1, 999_999_999, b"Fri, 31 Dec 9999 23:59:59", b"9999-12-31T23:59:59.999Z"),
    # A moment is greater than the previous one: the source was formatted at moment 0.
    (0, 0, b"Thu, 01 Jan 1970 00:00:00", b"1970-01-01T00:00:00.001Z"),
    (-1, 999_000_000, b"Thu, 01 Jan 1970 00:00:00", b"1970-01-01T00:00:00.001Z"),
    (None, 0, b"Thu, 01 Jan 1970 00:00:00", b"1970-01-01T00:00:00.001Z"),
])
def test_a_time_of_day_becomes_a_moment(program: str, room: Path, seconds: int | None, nanoseconds: int, date: bytes,
                                        moment: bytes) -> None:
    """It is rounded down to a millisecond; before 1970, or unread, it is moment 0; too late, it is the last moment."""
    formatted(program, room)
    clock = {"UNREAD_CLOCK": "1"} if seconds is None else {"SECONDS": str(seconds), "NANOSECONDS": str(nanoseconds)}
    with served(program, room, 1, **clock) as (port, _):
        found = ask(port, b"POST /publish " + HOST + b"\r\n")
    assert found.startswith(b"HTTP/1.1 200 OK\r\nDate: " + date + b" GMT\r\n")
    ends_with(found, b"\r\n\r\npublished 1 " + moment + b"\n")


def test_a_device_that_fails_closes_the_source(program: str, room: Path) -> None:
    """Every call on the file fails in turn: the answer is Device, and the command may or may not be applied; later
    answers are Closed; the source is whole when it is opened again.
    """
    lines = b"put a 61 text/plain\nstatus\nshow /resourcelist.xml\npublish\ndelete a\nput a b c\n"
    system = interposed(room, "system", SYSTEM)
    after, closed = set(), 0
    for number in range(1, 1000):
        Path(room, "a.disk").unlink(missing_ok=True)
        formatted(program, room)
        status, error, output = run(program, room, "run", "a.disk", script=lines,
                                    env=system | {"FILE_FAILS_AT": str(number)})
        if status:
            compare(f"call {number}", b"(1, b'rs_source: Device\\n', b'')", repr((status, error, output)).encode())
            continue
        before, device, behind = output.partition(b"refused Device\n")
        if not device:
            break
        done, answers = before.count(b"\n") > 0, behind.splitlines()
        closed += answers[:-1] == [b"refused Closed"] * (len(answers) - 1) and not done
        compare(f"call {number}, the end", b"refused BadHex", answers[-1])
        found = run(program, room, "run", "a.disk", script=b"status")[2]
        after.add((done, found.split(b" last")[0]))
    first = {output for done, output in after if not done}
    compare("what may stand of the put", b"resources 0 changes 0 publication 0, resources 1 changes 1 publication 0",
            b", ".join(sorted(first)))
    compare("the answers behind it", b"True", str(closed > 5).encode())


def test_a_failed_write_is_a_500_and_later_requests_a_503(program: str, room: Path) -> None:
    """If a write of the file fails, the response is 500 Device, and later ones are 503 Closed."""
    formatted(program, room)
    system = interposed(room, "system", SYSTEM)
    # (the first call that an opening does not make)
    first = next(n for n in range(1, 1000)
                 if run(program, room, "run", "a.disk", env=system | {"FILE_FAILS_AT": str(n)})[0] == 0)
    with served(program, room, 4, FILE_FAILS_AT=str(first)) as (port, _):
        ends_with(ask(port, PUT + b"\r\nabc"), b"\r\n\r\nDevice\n")
        for request in [b"GET /resource/c ", b"GET /resourcelist.xml ", b"POST /publish "]:
            found = ask(port, request + HOST + b"\r\n")
            compare("the status", b"HTTP/1.1 503 Service Unavailable\r\n", found[:34])
            ends_with(found, b"\r\n\r\nClosed\n")


def test_refused_memory_is_a_503_and_changes_nothing(program: str, room: Path) -> None:
    """Every allocation within a request is refused in turn: the response is 503 NoMemory, or missing if the request
    cannot begin, and nothing changes.
    """
    source = Path(room, formatted(program, room))
    run(program, room, "run", "a.disk", script=b"put c 616263 a/b\npublish")
    content, refusals = source.read_bytes(), 0
    for request in [PUT + b"\r\nabd", b"DELETE /resource/c " + HOST + b"\r\n", b"POST /publish " + HOST + b"\r\n",
                    b"GET /resource/c " + HOST + b"\r\n", b"GET /resourcelist.xml " + HOST + b"\r\n"]:
        usual, number, quiet = None, 0, 0
        # After six unused refusals in a row no allocation is left to refuse.
        while quiet < 6:
            source.write_bytes(content)
            with served(program, room, 1, GROWTH_REFUSED_AT=str(number)) as (port, _):
                answer = ask(port, request)
            usual, number, quiet = usual or answer, number + 1, quiet + 1
            if answer != usual:
                refusals, quiet = refusals + 1, 0
                wanted = b"HTTP/1.1 503 Service Unavailable\r\n" if answer else b""
                compare(f"growth {number - 1} of {request[:16]!r}", wanted, answer[:len(wanted)])
                ends_with(answer, b"\r\n\r\nNoMemory\n" if answer else b"")
                output = run(program, room, "run", "a.disk", script=b"status")[2]
                compare("the state", b"resources 1 changes 1 publication 1 ", output[:36])
    compare("growths refused", b"True", str(refusals > 10).encode())


def test_a_longer_body_takes_no_more_memory(program: str, room: Path) -> None:
    """A body goes to the file as it comes: 1,000,000 bytes need as many allocations as 5,000."""
    counts, file = [], Path(room, "a.disk")
    for length in [5_000, 1_000_000]:
        file.unlink(missing_ok=True)
        formatted(program, room, size="4000000")
        with served(program, room, 1, stderr=subprocess.PIPE, GROWTHS_TOLD="1") as (port, server):
            compare(f"{length} bytes", b"HTTP/1.1 201 Created\r\n", ask(port, put_of(length))[:22])
            assert server.stderr
            counts.append(server.stderr.read())
    compare("the growths", *counts)
    file.unlink()
    formatted(program, room, size="40000000")
    with served(program, room, 3) as (port, server):
        ask(port, put_of(5_000))
        before = peak(server)
        compare("the longest body", b"HTTP/1.1 204 No Content\r\n", ask(port, put_of(16_777_216))[:25])
        grown = peak(server) - before
        ask(port, b"GET /resource/zz " + HOST + b"\r\n")
    compare("at most 64 KiB more", b"True", str(grown <= 64).encode())
