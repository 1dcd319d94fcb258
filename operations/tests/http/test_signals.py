"""Ctrl-C and SIGTERM end a process at once, while it waits in libcurl or receives bytes."""
from __future__ import annotations

import itertools
import os
import pathlib
import random
import signal
import subprocess
import time
from collections.abc import Iterator

import pytest

from operations.tests import PYTHON
from operations.tests.harness.server import Answer, Answering, RawServer, Request, answer

OPERATIONS = pathlib.Path(__file__).resolve().parents[2]
# A program that runs a transfer or a request, and prints its end.
PROGRAM = """
import signal, sys, threading
from ropepeach.faults import Fault
from ropepeach.http.client import Client
from ropepeach.http.transfers import Transfer, Transfers
# (a parent in the background ignores Ctrl-C, and its children inherit that)
signal.signal(signal.SIGINT, signal.default_int_handler)
try:
    if sys.argv[1] == "ask":
        Client(sys.argv[2]).ask("GET", "/a", limit=1 << 60)
    else:
        count, url = int(sys.argv[1]), sys.argv[2]
        for _ in Transfers(url, connections=count).each(Transfer(f"{url}/a", 1 << 60) for _ in range(count)):
            pass
except KeyboardInterrupt:
    print("interrupted", threading.active_count(), flush=True)
    sys.exit(130)
"""


def hanging(_: Request) -> Answer:
    """Answer late."""
    time.sleep(30)
    return answer(b"late")


def stopping(_: Request) -> Answer:
    """Stop within the body."""
    def pieces() -> Iterator[bytes]:
        yield b"HTTP/1.1 200 OK\r\nContent-Length: 9\r\n\r\nx"
        time.sleep(30)

    return Answer(pieces())


def pouring(_: Request) -> Answer:
    """Send bytes without end."""
    def pieces() -> Iterator[bytes]:
        yield b"HTTP/1.1 200 OK\r\n\r\n"
        while True:
            yield bytes(1 << 20)

    return Answer(pieces())


def away(_: Request) -> Answer:
    """Ask for patience."""
    return answer(b"", "503 Unavailable", "Retry-After: 20")


def stopped(mode: str, answers: Answering, number: int, pause: float) -> tuple[int, str, str, float]:
    """Return the status, the output and the messages of a process that gets a signal, and the seconds until its end."""
    with RawServer(answers) as server:
        process = subprocess.Popen([PYTHON, "-c", PROGRAM, mode, server.base], text=True, stdout=subprocess.PIPE,
                                   stderr=subprocess.PIPE, env=os.environ | {"PYTHONPATH": str(OPERATIONS)})
        end = time.monotonic() + 20
        while not server.requests and time.monotonic() < end:
            time.sleep(0.01)
        time.sleep(pause)
        process.send_signal(number)
        started = time.monotonic()
        output, messages = process.communicate(timeout=60)
        return process.returncode, output, messages, time.monotonic() - started


@pytest.mark.parametrize(("mode", "answers"), [
    *itertools.product(["ask", "1", "4"], [hanging, stopping, away]), ("1", pouring), ("4", pouring),
])
def test_key_stops_a_transfer_at_once(mode: str, answers: Answering) -> None:
    status, output, messages, seconds = stopped(mode, answers, signal.SIGINT, 0.3)
    assert (status, output) == (130, "interrupted 1\n"), messages
    assert "Traceback" not in messages and seconds < 3


@pytest.mark.parametrize("answers", [hanging, pouring])
def test_termination_stops_a_transfer_at_once(answers: Answering) -> None:
    status, output, messages, seconds = stopped("4", answers, signal.SIGTERM, 0.3)
    assert (status, output, messages) == (-signal.SIGTERM, "", "")
    assert seconds < 3


def test_key_is_never_lost_while_bytes_pour_in() -> None:
    """An exception in a callback of libcurl would be printed and lost."""
    for _ in range(12):
        status, output, messages, seconds = stopped("2", pouring, signal.SIGINT, random.random() / 5)
        assert (status, output, messages) == (130, "interrupted 1\n", "")
        assert seconds < 3
