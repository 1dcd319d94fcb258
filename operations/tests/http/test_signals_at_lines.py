"""A signal at any line of the client ends its transfers, and leaves no handle in libcurl."""
from __future__ import annotations

import pathlib
import signal
import sys
from collections.abc import Callable, Iterator
from types import FrameType
from typing import Any
from unittest import mock

import pycurl
import pytest

from operations.tests.harness.server import Answer, RawServer, Request, answer
from ropepeach.cli.stops import STOPS, Stopped
from ropepeach.http import transfers
from ropepeach.http.transfers import Transfer, Transfers

FOLDER = str(pathlib.Path(transfers.__file__).parent)
# The share of lines with a signal: one of this many.
STRIDE = 4


class CountedMulti:
    """A CurlMulti that records its handles."""

    made: list[CountedMulti] = []

    def __init__(self) -> None:
        self.multi = REAL_MULTI()
        self.handles = set[Any]()
        self.made.append(self)

    def add_handle(self, handle: Any) -> None:
        """Add a handle."""
        self.multi.add_handle(handle)
        self.handles.add(handle)

    def remove_handle(self, handle: Any) -> None:
        """Remove a handle."""
        self.multi.remove_handle(handle)
        self.handles.remove(handle)

    def __getattr__(self, name: str) -> Any:
        return getattr(self.multi, name)


REAL_MULTI = pycurl.CurlMulti


class Following(Transfer):
    """A transfer that notes its body, and follows redirects."""

    taken = b""

    def begin(self, response: object) -> None:
        """Discard the body of earlier attempts."""
        self.taken = b""

    def take(self, piece: bytes) -> None:
        """Keep a piece."""
        self.taken += piece

    def redirect(self, response: Any) -> str:
        """Return the target."""
        return str(response.fields.get("Location"))


def signalled_at(line: int, number: int, work: Callable[[], object]) -> bool:
    """Do some work, and send this process a signal at this line of the client. Return whether the line was run."""
    left = [line]

    def trace(frame: FrameType, event: str, _: object) -> Any:
        if not frame.f_code.co_filename.startswith(FOLDER):
            return None
        left[0] -= event == "line"
        if left[0] < 0:
            sys.settrace(None)
            signal.raise_signal(number)
        return trace

    before = sys.gettrace()
    sys.settrace(trace)
    try:
        work()
    finally:
        sys.settrace(before)
    return left[0] < 0


def answers(server: RawServer) -> Callable[[Request], Answer]:
    """Return answers: a retry, a redirect, a cut body, and bodies."""
    tried = set[str]()

    def answer_to(request: Request) -> Answer:
        is_first = request.path not in tried
        tried.add(request.path)
        if request.path == "/retry" and is_first:
            return answer(b"", "503 Unavailable", "Retry-After: 0")
        if request.path == "/cut" and is_first:
            return Answer([b"HTTP/1.1 200 OK\r\nContent-Length: 9\r\n\r\nx"], "close")
        if request.path == "/redirect":
            return answer(b"", "302 Found", f"Location: {server.base}/body")
        return answer(b"body")

    return answer_to


@pytest.fixture
def heard() -> Iterator[None]:
    """Handle signals as a run does, even if this process ignores Ctrl-C."""
    before = {number: signal.signal(number, signal.SIG_DFL) for number in (signal.SIGINT, signal.SIGTERM)}
    yield
    STOPS.is_over = False
    for number, handler in before.items():
        signal.signal(number, handler)


@pytest.mark.parametrize("offset", range(2))
@pytest.mark.parametrize("connections", [1, 3])
def test_signal_at_any_line_leaves_no_handle_in_libcurl(offset: int, connections: int, heard: None) -> None:
    line, stops = offset * 2, 0
    with RawServer(lambda _: answer(b"")) as server, mock.patch.object(pycurl, "CurlMulti", CountedMulti):
        while True:
            server.handle = answers(server)
            CountedMulti.made.clear()
            STOPS.listen([signal.SIGINT, signal.SIGTERM])
            client, number = Transfers(server.base, connections=connections), (signal.SIGINT, signal.SIGTERM)[stops % 2]
            asked = [Following(f"{server.base}/{name}", 99) for name in ("retry", "redirect", "cut", "body")]
            ended = []

            def work() -> None:
                """Do the transfers."""
                for transfer, result in client.each(asked):
                    ended.append((transfer, getattr(result, "status", result)))

            try:
                is_signalled = signalled_at(line, number, work)
            except Stopped as stop:
                is_signalled = True
                assert stop.status == 128 + number
            else:
                assert not is_signalled, f"the signal at line {line} was lost"
            assert not client.busy and not client.waiting and not client.order
            assert not any(multi.handles for multi in CountedMulti.made)
            # (the yielded results are complete)
            assert all((status, transfer.taken) == (200, b"body") for transfer, status in ended)
            [(again, response)] = client.each([Following(f"{server.base}/body", 99)])
            assert (again.taken, getattr(response, "status", response)) == (b"body", 200)
            client.close()
            if not is_signalled:
                assert len(ended) == len(asked) and stops > 100 // STRIDE
                return
            line, stops = line + STRIDE, stops + 1
