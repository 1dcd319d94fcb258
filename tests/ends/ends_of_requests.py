"""Send requests whose connection fails at a chosen byte, and compare the outcome with docs/HTTP.md.

The requests are the first of the worked row http_resource: PUTs whose body is short, too long, chunked or without a
length, a PUT that expects `100 Continue`, GET, HEAD, POST, and a PUT that does not wait. A request fails on the file
that its predecessors left. The server must not execute a request that it has read only in part, nor a PUT whose `100
Continue` it cannot send; it executes every other command, even if the response is lost. After every failed connection
the server must answer a plain request for the Change List, which shows all executed commands.
"""
import os
import socket
import subprocess
from pathlib import Path
from typing import NamedTuple

from tests.ends.ends_of_scripts import ASKED, BASE, LIMIT, SIZE, state_on
from tests.ends.failing_ends import SECONDS, received
from tests.hostile.script_runs import differing
from tests.program import CLOCK, MEMORY, Differs
from tests.reading import crash_model, request_judge
from tests.reading.crash_model import State
from tests.reading.front_model import Source
from tests.reading.line_judge import Judge as LineJudge
from tests.reading.request_judge import CONTINUE, END
from tests.rows.reader import ROWS, exchanges_of
from tests.served_source import connected, exchanged, read_to_end, reset, served

COUNT = 10
LOOK = b"GET /changelist.xml HTTP/1.1\r\nHost: a\r\n\r\n"
# The client resets its connection after this many bytes, while the server reads them or before the server accepts the
# connection, because it serves another client. Or the server's own call fails after that many bytes; if a send fails
# once, the server sends its buffered output when it closes the connection.
RESET, RESET_BEFORE, READ_FAILS = "reset", "reset before it is taken", "a read fails"
SEND_FAILS, SEND_FAILS_ONCE = "a send fails", "a send fails once"
# The client has sent the whole request, and leaves without the response.
CLOSED, CLOSED_BEFORE, ENDED = "closed", "closed before it is taken", "both sides ended"
LEAVES = (CLOSED, CLOSED_BEFORE, ENDED)
# One failure, or several.
Way = str | tuple[str, ...]
WAYS: list[Way] = [RESET, RESET_BEFORE, READ_FAILS, SEND_FAILS, SEND_FAILS_ONCE, LEAVES]
BEFORE = {RESET_BEFORE, CLOSED_BEFORE}
SENDS = {SEND_FAILS, SEND_FAILS_ONCE}
FAILING = {"FAILING": "send"}
CALLS = {READ_FAILS: {"FAILING": "recv"}, SEND_FAILS: FAILING, SEND_FAILS_ONCE: {**FAILING, "ONCE": "1"}}


class Request(NamedTuple):
    """A request, its response in the row, and the state and file before it."""

    sent: bytes
    response: bytes
    state: State
    disk: bytes


def exchanges() -> list[tuple[bytes, bytes]]:
    """Return the requests with their responses."""
    _, _, text = ROWS.joinpath("http_resource.http").read_bytes().partition(b"\n> ")
    return exchanges_of(b"> " + text)[:COUNT]


def request_title(sent: bytes) -> str:
    """Return the method and path of a request."""
    return " ".join(sent.decode("latin-1").split()[:2])


class Model:
    """The right behaviour of a source whose requests fail."""

    def __init__(self, state: State) -> None:
        self.source = Source(state, SIZE)
        self.judge = request_judge.Judge(self.source)

    def answer(self, sent: bytes) -> bytes:
        """Execute a request that does not fail; return its response."""
        return self.judge.answer(sent, CLOCK)

    def peeked(self, sent: bytes) -> bytes:
        """Return the response to a request without executing it."""
        before = self.source.state
        answer = self.answer(sent)
        self.source.become(before)
        return answer

    def is_read(self, part: bytes) -> bool:
        """Return whether the server answers these bytes without reading more."""
        return part != b"" and not self.peeked(part).endswith((b"\nBadHead\n", b"\nShortBody\n"))

    def meet(self, way: str, sent: bytes, at: int) -> bytes | None:
        """Execute a failing request; return the bytes that its client, or the previous one, receives, or None."""
        before = self.peeked(LOOK) if way in BEFORE else None
        part = sent if way in LEAVES or way in SENDS else sent[:at]
        waits = self.peeked(part).startswith(CONTINUE)
        if way in SENDS:
            is_begun = not waits or at >= len(CONTINUE)
            response = self.answer(sent) if is_begun else CONTINUE
            return response if way == SEND_FAILS_ONCE else response[:at]
        if self.is_read(part) and not (way == RESET_BEFORE and waits):
            answer = self.answer(part)
            return answer if way == READ_FAILS else before
        return (CONTINUE if waits else b"") if way == READ_FAILS else before

    def look(self) -> bytes:
        """Return the response to a plain request."""
        return self.answer(LOOK)


def cuts_of(request: Request, way: Way, each: int) -> list[tuple[str, int]]:
    """Return the cuts of a request: pairs of a way and a number of bytes."""
    if not isinstance(way, str):
        return [(leaving, len(request.sent)) for leaving in way]
    return [(way, at) for at in range(0, len(request.response if way in SENDS else request.sent) + 1, each)]


def faults(server: "Server | Model", model: Model, sent: bytes, cuts: list[tuple[str, int]]) -> list[str]:
    """Let a request fail at these cuts, one after another; return all faults."""
    found = []
    for way, at in cuts:
        what = f"{request_title(sent)}, {way} behind byte {at}"
        wanted, got = model.meet(way, sent, at), server.meet(way, sent, at)
        found += [differing(f"{what}: it got", wanted or b"", got or b"")] if wanted != got else []
        wanted, got = model.look(), server.look()
        found += [differing(f"{what}: behind it", wanted, got)] if wanted != got else []
    return found


class Server:
    """The built program under `serve`."""

    def __init__(self, port: int) -> None:
        self.port = port

    def look(self) -> bytes:
        """Return the server's response to a plain request."""
        return exchanged(self.port, [LOOK])[0]

    def meet(self, way: str, sent: bytes, at: int) -> bytes | None:
        """Send a failing request; return the bytes that its client, or the client before it, receives."""
        if way in CALLS:
            return exchanged(self.port, [sent])[0]
        if way in BEFORE:
            return self.before(way, sent[:at])
        with connected(self.port) as connection:
            self.send(connection, way, sent, at)
        return None

    def before(self, way: str, part: bytes) -> bytes:
        """Serve another client while this one sends and leaves."""
        with connected(self.port) as other, connected(self.port) as connection:
            connection.sendall(part)
            reset(connection) if way == RESET_BEFORE else connection.close()
            other.sendall(LOOK)
            other.shutdown(socket.SHUT_WR)
            return read_to_end(other)[0]

    def send(self, connection: socket.socket, way: str, sent: bytes, at: int) -> None:
        """Send this many bytes; a client that resets within the body first receives `100 Continue`."""
        end = END.search(sent)
        head = end.end() if end else len(sent)
        if way == RESET and b"\r\nExpect:" in sent and at >= head:
            connection.sendall(sent[:head])
            if received(connection, len(CONTINUE)) != CONTINUE:
                raise Differs("no word to go on")
            sent, at = sent[head:], at - head
        connection.sendall(sent[:at])
        if way == RESET:
            reset(connection)
        if way == ENDED:
            connection.shutdown(socket.SHUT_RDWR)


class Serving:
    """The built program on its own file, and the requests with the file and the state before them."""

    def __init__(self, program: str, folder: str, environment: dict[str, str]) -> None:
        self.program, self.environment = program, environment
        self.file = Path(folder, f"{os.getpid()}.served")

    def requests(self) -> list[Request]:
        """Send the requests in order; check that every response equals its row. Return the requests."""
        self.file.unlink(missing_ok=True)
        words = [self.program, "format", str(self.file), *MEMORY[1:]]
        subprocess.run(words, check=True, capture_output=True, timeout=SECONDS)
        model, found = Model(crash_model.State(BASE, LIMIT)), list[Request]()
        for sent, response in exchanges():
            found.append(Request(sent, response, model.source.state, self.file.read_bytes()))
            with served(self.program, self.file, 1, self.environment) as port:
                answers = {response, model.answer(sent), exchanged(port, [sent])[0]}
            if len(answers) != 1:
                raise Differs(f"{sent!r} is answered by {answers}")
        return found

    def faults(self, request: Request, way: Way, each: int) -> tuple[int, list[str]]:
        """Let a request fail in one way at all its cuts; return the number of cuts and all faults."""
        self.file.write_bytes(request.disk)
        cuts, model = cuts_of(request, way, each), Model(request.state)
        count = sum(3 if way in BEFORE else 2 for way, _ in cuts)
        environment = {**self.environment, "EACH": str(each)}
        environment |= CALLS.get(way, {}) if isinstance(way, str) else {}
        with served(self.program, self.file, count, environment) as port:
            found = faults(Server(port), model, request.sent, cuts)
        if state_on(self.file.read_bytes()) != model.source.state:
            found.append(f"{request_title(request.sent)}, {way}: the file has another state at the end")
        return len(cuts), [*found, *self.later(model.source.state)]

    def later(self, state: State) -> list[str]:
        """Return the faults of a later run on the file."""
        judge = LineJudge(Source(state, SIZE))
        wanted = b"".join(judge.answer(request) for request in ASKED)
        words = [self.program, "run", str(self.file)]
        got = subprocess.run(words, input=b"\n".join(ASKED), stdout=subprocess.PIPE, timeout=SECONDS).stdout
        return [differing("a later run", wanted, got)] if wanted != got else []
