"""Fake HTTP servers on loopback: answers of a function, or scripted responses by path, and a log of the requests."""
from __future__ import annotations

import contextlib
import dataclasses
import functools
import hashlib
import http.client
import socket
import ssl
import struct
import threading
import time
from collections.abc import Callable, Iterable, Mapping
from typing import TypeVar

# The time in every `Last-Modified`.
MODIFIED = "Thu, 03 Jan 2013 09:00:00 GMT"
# Seconds to wait for the end of connections, at most.
IDLE = 5
LONGEST_HEAD = 65_536


@dataclasses.dataclass
class Request:
    """A request as received: its head and body, the number of its connection (from 0), the moment, and the status of
    its response, if a server by path sent one.
    """

    head: bytes
    body: bytes
    connection: int
    moment: float
    status: int = 0

    @property
    def method(self) -> str:
        """Return the method."""
        return self.head.split(b" ", 1)[0].decode()

    @property
    def path(self) -> str:
        """Return the target of the request line."""
        return self.head.split(b" ", 2)[1].decode("latin-1")

    @functools.cached_property
    def fields(self) -> dict[str, str]:
        """Return the header fields, with names in lower case."""
        lines = self.head.decode("latin-1").split("\r\n")[1:]
        return {name.lower(): value.strip() for name, _, value in (line.partition(":") for line in lines if line)}


@dataclasses.dataclass(frozen=True)
class Answer:
    """Bytes to send piece by piece, and whether the connection stays open, is closed, or is reset after them."""

    pieces: Iterable[bytes] = ()
    then: str = "keep"


def answer(body: bytes = b"", status: str = "200 OK", *fields: str, then: str = "keep") -> Answer:
    """Return a whole response with its length."""
    lines = [f"HTTP/1.1 {status}", *fields, f"Content-Length: {len(body)}"]
    return Answer([("\r\n".join(lines) + "\r\n\r\n").encode("latin-1") + body], then)


CLOSE, RESET = Answer(then="close"), Answer(then="reset")
Answering = Callable[[Request], Answer]
Self = TypeVar("Self", bound="RawServer")


class RawServer:
    """A server that runs in `with`, every connection in its own thread. `handle` is called for every request; `fault`
    is its last exception, which ends the connection.
    """

    def __init__(self, handle: Answering, context: ssl.SSLContext | None = None, port: int = 0) -> None:
        self.handle, self.context = handle, context
        self.socket = socket.create_server(("127.0.0.1", port), backlog=128)
        self.port = self.socket.getsockname()[1]
        self.base = f"{'https' if context else 'http'}://127.0.0.1:{self.port}"
        self.requests: list[Request] = []
        self.fault: Exception | None = None
        # The certificates of clients, in the order of connections; the connections so far and now; the requests that
        # wait for their answer, now and at most; the sent bytes.
        self.certificates: list[object] = []
        self.connections = self.open = self.waiting = self.most_waiting = self.sent = 0
        self.lock = threading.RLock()
        self.thread = threading.Thread(target=self.accept, daemon=True)

    def __enter__(self: Self) -> Self:
        self.thread.start()
        return self

    def __exit__(self, *_: object) -> None:
        # (closing alone does not end `accept`)
        self.socket.shutdown(socket.SHUT_RDWR)
        self.socket.close()
        self.thread.join(10)

    def paths(self, prefix: str = "") -> list[str]:
        """Return the targets of all requests so far that begin with a prefix."""
        with self.lock:
            return [request.path for request in self.requests if request.path.startswith(prefix)]

    def wait_until_idle(self) -> None:
        """Wait until the connections of clients that have ended are closed."""
        end = time.monotonic() + IDLE
        time.sleep(0.02)
        while self.open and time.monotonic() < end:
            time.sleep(0.005)

    def accept(self) -> None:
        """Serve connections until the socket is closed."""
        with contextlib.suppress(OSError):
            while True:
                connection, _ = self.socket.accept()
                self.connections += 1
                threading.Thread(target=self.serve, args=(connection, self.connections - 1), daemon=True).start()

    def serve(self, connection: socket.socket, number: int) -> None:
        """Serve one connection."""
        with self.lock:
            self.open += 1
        try:
            with contextlib.suppress(OSError), connection:
                connection.settimeout(30)
                if self.context:
                    connection = secured = self.context.wrap_socket(connection, server_side=True)
                    self.certificates.append(secured.getpeercert())
                while self.exchange(connection, number):
                    pass
        except Exception as fault:
            self.fault = fault
        finally:
            with self.lock:
                self.open -= 1

    def exchange(self, connection: socket.socket, number: int) -> bool:
        """Answer one request. Return whether the connection stays open."""
        request = received(connection, number)
        if request is None:
            return False
        with self.lock:
            self.requests.append(request)
            self.waiting += 1
            self.most_waiting = max(self.waiting, self.most_waiting)
        found = self.handle(request)
        with self.lock:
            self.waiting -= 1
        for piece in found.pieces:
            connection.sendall(piece)
            with self.lock:
                self.sent += len(piece)
        if found.then == "reset":
            connection.setsockopt(socket.SOL_SOCKET, socket.SO_LINGER, struct.pack("ii", 1, 0))
        return found.then == "keep"


def received(connection: socket.socket, number: int) -> Request | None:
    """Return the next request of a connection, or None if the client has closed it."""
    head = b""
    while b"\r\n\r\n" not in head and len(head) < LONGEST_HEAD:
        piece = connection.recv(LONGEST_HEAD)
        if not piece:
            return None
        head += piece
    head, _, body = head.partition(b"\r\n\r\n")
    request = Request(head + b"\r\n", b"", number, time.monotonic())
    parts, missing = [body], int(request.fields.get("content-length", "0")) - len(body)
    while missing > 0:
        piece = connection.recv(min(missing, 1 << 20))
        if not piece:
            return None
        parts.append(piece)
        missing -= len(piece)
    request.body = b"".join(parts)
    return request


def in_turn(*answers: Answer) -> Answering:
    """Return a function that gives these answers in turn, and repeats the last one."""
    left = list(answers)
    return lambda _: left.pop(0) if len(left) > 1 else left[0]


def closed_port() -> int:
    """Return a port without a listener."""
    with socket.create_server(("127.0.0.1", 0)) as listening:
        return int(listening.getsockname()[1])


@dataclasses.dataclass(frozen=True)
class Response:
    """A response: its body, status and more header fields.

    `delay` is in seconds, before the response; after `cut` bytes of the body the connection closes, although
    `Content-Length` has the full length; `is_reset` resets the connection instead of a response. `is_early` sends an
    interim response 103 first.
    """

    body: bytes = b""
    status: int = 200
    fields: Mapping[str, str] = dataclasses.field(default_factory=dict)
    delay: float = 0.0
    cut: int | None = None
    is_reset: bool = False
    is_early: bool = False


def redirect(location: str, status: int = 302) -> Response:
    """Return a redirect."""
    return Response(b"", status, {"Location": location})


class Server(RawServer):
    """Answer from `responses` by path; a list gives its responses in order, then repeats the last.

    `has_tags` and `has_dates` add `ETag` and `Last-Modified` to responses 200, and answer conditional requests with
    304.
    """

    def __init__(self) -> None:
        super().__init__(self.scripted)
        self.responses: dict[str, Response | list[Response]] = {}
        self.has_tags = self.has_dates = True
        # Actions before a response: a condition on the path, and the call.
        self.actions: list[tuple[Callable[[str], bool], Callable[[], object]]] = []

    def put(self, path: str, body: bytes | str | Response | list[Response]) -> None:
        """Answer requests for a path with this body, response or sequence of responses."""
        if isinstance(body, str):
            body = body.encode()
        self.responses[path] = Response(body) if isinstance(body, bytes) else body

    def at_path(self, path: str, action: Callable[[], object]) -> None:
        """Call `action` once, before the next response for this path."""
        self.actions.append((lambda asked: asked == path, action))

    def at_request(self, number: int, action: Callable[[], object], prefix: str = "/") -> None:
        """Call `action` once, before the response to request `number` (from 1, counted from now) below a prefix."""
        left = [number]

        def is_due(path: str) -> bool:
            """Return whether the action is due; count down."""
            left[0] -= path.startswith(prefix)
            return left[0] <= 0

        self.actions.append((is_due, action))

    def response_to(self, path: str) -> Response:
        """Run the actions that are due, and return the response."""
        with self.lock:
            due = [(is_due, action) for is_due, action in self.actions if is_due(path)]
            self.actions = [pair for pair in self.actions if pair not in due]
            for _, action in due:
                action()
            found = self.responses.get(path)
            if isinstance(found, list):
                return found.pop(0) if len(found) > 1 else found[0]
            return found or Response(b"not found\n", 404, {"Content-Type": "text/plain"})

    def scripted(self, request: Request) -> Answer:
        """Return the response to a request in bytes."""
        response = self.response_to(request.path)
        time.sleep(response.delay)
        if response.is_reset:
            return RESET
        tag = '"' + hashlib.md5(response.body).hexdigest() + '"'
        request.status = 304 if self.is_current(request, response, tag) else response.status
        body = b"" if request.status == 304 else response.body
        fields = {"Content-Length": str(len(body))}
        if response.status == 200:
            fields |= {"ETag": tag} if self.has_tags else {}
            fields |= {"Last-Modified": MODIFIED} if self.has_dates else {}
        lines = [f"{name}: {value}\r\n" for name, value in (fields | dict(response.fields)).items()]
        reason = http.client.responses.get(request.status, "Scripted")
        early = "HTTP/1.1 103 Early Hints\r\n\r\n" if response.is_early else ""
        head = f"{early}HTTP/1.1 {request.status} {reason}\r\n{''.join(lines)}\r\n".encode("latin-1")
        return Answer([head + body[:response.cut]], "keep" if response.cut is None else "close")

    def is_current(self, request: Request, response: Response, tag: str) -> bool:
        """Return whether the response to a conditional request is 304."""
        if response.status != 200:
            return False
        if (wanted := request.fields.get("if-none-match")) is not None:
            return self.has_tags and wanted == tag
        return self.has_dates and request.fields.get("if-modified-since") == MODIFIED


def serving() -> Server:
    """Return a server that runs in `with`."""
    return Server()
