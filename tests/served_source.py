"""Servers of the program, with a clock that advances by connection, and clients that send bytes to them."""
import contextlib
import random
import socket
import struct
import subprocess
from collections.abc import Iterable, Iterator
from pathlib import Path

from tests.program import interposed
from tests.reading.disk_judge import LAST_MOMENT

# The timeout of every step, in seconds.
SECONDS = 30
# The time of day is CLOCK milliseconds, plus STEP per accepted connection. All other clocks are the system's.
CLOCK = r"""
#define _GNU_SOURCE
#include <stdlib.h>
#include <sys/socket.h>
#include <sys/syscall.h>
#include <time.h>
#include <unistd.h>
static long accepts = 0;
int clock_gettime(clockid_t id, struct timespec *t) {
    if (id != CLOCK_REALTIME) return syscall(SYS_clock_gettime, id, t);
    long time = atol(getenv("CLOCK")) + atol(getenv("STEP")) * accepts, left = (time % 1000 + 1000) % 1000;
    t->tv_sec = (time - left) / 1000;
    t->tv_nsec = left * 1000000 + 999999;
    return 0;
}
int accept4(int fd, struct sockaddr *a, socklen_t *n, int flags) {
    int it = syscall(SYS_accept4, fd, a, n, flags);
    accepts += it >= 0;
    return it;
}
"""


def with_clock(folder: str | Path) -> dict[str, str]:
    """Return the environment in which this clock replaces the system's."""
    return interposed(folder, "clock", CLOCK)


def moment_of(time: int) -> int:
    """Return the moment that a time of day counts as."""
    return min(max(time, 0), LAST_MOMENT)


class Ended(Exception):
    """A server ended in an unexpected way."""


@contextlib.contextmanager
def served(program: str, file: str | Path, count: int, environment: dict[str, str] | None = None) -> Iterator[int]:
    """Yield the port of a server of `count` connections, which must end by itself with status 0 after the last one."""
    words = [program, "serve", str(file), "0", str(count)]
    with subprocess.Popen(words, stdout=subprocess.PIPE, stderr=subprocess.PIPE, env=environment) as server:
        try:
            assert server.stdout and server.stderr
            line = server.stdout.readline()
            if not line.startswith(b"listening 127.0.0.1:"):
                raise Ended(f"no line with the port: {line!r} {server.stderr.read()!r}")
            yield int(line.removeprefix(b"listening 127.0.0.1:"))
            output, messages = server.communicate(timeout=SECONDS)
            if server.returncode or output or messages:
                raise Ended(f"the server ended with status {server.returncode}, {output[:100]!r} {messages[:300]!r}")
        except subprocess.TimeoutExpired:
            raise Ended("the server goes on after its last connection") from None
        finally:
            server.kill()


def free_port() -> int:
    """Return a free port that the system gives to no client (it gives those from 32,768 on)."""
    while True:
        with socket.socket() as listener:
            port = random.randrange(20_000, 32_000)
            with contextlib.suppress(OSError):
                listener.bind(("127.0.0.1", port))
                return port


@contextlib.contextmanager
def serving(program: str, room: str | Path, count: int = 1_000_000,
            env: dict[str, str] | None = None) -> Iterator[tuple[str, subprocess.Popen[bytes]]]:
    """Yield the URL of a server of a.disk, and the server, which is killed at the end."""
    with subprocess.Popen([program, "serve", "a.disk", "0", str(count)], cwd=room, stdout=subprocess.PIPE,
                          env=env) as server:
        try:
            assert server.stdout
            yield f"http://{server.stdout.readline().decode().split()[1]}", server
        finally:
            server.kill()


def connected(port: int) -> socket.socket:
    """Return a connection to a server that sends its bytes at once."""
    connection = socket.create_connection(("127.0.0.1", port), timeout=SECONDS)
    connection.setsockopt(socket.IPPROTO_TCP, socket.TCP_NODELAY, 1)
    return connection


def read_to_end(connection: socket.socket) -> tuple[bytes, bool]:
    """Return all received bytes, and whether the connection was reset after them."""
    found = list[bytes]()
    with contextlib.suppress(ConnectionError):
        while piece := connection.recv(65_536):
            found.append(piece)
        return b"".join(found), False
    return b"".join(found), True


def reset(connection: socket.socket) -> None:
    """Close a connection with a reset."""
    connection.setsockopt(socket.SOL_SOCKET, socket.SO_LINGER, struct.pack("ii", 1, 0))
    connection.close()


def met(port: int, pieces: Iterable[bytes], ending: str) -> tuple[bytes, bool] | None:
    """Return the response to these pieces and whether the connection was reset, or None if the client does not wait.

    A server that has answered may end a connection while it receives bytes that it does not read; the rest is not sent.
    """
    with connected(port) as connection:
        with contextlib.suppress(ConnectionError):
            for piece in pieces:
                connection.sendall(piece)
        if ending == "reset":
            reset(connection)
        if ending != "half":
            return None
        with contextlib.suppress(OSError):
            connection.shutdown(socket.SHUT_WR)
        return read_to_end(connection)


def exchanged(port: int, pieces: Iterable[bytes]) -> tuple[bytes, bool]:
    """Return the response to these pieces, and whether the connection was reset."""
    found = met(port, pieces, "half")
    assert found is not None
    return found
