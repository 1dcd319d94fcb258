"""Make reads and writes of the built program fail at a chosen byte: reset sockets, closed pipes, and a preloaded
library that makes the program's own calls fail.

The library lets one read fail, and later reads work, so that a program that reads on shows itself. It lets every write
from a byte on fail, or one write only.
"""
import array
import contextlib
import fcntl
import os
import select
import socket
import subprocess
import termios
import time
from collections.abc import Iterator
from pathlib import Path
from typing import Any, BinaryIO

from tests.program import STILL_CLOCK, interposed

# The longest wait of one step, in seconds.
SECONDS = 30
# Standard output takes TAKEN bytes in all, and then fails. With BY_LINE set, every read of standard input returns one
# line. The connections 1, 3, 5 and so on of a server take 0, 1, 2 and so on times EACH bytes; then the call that
# FAILING names fails. With ONCE set, only one write fails. The clock does not move.
FAILING = STILL_CLOCK + r"""
#include <errno.h>
#include <stdlib.h>
#include <string.h>
#include <sys/socket.h>
#include <sys/syscall.h>
#include <unistd.h>
/* How many bytes may pass, or -1 for all. */
static long left_in = -1, left_out = -1, accepts = 0;
__attribute__((constructor)) static void begin(void) {
    char *taken = getenv("TAKEN");
    if (taken) left_out = atol(taken);
}
static int is_once(void) { return getenv("ONCE") != NULL; }
static int is_failing(const char *kind) { char *it = getenv("FAILING"); return it && !strcmp(it, kind); }
/* How many of n bytes pass; none where this call fails, and then all do where it fails once. */
static long passing(long *left, size_t n, int is_once) {
    if (*left < 0 || n == 0) return n;
    if (*left == 0) {
        *left = is_once ? -1 : 0;
        errno = ECONNRESET;
        return 0;
    }
    if (n > (size_t)*left) n = *left;
    return n;
}
static ssize_t passed(long *left, ssize_t n) {
    if (*left > 0 && n > 0) *left -= n;
    return n;
}
int accept4(int fd, struct sockaddr *a, socklen_t *n, int flags) {
    int it = syscall(SYS_accept4, fd, a, n, flags);
    if (it < 0) return it;
    char *each = getenv("EACH");
    long bytes = accepts % 2 ? -1 : accepts / 2 * (each ? atol(each) : 1);
    accepts++;
    left_in = is_failing("recv") ? bytes : -1;
    left_out = is_failing("send") ? bytes : -1;
    return it;
}
ssize_t recv(int fd, void *bytes, size_t n, int flags) {
    long most = passing(&left_in, n, 1);
    if (most == 0 && n) return -1;
    return passed(&left_in, syscall(SYS_recvfrom, fd, bytes, most, flags, NULL, NULL));
}
ssize_t send(int fd, const void *bytes, size_t n, int flags) {
    long most = passing(&left_out, n, is_once());
    if (most == 0 && n) return -1;
    return passed(&left_out, syscall(SYS_sendto, fd, bytes, most, flags, NULL, 0));
}
ssize_t write(int fd, const void *bytes, size_t n) {
    if (fd != 1) return syscall(SYS_write, fd, bytes, n);
    long most = passing(&left_out, n, is_once());
    if (most == 0 && n) return -1;
    return passed(&left_out, syscall(SYS_write, fd, bytes, most));
}
ssize_t read(int fd, void *bytes, size_t n) {
    char *line = bytes;
    size_t came = 0;
    if (fd != 0 || !getenv("BY_LINE")) return syscall(SYS_read, fd, bytes, n);
    while (came < n && (came == 0 || line[came - 1] != '\n')) {
        ssize_t it = syscall(SYS_read, fd, line + came, 1);
        if (it <= 0) return came ? (ssize_t)came : it;
        came++;
    }
    return came;
}
"""


class Stuck(Exception):
    """The program hangs."""


def with_failing(folder: str | Path) -> dict[str, str]:
    """Return the environment in which the library above replaces the system's calls."""
    return interposed(folder, "failing", FAILING)


def stream() -> tuple[socket.socket, socket.socket]:
    """Return the two ends of a loopback connection."""
    with socket.create_server(("127.0.0.1", 0)) as listener:
        ours = socket.create_connection(listener.getsockname(), timeout=SECONDS)
        theirs, _ = listener.accept()
    ours.setsockopt(socket.IPPROTO_TCP, socket.TCP_NODELAY, 1)
    return ours, theirs


def pipe() -> tuple[BinaryIO, BinaryIO]:
    """Return the two ends of a pipe, as unbuffered files."""
    reading, writing = os.pipe()
    return open(reading, "rb", buffering=0), open(writing, "wb", buffering=0)


def wait_taken(end: Any) -> None:
    """Wait until the program has read all bytes that were sent to this end."""
    waiting, until = array.array("i", [0]), time.monotonic() + SECONDS
    while fcntl.ioctl(end, termios.FIONREAD, waiting) or waiting[0]:
        if time.monotonic() > until:
            raise Stuck("what was sent is not read")
        time.sleep(0.000_05)


def received(end: Any, count: int) -> bytes:
    """Return this many bytes from an end, or fewer if it ends earlier."""
    found = b""
    while len(found) < count:
        if not select.select([end], [], [], SECONDS)[0]:
            raise Stuck(f"{len(found)} of {count} bytes came")
        piece = os.read(end.fileno(), count - len(found))
        if not piece:
            break
        found += piece
    return found


@contextlib.contextmanager
def started(words: list[str], environment: dict[str, str] | None = None,
            **ends: Any) -> Iterator[subprocess.Popen[bytes]]:
    """Start a program that alone holds these ends; kill it if a step fails."""
    child = subprocess.Popen(words, stderr=subprocess.PIPE, env=environment, **ends)
    try:
        yield child
    finally:
        if child.poll() is None:
            child.kill()
        child.wait()
        assert child.stderr
        child.stderr.close()


def ended(child: subprocess.Popen[bytes]) -> tuple[int, bytes]:
    """Wait for a program to end; return its exit status and messages."""
    try:
        _, messages = child.communicate(timeout=SECONDS)
    except subprocess.TimeoutExpired:
        raise Stuck("the program goes on") from None
    return child.returncode, messages


def pipe_of(data: bytes) -> BinaryIO:
    """Return the reading end of a closed pipe that contains these bytes."""
    reading, writing = pipe()
    writing.write(data)
    writing.close()
    return reading

