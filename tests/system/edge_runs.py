"""Run the proved program on a system whose calls return chosen results, set by environment variables; and its clients.

A preloaded C library, which `cc` builds into a temporary folder, replaces the system's calls.
"""
import contextlib
import socket
import subprocess
import time
from collections.abc import Iterator
from pathlib import Path
from typing import Any

from tests.program import MEMORY, compare, interposed

# The longest wait for an answer, in seconds.
SECONDS = 30
# The results that environment variables set.
SYSTEM = r"""
#define _GNU_SOURCE
#include <dlfcn.h>
#include <errno.h>
#include <stdio.h>
#include <stdlib.h>
#include <sys/socket.h>
#include <sys/time.h>
#include <time.h>
#include <unistd.h>
static long accepts = 0, attempts = 0, calls = 0, reads = 0, nones = 0;
static long number(const char *name, long absent) { char *it = getenv(name); return it ? atol(it) : absent; }
static int fails(void) { if (++calls != number("FILE_FAILS_AT", 0)) return 0; errno = EIO; return 1; }
#define NEXT(f) ((__typeof__(&f))dlsym(RTLD_NEXT, #f))
/* A read of what a client sends, or of standard input, is interrupted. */
static int interrupted(void) { if (++reads != number("INTERRUPTED_AT", 0)) return 0; errno = EINTR; return 1; }
/* A write of this many bytes or more takes none of them; each is counted. */
static int takes_none(size_t n) {
    long from = number("NONE_TAKEN_FROM", 0);
    if (!from || n < (size_t)from) return 0;
    nones += number("TRIES", 1);
    return 1;
}

/* The time of day is SECONDS and NANOSECONDS, and DAYS later with each connection that was taken. No time passes. */
int clock_gettime(clockid_t id, struct timespec *t) {
    if (getenv("UNREAD_CLOCK")) { errno = EINVAL; return -1; }
    t->tv_sec = id == CLOCK_REALTIME ? number("SECONDS", 951782400) + 86400 * number("DAYS", 0) * accepts : 0;
    t->tv_nsec = id == CLOCK_REALTIME ? number("NANOSECONDS", 0) : 0;
    return 0;
}
/* One connection can't be taken: it waits on. */
int accept4(int fd, struct sockaddr *a, socklen_t *n, int flags) {
    if (++attempts == number("ACCEPT_FAILS_AT", 0)) { errno = ECONNABORTED; return -1; }
    int it = NEXT(accept4)(fd, a, n, flags);
    accepts += it >= 0;
    return it;
}
/* Two seconds for the rest of a request become a minute, so that nothing here depends on speed. */
int setsockopt(int fd, int level, int name, const void *value, socklen_t n) {
    struct timeval minute = {60, 0};
    if (level == SOL_SOCKET && name == SO_RCVTIMEO) return NEXT(setsockopt)(fd, level, name, &minute, sizeof minute);
    return NEXT(setsockopt)(fd, level, name, value, n);
}
ssize_t send(int fd, const void *bytes, size_t n, int flags) {
    if (getenv("SENDS_FAIL")) { errno = EIO; return -1; }
    return takes_none(n) ? 0 : NEXT(send)(fd, bytes, n, flags);
}
/* The rest of a refused request is read 8,192 bytes at once: more often than it is asked for, or in smaller parts. */
static ssize_t rest(int fd, void *bytes, size_t n, int flags) {
    ssize_t it = 1;
    if (number("REST_AT_MOST", 0)) n = number("REST_AT_MOST", 0);
    for (long times = number("REST_TIMES", 1); times > 0 && it > 0; times--) it = NEXT(recv)(fd, bytes, n, flags);
    return it;
}
ssize_t recv(int fd, void *bytes, size_t n, int flags) {
    if (interrupted()) return -1;
    return n == 8192 ? rest(fd, bytes, n, flags) : NEXT(recv)(fd, bytes, n, flags);
}
ssize_t read(int fd, void *bytes, size_t n) { return fd == 0 && interrupted() ? -1 : NEXT(read)(fd, bytes, n); }
ssize_t write(int fd, const void *bytes, size_t n) { return fd == 1 && takes_none(n) ? 0 : NEXT(write)(fd, bytes, n); }
/* The calls on files are counted, from 1. */
ssize_t pread(int fd, void *bytes, size_t n, off_t at) { return fails() ? -1 : NEXT(pread)(fd, bytes, n, at); }
ssize_t pwrite(int fd, const void *bytes, size_t n, off_t at) {
    return fails() ? -1 : takes_none(n) ? 0 : NEXT(pwrite)(fd, bytes, n, at);
}
int fsync(int fd) { return fails() ? -1 : NEXT(fsync)(fd); }
int fdatasync(int fd) { return fails() ? -1 : NEXT(fdatasync)(fd); }
/* So are the growths of memory, from the first connection on. */
extern void *__libc_malloc(size_t), *__libc_realloc(void *, size_t);
static long growths = 0;
static int refused(void) { return accepts && ++growths == number("GROWTH_REFUSED_AT", 0); }
/* At the end it prints how many there were, and how many writes took no byte. */
__attribute__((destructor)) static void told(void) {
    if (getenv("GROWTHS_TOLD")) dprintf(2, "%ld growths\n", growths);
    if (getenv("NONES_TOLD")) dprintf(2, "%ld took none\n", nones);
}
void *malloc(size_t n) { return refused() ? 0 : __libc_malloc(n); }
void *realloc(void *p, size_t n) { return refused() ? 0 : __libc_realloc(p, n); }
"""
HOST = b"HTTP/1.1\r\nHost: a\r\n"
PUT = b"PUT /resource/c " + HOST + b"Content-Length: 3\r\n"
# A request that the server refuses before it reads the body.
TOO_LONG = b"PUT /resource/c " + HOST + b"Content-Length: 16777217\r\n\r\n"


def formatted(program: str, room: Path, name: str = "a.disk", size: str = "65536") -> str:
    """Format a new source in a folder; return its path."""
    subprocess.run([program, "format", name, size, *MEMORY[2:]], cwd=room, check=True, capture_output=True)
    return name


def run(program: str, room: Path, *words: str, script: bytes = b"", env: dict[str, str] | None = None,
        **ends: Any) -> tuple[int, bytes, bytes]:
    """Run the program; return its exit status, standard output (unless redirected) and standard error."""
    ends = {"stdout": subprocess.PIPE} | ({} if "stdin" in ends else {"input": script}) | ends
    finished = subprocess.run([program, *words], cwd=room, env=env, stderr=subprocess.PIPE, timeout=SECONDS, **ends)
    return finished.returncode, finished.stderr, finished.stdout


@contextlib.contextmanager
def served(program: str, room: Path, count: int, port: str = "0", stderr: Any = None,
           **settings: str) -> Iterator[tuple[int, subprocess.Popen[bytes]]]:
    """Yield the port and the process of a server of this many connections to a.disk, with these settings."""
    env = interposed(room, "system", SYSTEM) | settings
    words = [program, "serve", "a.disk", port, str(count)]
    with subprocess.Popen(words, cwd=room, stdout=subprocess.PIPE, stderr=stderr, env=env) as server:
        try:
            assert server.stdout
            yield int(server.stdout.readline().removeprefix(b"listening 127.0.0.1:")), server
            compare("the server's status", b"0", b"%d" % server.wait(SECONDS))
        finally:
            server.kill()


def connected(port: int) -> socket.socket:
    """Return a connection to a server."""
    return socket.create_connection(("127.0.0.1", port), timeout=SECONDS)


def read_to_end(connection: socket.socket) -> bytes:
    """Return all bytes up to the end or a reset."""
    found = b""
    with contextlib.suppress(ConnectionError):
        while piece := connection.recv(65536):
            found += piece
    return found


def ask(port: int, request: bytes) -> bytes:
    """Return the response to a request."""
    with connected(port) as connection:
        connection.sendall(request)
        return read_to_end(connection)


def ends_with(found: bytes, wanted: bytes) -> None:
    """Check the end of a response."""
    compare("the end of a response", wanted, found[max(len(found) - len(wanted), 0):])


def is_read_from(connection: socket.socket) -> bool:
    """Return whether the other side of a half-closed connection still reads."""
    try:
        for _ in range(3):
            connection.sendall(b"x")
            time.sleep(0.1)
        return True
    except ConnectionError:
        return False


def peak(server: subprocess.Popen[bytes]) -> int:
    """Return the peak memory of a server so far, in KiB."""
    lines = Path(f"/proc/{server.pid}/status").read_text().splitlines()
    return next(int(line.split()[1]) for line in lines if line.startswith("VmHWM:"))


def put_of(length: int) -> bytes:
    """Return the bytes of a put of this many bytes."""
    return b"PUT /resource/c " + HOST + b"Content-Length: %d\r\n\r\n" % length + b"x" * length
