"""Run the program under strace, which lists its calls and lets one of them return a chosen error or count.

Every line of a script is one packet of standard input, so that the program reads it by one call.
"""
import contextlib
import os
import re
import signal
import socket
import subprocess
from collections.abc import Sequence
from pathlib import Path
from typing import NamedTuple

from tests.program import SECONDS
from tests.system.edge_runs import ask

# The errors of each call: those of its manual page, and those that file systems and devices return. 0 is a call that
# transfers no byte. (A signal interrupts no lock that does not wait.)
ERRORS = {name: errors.split() for name, errors in {
    "openat": "EACCES EBADF EBUSY EDQUOT EEXIST EFAULT EFBIG EINTR EINVAL EIO EISDIR ELOOP EMFILE ENAMETOOLONG ENFILE "
              "ENODEV ENOENT ENOMEM ENOSPC ENOTDIR ENXIO EOPNOTSUPP EOVERFLOW EPERM EROFS ETXTBSY EAGAIN",
    "statx": "EACCES EBADF EFAULT EINVAL EIO ELOOP ENOENT ENOMEM ENOTDIR",
    "flock": "EBADF EINVAL EIO ENOLCK EAGAIN EOPNOTSUPP",
    "ftruncate": "EACCES EBADF EDQUOT EFBIG EINTR EINVAL EIO ENOSPC EPERM EROFS ETXTBSY",
    "fsync": "EBADF EDQUOT EINTR EINVAL EIO ENOSPC EROFS",
    "fadvise64": "EBADF EINVAL EIO ESPIPE",
    "pread64": "0 EAGAIN EBADF EFAULT EINTR EINVAL EIO EISDIR ENXIO EOVERFLOW ESPIPE",
    "pwrite64": "0 EAGAIN EBADF EDQUOT EFAULT EFBIG EINTR EINVAL EIO ENOSPC ENXIO EOVERFLOW EPERM ESPIPE",
    "close": "EDQUOT EINTR EIO ENOSPC",
    "read": "EAGAIN EBADF ECONNRESET EFAULT EINTR EINVAL EIO EISDIR ETIMEDOUT",
    "write": "0 EAGAIN EBADF ECONNRESET EDQUOT EFAULT EFBIG EINTR EINVAL EIO ENOSPC EPERM EPIPE",
    "socket": "EACCES EAFNOSUPPORT EINVAL EMFILE ENFILE ENOBUFS ENOMEM EPROTONOSUPPORT",
    "setsockopt": "EBADF EDOM EFAULT EINVAL ENOBUFS ENOMEM ENOPROTOOPT ENOTSOCK",
    "bind": "EACCES EADDRINUSE EADDRNOTAVAIL EBADF EINVAL ENOMEM ENOTSOCK",
    "listen": "EADDRINUSE EBADF ENOTSOCK EOPNOTSUPP",
    "getsockname": "EBADF EFAULT EINVAL ENOBUFS ENOTSOCK",
    "accept4": "EAGAIN EBADF ECONNABORTED EFAULT EHOSTUNREACH EINTR EINVAL EMFILE ENETDOWN ENFILE ENOBUFS ENOMEM "
               "ENOTSOCK EOPNOTSUPP EPERM EPROTO ETIMEDOUT",
    "recvfrom": "EAGAIN EBADF ECONNREFUSED ECONNRESET EFAULT EINTR EINVAL EIO ENOMEM ENOTCONN ENOTSOCK ETIMEDOUT",
    "sendto": "0 EACCES EAGAIN EBADF ECONNRESET EDESTADDRREQ EFAULT EINTR EINVAL EMSGSIZE ENETDOWN ENOBUFS ENOMEM "
              "ENOTCONN ENOTSOCK EOPNOTSUPP EPIPE",
    "shutdown": "EBADF EINVAL ENOTCONN ENOTSOCK",
}.items()}
# A line of the list: the name, the file of a descriptor or the path, and the arguments with the result.
LINE = re.compile(r"(\w+)\((?:(\d+)<(.*?)>|AT_FDCWD<.*?>, \"(.*?)\")?(.*)")
STREAMS = {"0": "input", "1": "output", "2": "messages"}


class Call(NamedTuple):
    """A call: its name, its file, its number among the calls of this name, and its arguments and result."""

    name: str
    file: str
    number: int
    rest: str


class Failure(NamedTuple):
    """An error of a call."""

    call: Call
    error: str

    @property
    def words(self) -> list[str]:
        """Return the words of strace that inject the error."""
        how = "retval=0" if self.error == "0" else f"error={self.error}"
        return ["-e", f"inject={self.call.name}:{how}:when={self.call.number}"]


class Run(NamedTuple):
    """The exit status, output and messages of a run, and its calls on its files, sockets and streams."""

    status: int
    output: bytes
    messages: bytes
    calls: list[Call]


def calls_of(text: str) -> list[Call]:
    """Return the calls of a list, without those of the loader of libraries."""
    found, counts = list[Call](), dict[str, int]()
    for line in text.splitlines():
        match = LINE.match(line)
        if not match or match[1] not in ERRORS:
            continue
        name, number, file, path, rest = match.groups()
        counts[name] = counts.get(name, 0) + 1
        escaped = path or file or ""
        at = STREAMS.get(number or "") or escaped.encode().decode("unicode_escape").encode("latin-1").decode()
        if not re.match("/(etc|lib|usr|proc|sys)/", at) and ".so" not in at:
            found.append(Call(name, at, counts[name], rest))
    return found


def words_of(program: str, failure: Failure | None) -> list[str]:
    """Return the words that run the program under strace."""
    return ["strace", "-y", "-qq", "-s", "8", "-o", "trace", "-e", f"trace={','.join(ERRORS)}",
            *(failure.words if failure else []), program]


def packets(lines: Sequence[bytes]) -> socket.socket:
    """Return a socket from which each read gets one of these packets."""
    sending, reading = socket.socketpair(socket.AF_UNIX, socket.SOCK_SEQPACKET)
    with sending:
        sending.setsockopt(socket.SOL_SOCKET, socket.SO_SNDBUF, 1 << 22)
        for line in lines:
            sending.send(line)
    return reading


def traced(program: str, words: Sequence[str], lines: Sequence[bytes] = (), failure: Failure | None = None) -> Run:
    """Run the program in the current folder; return its outcome and its calls."""
    with packets(lines) as reading:
        finished = subprocess.run([*words_of(program, failure), *words], stdin=reading.fileno(), capture_output=True,
                                  timeout=SECONDS, check=False)
    return Run(finished.returncode, finished.stdout, finished.stderr, calls_of(Path("trace").read_text()))



def served(program: str, file: str, requests: Sequence[bytes], failure: Failure | None = None,
           env: dict[str, str] | None = None) -> tuple[Run, list[bytes]]:
    """Run a server of as many connections as there are requests; return its outcome and the responses.

    A request that finds no server has an empty response.
    """
    words = [*words_of(program, failure), "serve", file, "0", str(len(requests))]
    with subprocess.Popen(words, stdout=subprocess.PIPE, stderr=subprocess.PIPE, env=env,
                          start_new_session=True) as server:
        try:
            assert server.stdout
            line, responses = server.stdout.readline(), list[bytes]()
            for request in requests if line else []:
                responses.append(b"")
                with contextlib.suppress(ConnectionError):
                    responses[-1] = ask(int(line.rpartition(b":")[2]), request)
            output, messages = server.communicate(timeout=SECONDS)
        finally:
            # (the program goes on without strace)
            with contextlib.suppress(ProcessLookupError):
                os.killpg(server.pid, signal.SIGKILL)
    return Run(server.returncode, line + output, messages, calls_of(Path("trace").read_text())), responses
