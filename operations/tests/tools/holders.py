"""Start processes that hold a file by a lock, or a port (test_why.py)."""
from __future__ import annotations

import contextlib
import subprocess
import sys
from collections.abc import Iterator



@contextlib.contextmanager
def child(*words: str) -> Iterator[subprocess.Popen[str]]:
    """Run a process that prints a line once it has begun; kill it at the end."""
    with subprocess.Popen(words, stdout=subprocess.PIPE, stdin=subprocess.PIPE, text=True) as process:
        assert process.stdout
        try:
            assert process.stdout.readline() == "begun\n", f"{words} did not begin"
            yield process
        finally:
            process.kill()


def locking(path: str, how: str = "LOCK_EX") -> tuple[str, ...]:
    """Return the command line of a process that locks a file."""
    locked = f"f = open({path!r}, 'r+'); fcntl.flock(f, fcntl.{how})"
    return sys.executable, "-c", f"import fcntl; {locked}; print('begun', flush=True); input()"


def listening(port: int, address: str = "127.0.0.1", kind: str = "AF_INET",
              more: str = "s.listen()") -> tuple[str, ...]:
    """Return the command line of a process that listens on a port."""
    reused = f"s.setsockopt(socket.SOL_SOCKET, socket.SO_REUSEADDR, {int(bool(more))})"
    taken = f"s = socket.socket(socket.{kind}); {reused}; s.bind(({address!r}, {port}))"
    return sys.executable, "-c", f"import socket; {taken}; {more or 'pass'}; print('begun', flush=True); input()"
