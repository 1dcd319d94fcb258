"""Run the command, serve, stop and kill sources, and write folders, for the tests of the command."""
from __future__ import annotations

import contextlib
import os
import pathlib
import re
import signal
import subprocess
import time
from collections.abc import Callable, Iterator, Mapping
from typing import Any

from operations.tests.mirror.mirrors import DIRECT, OWN
from operations.tests.tools import COMMAND
from tests.program import Differs
from tests.served_source import free_port

Path = str | os.PathLike[str]
Run = subprocess.Popen[str]
# The timeout of a step in seconds, long enough for a busy machine.
SECONDS = 120


@contextlib.contextmanager
def within(seconds: float, why: str) -> Iterator[None]:
    """Fail a block that takes longer than some seconds."""
    def ring(*_: object) -> None:
        raise Differs(why)

    before = signal.signal(signal.SIGALRM, ring)
    signal.setitimer(signal.ITIMER_REAL, seconds)
    try:
        yield
    finally:
        signal.setitimer(signal.ITIMER_REAL, 0)
        signal.signal(signal.SIGALRM, before)


def begun(*words: object, **settings: Any) -> Run:
    """Start the command; return its process."""
    how: dict[str, Any] = {"stdout": subprocess.PIPE, "stderr": subprocess.PIPE, "text": True,
                           "env": os.environ | DIRECT} | settings
    return subprocess.Popen([*COMMAND, *map(str, words)], **how)


def ended(run: Run) -> tuple[int, str, str]:
    """Wait for the end of a run; return its exit status, output and messages."""
    try:
        output, complaints = run.communicate(timeout=SECONDS)
    except subprocess.TimeoutExpired:
        run.kill()
        words: Any = run.args
        raise Differs(f"a run goes on for more than {SECONDS} seconds: {words[2:]}") from None
    return run.returncode, output, complaints


def ropepeach(*words: object, **settings: Any) -> tuple[int, str, str]:
    """Run the command; return its exit status, output and messages."""
    return ended(begun(*words, **settings))


class Server:
    """A source on a file, at a fixed port, which can be stopped and restarted."""

    def __init__(self, program: Path, disk: Path, size: int = 8 << 20, limit: int = 100, base: str | None = None,
                 data: bytes | None = None) -> None:
        self.program, self.disk, self.port = program, pathlib.Path(disk), int(free_port())
        self.process: subprocess.Popen[bytes] | None = None
        self.url = f"http://127.0.0.1:{self.port}"
        if data:
            self.disk.write_bytes(data)
        else:
            subprocess.run([program, "format", self.disk, str(size), base or self.url, str(limit)],
                           check=True, capture_output=True, timeout=SECONDS)

    def __enter__(self) -> Server:
        self.start()
        return self

    def __exit__(self, *fault: object) -> None:
        self.kill()

    def start(self, count: int = 1_000_000) -> None:
        """Serve this many connections, and wait until it listens."""
        words = [self.program, "serve", self.disk, str(self.port), str(count)]
        self.process = subprocess.Popen(words, stdout=subprocess.PIPE)
        assert self.process.stdout
        with self.process.stdout as output:
            assert output.readline() == b"listening 127.0.0.1:%d\n" % self.port

    def kill(self) -> None:
        """Kill the server if it runs."""
        if self.process:
            self.process.kill()
            self.process.wait(SECONDS)

    def hold(self) -> None:
        """Stop the server by SIGSTOP, until `go_on`."""
        assert self.process
        self.process.send_signal(signal.SIGSTOP)

    def go_on(self) -> None:
        """Continue the server."""
        assert self.process
        self.process.send_signal(signal.SIGCONT)

    def answers(self, *lines: str) -> bytes:
        """Kill the server, and return the program's output for a script."""
        self.kill()
        script = "".join(f"{line}\n" for line in lines).encode()
        return subprocess.run([self.program, "run", self.disk], input=script, capture_output=True,
                              check=True, timeout=SECONDS).stdout

    def counts(self) -> tuple[int, ...]:
        """Return the numbers of resources, kept changes and publications."""
        return tuple(map(int, re.findall(r"(?:resources|changes|publication) (\d+)", self.answers("status").decode())))

    def holds(self, folder: Path) -> None:
        """Check that the source has exactly the files of a folder. Their names need no encoding."""
        wanted = {str(path.relative_to(folder)): path.read_bytes()
                  for path in sorted(pathlib.Path(folder).rglob("*")) if path.is_file()}
        shown = self.answers("status", *(f"show /resource/{path}" for path in wanted)).partition(b"\n")
        assert b" ".join(shown[0].split()[:2]) == b"resources %d" % len(wanted)
        if shown[2] != b"".join(b"bytes %d\n%b\n" % (len(body), body) for body in wanted.values()):
            raise Differs("the source holds other bytes than the folder")


def written(folder: Path, files: Mapping[str, bytes]) -> pathlib.Path:
    """Write files by name, with an old time, as fill waits for a young file; return the folder."""
    for name, body in files.items():
        path = pathlib.Path(folder, name)
        path.parent.mkdir(parents=True, exist_ok=True)
        path.write_bytes(body)
        os.utime(path, (1_700_000_000, 1_700_000_000))
    return pathlib.Path(folder)


def files_of(folder: Path) -> dict[str, bytes]:
    """Return the bytes of a mirror's files, without the mirror's own."""
    return {str(path.relative_to(folder)): path.read_bytes()
            for path in pathlib.Path(folder).rglob("*") if path.is_file() and path.name not in OWN}


def wait_until(is_so: Callable[[], object], what: str) -> None:
    """Wait until a condition is true."""
    end = time.monotonic() + SECONDS
    while not is_so():
        if time.monotonic() > end:
            raise Differs(f"{what}: not within {SECONDS} seconds")
        time.sleep(0.005)

