"""Run the command `ropepeach`: a small process forks one process per run, so the modules are imported once."""
from __future__ import annotations

import contextlib
import ctypes
import multiprocessing.connection
import os
import pathlib
import re
import signal
import sys
import traceback
from typing import NamedTuple

from operations.tests.mirror.mirrors import DIRECT
from ropepeach.cli import command
from ropepeach.cli.subcommands import TABLE

# The timeout of a run in seconds, long enough for a busy machine.
SECONDS = 300
# An operation of prctl(2): orphans below a process become its children.
CHILD_SUBREAPER = 36
# The exit status of a run that ends in a traceback.
BROKEN = 70


class Ended(NamedTuple):
    """The exit status, output and messages of a run: a negative status is the signal that killed it."""

    status: int
    output: str
    complaints: str

    def lines(self) -> list[str]:
        """Return the messages, without those about waiting."""
        return [line for line in self.complaints.splitlines() if "; waiting up to " not in line]


class Runner:
    """Run the command, one run at a time. The process that forks is spawned: it has no threads of the test."""

    def __init__(self) -> None:
        spawn = multiprocessing.get_context("spawn")
        self.link, other = spawn.Pipe()
        self.process = spawn.Process(target=serve, args=(other,))
        self.process.start()
        other.close()
        self.number = 0

    def __enter__(self) -> Runner:
        return self

    def __exit__(self, *fault: object) -> None:
        self.link.close()
        self.process.join(SECONDS)
        self.process.kill()

    def run(self, room: pathlib.Path, *words: object) -> Ended:
        """Run the command; write its output and messages to two files of the folder."""
        self.link.send((str(room), [str(word) for word in words]))
        self.number = self.link.recv()
        if not self.link.poll(SECONDS):
            with contextlib.suppress(ProcessLookupError):
                os.killpg(self.number, signal.SIGKILL)
            self.link.recv()
            raise AssertionError(f"a run takes more than {SECONDS} seconds: {words}")
        status = self.link.recv()
        self.number = 0
        output, complaints = (pathlib.Path(room, name) for name in ("output", "complaints"))
        return Ended(status, output.read_text(errors="replace"), complaints.read_text(errors="replace"))

    def kill(self) -> None:
        """Kill the current run, unless it has ended."""
        if self.number:
            with contextlib.suppress(ProcessLookupError):
                os.kill(self.number, signal.SIGKILL)


def serve(link: multiprocessing.connection.Connection) -> None:
    """Fork a process for every run; send its process id, then its exit status."""
    signal.signal(signal.SIGINT, signal.SIG_IGN)
    # (the children of a killed run become children of this process, which waits for them)
    ctypes.CDLL(None).prctl(CHILD_SUBREAPER, 1, 0, 0, 0)
    for subcommand in TABLE:
        subcommand.load()
    with contextlib.suppress(EOFError):
        while True:
            room, words = link.recv()
            number = os.fork()
            if number == 0:
                os.setsid()
                os._exit(run_within(pathlib.Path(room), words))
            link.send(number)
            status = os.waitstatus_to_exitcode(os.waitpid(number, 0)[1])
            wait_for_all(number)
            link.send(status)


def wait_for_all(number: int) -> None:
    """Wait until all processes of a run have ended; those of a killed run may still send requests for a moment."""
    with contextlib.suppress(ChildProcessError):
        while True:
            os.waitpid(-number, 0)


def run_within(room: pathlib.Path, words: list[str]) -> int:
    """Run the command in this process with its output in files; return its exit status."""
    os.environ.update(DIRECT)
    for number, name in ((1, "output"), (2, "complaints")):
        opened = os.open(room / name, os.O_WRONLY | os.O_CREAT | os.O_TRUNC, 0o600)
        os.dup2(opened, number)
        os.close(opened)
    sys.stdout, sys.stderr = (open(number, "w", encoding="utf-8", closefd=False) for number in (1, 2))
    try:
        status = int(command.main(words))
    except SystemExit as ending:
        status = ending.code if isinstance(ending.code, int) else BROKEN
    except BaseException:
        traceback.print_exc()
        status = BROKEN
    sys.stdout.flush()
    sys.stderr.flush()
    return status


def number_before(word: str, text: str) -> int:
    """Return the number before a word in the output of a run, as 3 in `3 put`."""
    match = re.search(rf"([0-9,]+) {word}", text)
    assert match, f"no number of {word!r} in {text!r}"
    return int(match[1].replace(",", ""))


def number_behind(word: str, text: str) -> int:
    """Return the number after a word in the output of a run, as 3 in `fetched 3`."""
    match = re.search(rf"{word} ([0-9,]+)", text)
    assert match, f"no number after {word!r} in {text!r}"
    return int(match[1].replace(",", ""))


def check_end(run: Ended) -> None:
    """Check that a run that was not killed has no traceback, and that a failed run has a message."""
    assert run.status != BROKEN and "Traceback" not in run.complaints, f"a traceback: {run.complaints[-800:]}"
    assert run.status <= 0 or run.lines(), f"status {run.status} without a message: {run.output!r}"
