"""Run the command in a forked process, and send it a signal when it reaches a line of its code, by line count."""
from __future__ import annotations

import contextlib
import dataclasses
import json
import os
import pathlib
import signal
import subprocess
import sys
from collections.abc import Iterator
from types import FrameType
from typing import Any

from operations.tests.harness.command import PYTHON, ROOT, environment
from operations.tests.harness.warm import main_of_command

PACKAGE = str(ROOT / "operations/ropepeach")
# A count that no run reaches.
NEVER = 1 << 60


@dataclasses.dataclass(frozen=True)
class Ending:
    """The end of a run: its exit status, its messages, and its count of lines up to the signal."""

    status: int
    messages: str
    lines: int


class Runs:
    """A process that forks runs of the command in a folder."""

    def __init__(self, folder: pathlib.Path) -> None:
        self.folder = folder
        serving = f"from {__name__} import serve; serve()"
        self.process = subprocess.Popen([PYTHON, "-c", serving], cwd=ROOT, text=True, stdin=subprocess.PIPE,
                                        stdout=subprocess.PIPE, env=environment(folder) | {"no_proxy": "127.0.0.1"})

    def run(self, *words: object, line: int = NEVER, number: int = signal.SIGINT) -> Ending:
        """Run the command, and send a signal at a line."""
        assert self.process.stdin is not None and self.process.stdout is not None
        print(json.dumps([str(self.folder), [str(word) for word in words], line, number]), file=self.process.stdin,
              flush=True)
        status, lines = json.loads(self.process.stdout.readline())
        return Ending(status, (self.folder / "messages").read_text(), lines)


@contextlib.contextmanager
def runs_in(folder: pathlib.Path) -> Iterator[Runs]:
    """Start the process; end it with the block."""
    runs = Runs(folder)
    with runs.process:
        yield runs


class Trace:
    """Count the lines of a subcommand, and send this process a signal at one of them."""

    def __init__(self, line: int, number: int) -> None:
        self.line, self.number, self.count, self.is_begun = line, number, 0, False

    def __call__(self, frame: FrameType, event: str, _: object) -> Any:
        if not frame.f_code.co_filename.startswith(PACKAGE):
            return None
        # (a subcommand handles no signal before its `run`)
        self.is_begun = self.is_begun or (frame.f_code.co_name == "run" and event == "call")
        if event == "line" and self.is_begun:
            self.count += 1
            if self.count == self.line:
                signal.raise_signal(self.number)
        return self


def become(main: Any, folder: str, words: list[str], trace: Trace, counted: int) -> None:
    """Run the command in a folder, and exit."""
    status = 99
    try:
        os.chdir(folder)
        signal.signal(signal.SIGINT, signal.default_int_handler)
        signal.signal(signal.SIGTERM, signal.SIG_DFL)
        for number, path in ((1, os.devnull), (2, "messages")):
            os.dup2(os.open(path, os.O_WRONLY | os.O_CREAT | os.O_TRUNC, 0o666), number)
        sys.argv = ["ropepeach", *words]
        sys.settrace(trace)
        status = int(main())
    except BaseException:
        import traceback

        traceback.print_exc()
    finally:
        sys.settrace(None)
        os.write(counted, str(trace.count).encode())
        sys.stderr.flush()
        os._exit(status)


def serve() -> None:
    """Fork a run for every line of standard input."""
    command = main_of_command()
    for text in sys.stdin:
        folder, words, line, number = json.loads(text)
        read, write = os.pipe()
        child = os.fork()
        if not child:
            become(command, folder, words, Trace(line, number), write)
        os.close(write)
        lines = os.read(read, 100)
        os.close(read)
        print(json.dumps([os.waitstatus_to_exitcode(os.waitpid(child, 0)[1]), int(lines or 0)]), flush=True)
