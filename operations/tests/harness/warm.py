"""Run the command from a process that has already imported its modules: a run starts in 10 ms.

The process forks for every run, so that a run has its own process, which a test can kill. State machines use this; all
other tests start the command as a user does.
"""
from __future__ import annotations

import contextlib
import importlib
import json
import os
import pathlib
import pkgutil
import signal
import subprocess
import sys
from collections.abc import Callable, Iterator
from typing import IO

from operations.tests.harness.command import DEADLINE, PYTHON, ROOT, Result, environment


def main_of_command() -> Callable[[], int]:
    """Return `main` of the command, and import all its modules. No other place in these tests imports it."""
    sys.path.insert(0, str(ROOT / "operations"))
    package = importlib.import_module("ropepeach")
    for module in pkgutil.walk_packages(package.__path__, "ropepeach."):
        if not module.name.endswith("__main__"):
            importlib.import_module(module.name)
    main: Callable[[], int] = importlib.import_module("ropepeach.__main__").main
    return main


class Warm:
    """A process that forks for every run."""

    def __init__(self) -> None:
        serving = f"from {__name__} import serve; serve()"
        self.process = subprocess.Popen([PYTHON, "-c", serving], cwd=ROOT, text=True, stdin=subprocess.PIPE,
                                        stdout=subprocess.PIPE)
        assert self.process.stdin is not None and self.process.stdout is not None
        self.requests: IO[str] = self.process.stdin
        self.answers: IO[str] = self.process.stdout

    def run(self, folder: pathlib.Path, *words: object, started: Callable[[int], object] = lambda number: None
            ) -> Result:
        """Run to the end, or until a kill; `started` gets the process id first.

        The status of a killed run is the negative number of the signal.
        """
        output, errors = folder / "run.output", folder / "run.errors"
        request = {"words": [str(word) for word in words], "folder": str(folder), "output": str(output),
                   "errors": str(errors), "settings": environment(folder)}
        print(json.dumps(request), file=self.requests, flush=True)
        number = int(self.answers.readline())
        started(number)
        print("go", file=self.requests, flush=True)
        status = int(self.answers.readline())
        return Result(status, output.read_text(), errors.read_text())

    def close(self) -> None:
        """End the process."""
        self.requests.close()
        self.process.wait(DEADLINE)
        self.answers.close()


@contextlib.contextmanager
def warm() -> Iterator[Warm]:
    """Start the process; end it with the block."""
    process = Warm()
    try:
        yield process
    finally:
        process.close()


def run_child(main: Callable[[], int], request: dict[str, object], gate: int) -> None:
    """Wait for a byte from `gate`, run the command, and exit."""
    status = 99
    try:
        os.read(gate, 1)
        os.chdir(str(request["folder"]))
        os.environ.clear()
        settings = request["settings"]
        assert isinstance(settings, dict)
        os.environ.update(settings)
        for number, path in ((1, request["output"]), (2, request["errors"])):
            os.dup2(os.open(str(path), os.O_WRONLY | os.O_CREAT | os.O_TRUNC, 0o666), number)
        os.dup2(os.open(os.devnull, os.O_RDONLY), 0)
        signal.alarm(0)
        words = request["words"]
        assert isinstance(words, list)
        sys.argv = ["ropepeach", *words]
        status = int(main())
    except SystemExit as end:
        status = end.code if isinstance(end.code, int) else 1
    except BaseException:
        import traceback

        traceback.print_exc()
    finally:
        sys.stdout.flush()
        sys.stderr.flush()
        os._exit(status)


def serve() -> None:
    """Fork for every line of standard input: write the process id, wait for `go`, write the exit status."""
    main = main_of_command()
    while line := sys.stdin.readline():
        ready, go = os.pipe()
        child = os.fork()
        if not child:
            os.close(go)
            run_child(main, json.loads(line), ready)
        os.close(ready)
        print(child, flush=True)
        sys.stdin.readline()
        os.write(go, b"x")
        os.close(go)
        print(os.waitstatus_to_exitcode(os.waitpid(child, 0)[1]), flush=True)
