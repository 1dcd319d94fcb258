"""Put resources inside a machine while it is killed, and compare the source with the acknowledged puts."""
from __future__ import annotations

import subprocess
import threading
from collections.abc import Callable, Iterable
from pathlib import Path
from typing import Any, Protocol

from operations.tests.machine import putting
from operations.tests.machine.machine import SECONDS, end
from tests.program import Differs

# The command line of the puts inside.
AGENT = ["env", "PYTHONPATH=/root", "python3", "-c", "import putting; putting.main()"]


class Host(Protocol):
    """A machine, or a container."""

    root: Path

    def begun(self, *words: object) -> subprocess.Popen[str]:
        """Start a command."""

    def output(self, *words: object) -> str:
        """Return the output of a command."""

    def until(self, is_so: Callable[[], Any], what: str) -> Any:
        """Wait until a call returns a true value."""


class Puts:
    """Puts to a source at a port, of names that begin with a word; numbers rise over all runs."""

    def __init__(self, machine: Host, word: str, port: int = 8080) -> None:
        self.machine, self.word, self.port = machine, word, port
        self.begun: list[int] = []
        self.answered: list[int] = []
        self.run: subprocess.Popen[str] | None = None
        self.reader: threading.Thread | None = None
        Path(f"{machine.root}/root/putting.py").write_text(Path(putting.__file__).read_text())

    def start(self) -> None:
        """Start to put, from the first number that has not begun yet."""
        self.run = self.machine.begun(*AGENT, "put", self.port, self.word, len(self.begun))
        assert self.run.stdout
        self.reader = threading.Thread(target=self.read, args=(self.run.stdout,), daemon=True)
        self.reader.start()

    def read(self, output: Iterable[str]) -> None:
        """Record the puts that have begun and those that were answered."""
        for line in output:
            word, _, number = line.partition(" ")
            if number.endswith("\n"):
                (self.begun if word == "begun" else self.answered).append(int(number))

    def wait_for(self, more: int) -> None:
        """Wait for this many more answers."""
        wanted = len(self.answered) + more
        self.machine.until(lambda: len(self.answered) >= wanted, f"{more} more puts are answered")

    def stop(self) -> None:
        """Stop the puts, and read the rest of their output."""
        assert self.run and self.reader
        end(self.run)
        self.reader.join(SECONDS)
        if self.reader.is_alive():
            raise Differs("puts go on that were ended")

    def look(self) -> None:
        """Check that every name has the body of its last answered put or of a later put that has begun."""
        lines = self.machine.output(*AGENT, "held", self.port, self.word).splitlines()
        numbers: dict[str, str] = dict(line.split() for line in lines)
        for name in {putting.name(self.word, number) for number in self.begun}:
            last = max((number for number in self.answered if putting.name(self.word, number) == name), default=None)
            lawful = {str(number) for number in self.begun
                      if putting.name(self.word, number) == name and (last is None or number >= last)}
            if (name not in numbers and last is not None) or (name in numbers and numbers[name] not in lawful):
                raise Differs(f"{name}: answered was put {last}, held is {numbers.get(name)}")
