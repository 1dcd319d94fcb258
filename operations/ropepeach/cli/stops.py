"""Ctrl-C and SIGTERM: a run ends between two steps of its bookkeeping, and keeps its files."""
from __future__ import annotations

import signal
from collections.abc import Iterable
from types import FrameType


class Stopped(KeyboardInterrupt):
    """A run that a signal ended; the exit status is 128 and the signal's number."""

    def __init__(self, number: int) -> None:
        super().__init__()
        self.status = 128 + number


class Stops:
    """The signals of a run. A `with` block is a step: a signal waits for its end. Steps may be nested. Only the first
    signal counts, so that no other interrupts the end of the run.
    """

    def __init__(self) -> None:
        self.numbers: list[int] = []
        self.is_over, self.depth, self.due = False, 0, 0

    def listen(self, numbers: Iterable[int]) -> None:
        """Let these signals end the run, except those that this process ignores."""
        self.is_over, self.due = False, 0
        self.numbers = [number for number in numbers if signal.getsignal(number) is not signal.SIG_IGN]
        for number in self.numbers:
            signal.signal(number, self.take)

    def ignore(self) -> None:
        """Ignore the signals from now on: the process ends."""
        for number in self.numbers:
            signal.signal(number, signal.SIG_IGN)

    def take(self, number: int, _: FrameType | None) -> None:
        """End the run, at once or after the step."""
        if not self.is_over:
            self.is_over, self.due = True, number
            self.check()

    def check(self) -> None:
        """End the run if a signal came and no step is in progress."""
        if self.due and not self.depth:
            number, self.due = self.due, 0
            raise Stopped(number)

    def __enter__(self) -> None:
        self.depth += 1

    def __exit__(self, kind: type[BaseException] | None, *_: object) -> None:
        self.depth -= 1
        if kind is None:
            self.check()


# The signals of this process.
STOPS = Stops()
