"""The limits of a run: bytes and time of its transfers, and removals from a mirror."""
from __future__ import annotations

import dataclasses
import math
import time
from typing import Any, Protocol

from ropepeach.faults import Fault


# The default limit of a run, in seconds.
LONGEST_RUN = 86_400
# The limits in seconds of one response, and of retries at a source that does not respond.
WHOLE, PATIENCE = 600, 30
# The first pause before a retry, in seconds. Later pauses double, up to a second or a hundredth of the retry limit.
FIRST_PAUSE, LONGEST_PAUSE = 0.05, 1.0


class Spent(Fault):
    """The run has reached a limit; the next run resumes."""


class Counter(Protocol):
    """A counter of bytes, perhaps shared by several processes."""

    def add(self, size: int) -> int:
        """Add a number of bytes; return the sum."""


@dataclasses.dataclass
class Count:
    """The counter of one process."""

    sum: int = 0

    def add(self, size: int) -> int:
        """Add a number of bytes; return the sum."""
        self.sum += size
        return self.sum


class SharedCount:
    """A counter of bytes that several processes share."""

    def __init__(self) -> None:
        # (few runs have several processes)
        import multiprocessing

        self.sum: Any = multiprocessing.get_context("fork").Value("Q", 0)

    def add(self, size: int) -> int:
        """Add a number of bytes; return the sum."""
        with self.sum.get_lock():
            self.sum.value += size
            return int(self.sum.value)


class Rate:
    """A limit of bytes per second for all processes that are forked later."""

    def __init__(self, bytes_a_second: float) -> None:
        self.bytes_a_second = bytes_a_second
        # (few runs limit their rate)
        import multiprocessing

        # The value of time.monotonic() from which the next byte may be sent.
        self.next: Any = multiprocessing.get_context("fork").Value("d", 0.0)

    def wait(self, size: int, longest: float = math.inf) -> None:
        """Count bytes, and wait until the next ones may be sent, at most `longest` seconds."""
        with self.next.get_lock():
            self.next.value = max(self.next.value, time.monotonic()) + size / self.bytes_a_second
            end = self.next.value
        time.sleep(max(0.0, min(longest, end - time.monotonic())))


@dataclasses.dataclass
class Limits:
    """Limits of a run: its end by time.monotonic(), its bytes, and its removals.

    Without a number of removals the limit is half of the files; with `is_sure` any number is allowed.
    """

    end: float = math.inf
    bytes: float = math.inf
    removals: int | None = None
    is_sure: bool = False
    taken: Counter = dataclasses.field(default_factory=Count)
    rate: Rate | None = None

    def pace(self, size: int) -> None:
        """Wait if bytes exceed --bwlimit, at most to the end of the run."""
        if self.rate and size:
            self.rate.wait(size, self.remaining())

    def remaining(self) -> float:
        """Return the remaining seconds."""
        return self.end - time.monotonic()

    def overdue(self) -> Spent:
        """Return the exception that ends a run without time left."""
        return Spent("the run took longer than --max-duration allows; the next run goes on")

    def check_time(self) -> None:
        """Raise `Spent` if no time is left."""
        if time.monotonic() >= self.end:
            raise self.overdue()

    def take(self, size: int) -> None:
        """Count received bytes; raise `Spent` if they exceed the limit."""
        self.check_next(size, self.taken.add(size) - size)

    def check_next(self, size: int, taken: int | None = None) -> None:
        """Raise `Spent` if the next response would exceed the limit of bytes."""
        if (self.taken.add(0) if taken is None else taken) + size > self.bytes:
            raise Spent(f"the run would take more than {self.bytes:,} bytes, as --max-bytes allows; the next "
                        f"run goes on")

    def check_removals(self, count: int, total: int, removed: int = 0) -> None:
        """Refuse more removals than allowed, because the source may be broken. `removed` counts earlier ones."""
        so_far = f"{removed:,} were" if removed else "none was"
        if self.removals is not None:
            if count > self.removals:
                raise Fault(f"{count:,} of {total:,} resources would be removed, more than --max-delete "
                            f"{self.removals:,}: {so_far}")
        elif 2 * count > total and not self.is_sure:
            raise Fault(f"{count:,} of {total:,} resources would be removed, more than half: does the source "
                        f"hold what it should? (--yes removes them; {so_far})")
