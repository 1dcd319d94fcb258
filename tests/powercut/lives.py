"""Programs' work on a file system while its device is logged."""
import contextlib
import os
from pathlib import Path

from tests.powercut.machine import EACH
from tests.powercut.recordings import Recording, lines_at_random, requests_at_random

SIZE = 262_144


class Life:
    """Run puts, groups, deletes, publications that drop history, `format`, a longer file, `copy`, and requests."""

    def __init__(self, commands: int, is_served: bool = True) -> None:
        self.commands, self.is_served = commands, is_served

    def __call__(self, recording: Recording) -> None:
        count = self.commands // 4
        recording.format("a.disk", SIZE)
        recording.run("a.disk", lines_at_random(recording.rng, count))
        recording.longer("a.disk", 2 * SIZE)
        recording.run("a.disk", lines_at_random(recording.rng, count))
        recording.copy("a.disk", "b.disk", 2 * SIZE)
        recording.run("b.disk", lines_at_random(recording.rng, count))
        if self.is_served:
            recording.serve("a.disk", requests_at_random(recording.rng, count))


class Full:
    """Fill the file system: put until a put answers `Device`, open the file, free space, and put again."""

    def __init__(self, commands: int) -> None:
        self.commands = commands

    def __call__(self, recording: Recording) -> None:
        recording.format("a.disk", 4 * SIZE)
        recording.run("a.disk", lines_at_random(recording.rng, self.commands // 2))
        filled = recording.path("filled")
        fill(filled)
        recording.run("a.disk", [f"put long{number} {recording.rng.randbytes(40_000).hex()} text/plain"
                                 for number in range(20)])
        recording.opened("a.disk")
        os.truncate(filled, os.path.getsize(filled) // 2)
        recording.run("a.disk", lines_at_random(recording.rng, self.commands // 2))


def fill(path: Path) -> None:
    """Write a file that takes all free space."""
    file = os.open(path, os.O_RDWR | os.O_CREAT, 0o600)
    for length in (1 << 24, 1 << 20, 4_096):
        with contextlib.suppress(OSError):
            while True:
                os.posix_fallocate(file, os.fstat(file).st_size, length)
    os.fsync(file)
    os.close(file)


class Faulty:
    """Let one call on the device fail during the commands, or all later ones; then stop, and try to open the file."""

    def __init__(self, commands: int, which: str, often: bool) -> None:
        self.commands, self.which, self.often = commands, which, often

    def __call__(self, recording: Recording) -> None:
        recording.format("a.disk", SIZE)
        recording.run("a.disk", lines_at_random(recording.rng, self.commands // 2))
        limit = 6 if self.which == "FAIL_READ" else self.commands
        recording.device.order(**{self.which: recording.rng.randrange(1, limit)})
        recording.run("a.disk", lines_at_random(recording.rng, self.commands // 2))
        if self.often:
            recording.device.order(**{self.which: EACH})
            recording.opened("a.disk")
        recording.device.order(**{self.which: 0})
        if recording.opened("a.disk"):
            recording.run("a.disk", lines_at_random(recording.rng, self.commands // 4))
