"""Run the program on one script of the search, and compare its answers with those of an independent reading."""
import contextlib
import os
import subprocess
import threading
from collections.abc import Iterable
from pathlib import Path
from typing import NamedTuple

from tests.hostile.made_scripts import Made
from tests.reading import crash_model, line_judge
from tests.reading.front_model import Source

# The longest run on the clock, in seconds; other programs may slow it down.
SECONDS = 120


class Outcome(NamedTuple):
    """The outcome of a run of the program."""

    status: int
    output: bytes
    messages: bytes


def written(to: int, data: bytes) -> None:
    """Write all data to an end."""
    remaining = memoryview(data)
    while remaining:
        remaining = remaining[os.write(to, remaining) :]


def fed(to: int, pieces: Iterable[bytes]) -> None:
    """Write the pieces until the reader leaves."""
    with contextlib.suppress(BrokenPipeError):
        for piece in pieces:
            written(to, piece)
    os.close(to)


def run(program: str, folder: str, made: Made) -> Outcome:
    """Run the program on a script. A pipe in packet mode gives every small piece to a separate read."""
    paths = [os.path.join(folder, f"{os.getpid()}.{name}") for name in ("output", "messages")]
    words = [program, "mem", str(made.size), made.base, str(made.limit)]
    reading, to = os.pipe2(os.O_CLOEXEC | (0 if made.way == "whole" else os.O_DIRECT))
    with open(paths[0], "wb") as output, open(paths[1], "wb") as messages:
        child = subprocess.Popen(words, stdin=reading, stdout=output, stderr=messages)
    os.close(reading)
    watch = threading.Timer(SECONDS, child.kill)
    watch.start()
    fed(to, made.pieces)
    status = child.wait()
    watch.cancel()
    return Outcome(status, *(Path(path).read_bytes() for path in paths))


def wanted_of(made: Made) -> tuple[list[bytes], list[bytes]]:
    """Return the lines of a script, and their answers."""
    judge = line_judge.Judge(Source(crash_model.State(made.base, made.limit), made.size))
    lines = line_judge.lines_of(made.data)
    answers = [judge.answer(line) for line in lines]
    return lines, [*answers[:-1], answers[-1] + judge.end()] if lines else []


def faults(lines: list[bytes], answers: list[bytes], outcome: Outcome) -> list[str]:
    """Return the faults of a run: how it ended, and the first wrong answer."""
    is_good = (outcome.status, outcome.messages) == (0, b"")
    found = [] if is_good else [f"status {outcome.status}, {outcome.messages[:200]!r}"]
    if outcome.output == b"".join(answers):
        return found
    at = 0
    for number, (line, wanted) in enumerate(zip(lines, answers)):
        if not outcome.output.startswith(wanted, at):
            what = f"line {number} of {len(line)} bytes, {line[:120]!r}"
            return [*found, differing(what, wanted, outcome.output[at : at + len(wanted) + 80])]
        at += len(wanted)
    return [*found, f"{len(outcome.output) - at} bytes behind the last answer: {outcome.output[at : at + 80]!r}"]


def differing(what: str, wanted: bytes, found: bytes) -> str:
    """Describe the first difference of two outputs."""
    at = len(os.path.commonprefix([wanted, found]))
    return f"{what}\n  from byte {at} on: wanted {wanted[at : at + 160]!r}\n  found {found[at : at + 160]!r}"
