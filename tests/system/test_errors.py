"""Tests of the program whose calls return errors: each error of each kind of call, at its first, middle and last call.

strace injects them (traced_calls.py). The results follow from docs/SCRIPT.md, docs/HTTP.md and docs/FILE-DISK.md:

- an interrupted call is made again, except a read of standard input or of a connection, which is a fault at once;
- a failed call of an opening, of `format` and of `copy` is Device, and the program then only closes its files;
- a failed write or sync of a command is Device, and closes the source: nothing is acknowledged, and the next lines and
  requests are Closed; a failed read of a body is Device, and the source stays open;
- a failed read of a script is Read, and a failed write is Write: the lines that were answered before stand;
- a failed read of a request, or a connection that cannot be accepted, changes nothing and affects no other connection;
  after a failed send a command stands, unless `100 Continue` was not sent;
- the result of closing a file, and of the calls that end a refused connection, does not matter.

With --long every call fails.
"""
from collections.abc import Iterator, Sequence
from dataclasses import dataclass
from enum import Enum
from pathlib import Path

import pytest

from tests import hunting
from tests.program import MEMORY, STILL_CLOCK, interposed
from tests.system.edge_runs import HOST, TOO_LONG, run
from tests.system.traced_calls import ERRORS, Call, Failure, Run, served, traced

pytestmark = [pytest.mark.plain, pytest.mark.needs("strace"), pytest.mark.timeout(900)]

DISK, NEW = "source.disk", "copy.disk"
FORMAT, COPY = ["format", DISK, "1048576", *MEMORY[2:]], ["copy", DISK, NEW, "65536"]
KEPT = b"put kept %s text/plain\n" % (b"6b" * 40_000)
LINES = [b"at 951782400000\n", b"put a 616263 text/plain\n", b"put b %s a/b\n" % (b"62" * 20_000), b"verify\n",
         b"show /resource/b\n", b"group 2\nput c 63 a/b\nput kept - a/b\n", b"delete a\n", b"publish\n",
         b"show /changelist.xml\n", b"status\n"]
QUESTIONS = b"status\nshow /changelist.xml\nverify\n"
# The calls that are made again if they are interrupted.
AGAIN = {"openat", "ftruncate", "fsync", "pread64", "pwrite64", "write", "sendto", "accept4"}
# Calls on files.
OF_FILES = {"openat", "statx", "flock", "ftruncate", "fsync", "fadvise64", "pread64", "pwrite64"}


class End(Enum):
    """The result of a failed call."""

    USUAL = b""
    DEVICE = b"rs_source: Device\n"
    EXISTS = b"rs_source: Exists\n"
    READ = b"rs_source: Read\n"
    WRITE = b"rs_source: Write\n"
    # The command is answered Device: the source is open, or closed.
    OPEN = b"refused Device\n"
    CLOSED = b"refused Closed\n"


def end_of(failure: Failure, line: bytes) -> End:
    """Return the result of a failed call of a script within this line, or before the first one."""
    call = failure.call
    if call.name == "close" or (failure.error == "EINTR" and call.name in AGAIN):
        return End.USUAL
    if call.name in ("read", "write"):
        return End.READ if call.name == "read" else End.WRITE
    if call.name == "openat" and failure.error == "EEXIST" and "O_EXCL" in call.rest:
        return End.EXISTS
    if not line:
        return End.DEVICE
    return End.OPEN if line.startswith((b"show", b"verify")) else End.CLOSED


def state_of(program: str, name: str) -> bytes:
    """Return the answers of a source to questions, or a message, or nothing if there is no file."""
    if not Path(name).exists():
        return b""
    _, error, output = run(program, Path(), "run", name, script=QUESTIONS)
    return output + error


@dataclass
class Task:
    """A run without an error: its words, the lines, their answers, and the states before and after each of them."""

    program: str
    words: list[str]
    lines: list[bytes]

    def __post_init__(self) -> None:
        """Run each beginning of the script."""
        self.file = NEW if self.words is COPY else DISK
        self.disk = Path(DISK).read_bytes() if Path(DISK).exists() else None
        outputs, self.states = [b""], [self.begun()]
        for count in range(1, len(self.lines) + 1):
            self.begun()
            outputs.append(run(self.program, Path(), *self.words, script=b"".join(self.lines[:count]))[2])
            self.states.append(state_of(self.program, self.file))
        self.answers = [new.removeprefix(old) for old, new in zip(outputs, outputs[1:])]
        self.begun()
        self.clean = traced(self.program, self.words, self.lines)
        self.last = state_of(self.program, self.file)

    def begun(self) -> bytes:
        """Restore the files; return the state."""
        Path(NEW).unlink(missing_ok=True)
        Path(DISK).unlink(missing_ok=True)
        if self.disk is not None:
            Path(DISK).write_bytes(self.disk)
        return state_of(self.program, self.file)

    def begun_lines(self, call: Call) -> int:
        """Return the number of lines that are read before a call."""
        before = self.clean.calls[: self.clean.calls.index(call)]
        return sum(it.name == "read" for it in before)

    def wanted(self, failure: Failure) -> tuple[int, set[bytes], bytes, set[bytes]]:
        """Return the status, the possible outputs, the messages, and the possible states of the file afterwards."""
        at = self.begun_lines(failure.call)
        end = end_of(failure, self.lines[at - 1] if 0 < at <= len(self.lines) else b"")
        before, answer = b"".join(self.answers[: max(at - 1, 0)]), b"".join(self.answers[max(at - 1, 0) : at])
        rest = self.answers[at:]
        match end:
            case End.USUAL:
                return 0, {self.clean.output}, b"", {self.last}
            case End.DEVICE | End.EXISTS:
                made = {b"", b"rs_source: NotASource\n", self.last} if self.words in (FORMAT, COPY) else set()
                return 1, {b""}, end.value, {self.states[0]} | made
            case End.READ:
                return 1, {before + answer}, end.value, {self.states[at]}
            case End.WRITE:
                # Rust's BufWriter writes the rest once more as the program ends.
                parts = {before + answer[:size] for size in range(len(answer) + 1)}
                return 1, parts, end.value, {self.states[at] if self.lines else self.last}
            case End.OPEN:
                return 0, {b"".join([before, End.OPEN.value, *rest])}, b"", {self.last}
            case End.CLOSED:
                closed = b"".join([before, End.OPEN.value, *[end.value for _ in rest]])
                return 0, {closed}, b"", {self.states[at - 1], self.states[at]}

    def faults(self, failure: Failure) -> Iterator[str]:
        """Yield the differences of a run with this failure."""
        self.begun()
        status, outputs, messages, states = self.wanted(failure)
        found = traced(self.program, self.words, self.lines, failure)
        what = f"{' '.join(self.words)[:30]}: {failure.error} of {failure.call.name} {failure.call.number}"
        if (found.status, found.messages) != (status, messages) or found.output not in outputs:
            yield f"{what}: {found.status} {found.output[-90:]!r} {found.messages!r}, wanted {status} {messages!r}"
        if state_of(self.program, self.file) not in states:
            yield f"{what}: the file has another state"
        has_ended = bool(status) or any(End.CLOSED.value in output for output in outputs)
        yield from (f"{what}: {fault}" for fault in wrong_calls(found, self.clean, failure, has_ended))


def wrong_calls(found: Run, clean: Run, failure: Failure, has_ended: bool) -> Iterator[str]:
    """Yield the faults of the calls behind a failed one."""
    at = next((at for at, call in enumerate(found.calls) if "(INJECTED)" in call.rest), None)
    if at is None:
        yield "the call is not made"
        return
    behind = [call.name for call in found.calls[at + 1 :] if call.name in OF_FILES and call.file != "input"]
    if has_ended and failure.call.name in OF_FILES and behind:
        yield f"calls behind it: {behind}"
    counts = [sum(call.name in (*OF_FILES, "read", "write") and call.file != "messages" for call in run.calls)
              for run in (found, clean)]
    # (Rust's BufWriter writes again as the program ends)
    if failure.error != "EINTR" and counts[0] > counts[1] + (failure.call.name == "write"):
        yield f"{counts[0]} calls on files and streams, where a sound run makes {counts[1]}"


def chosen(kinds: dict[object, list[Call]], is_long: bool) -> list[Failure]:
    """Return the failures of the first, the middle and the last call of each kind, or of all calls."""
    some = [calls if is_long else {calls[at] for at in (0, len(calls) // 2, -1)} for calls in kinds.values()]
    return [Failure(call, error) for calls in some for call in calls for error in ERRORS[call.name]]


def failures_of(task: Task, is_long: bool) -> list[Failure]:
    """Return the failures of a task: its kinds of calls are those of an opening, of looks and of changes."""
    kinds: dict[object, list[Call]] = {}
    for call in task.clean.calls:
        line = task.begun_lines(call)
        looks = b"".join(task.lines[line - 1 : line] if line else []).startswith((b"show", b"verify"))
        kinds.setdefault((call.name, call.file, line > 0, looks), []).append(call)
    return chosen(kinds, is_long)


@pytest.fixture
def is_long(request: pytest.FixtureRequest) -> bool:
    """Return whether every call fails."""
    return bool(request.config.getoption("--long"))


@pytest.mark.parametrize("words, lines", [(MEMORY, LINES[:2]), (FORMAT, []), (COPY, []), (["run", DISK], LINES)],
                         ids=["mem", "format", "copy", "run"])
def test_an_error_has_its_documented_result(program: str, room: Path, is_long: bool, words: list[str],
                                            lines: list[bytes]) -> None:
    if words is not FORMAT:
        run(program, room, *FORMAT)
        run(program, room, "run", DISK, script=KEPT)
    task = Task(program, words, lines)
    failures = failures_of(task, is_long)
    hunting.report([fault for failure in failures for fault in task.faults(failure)])
