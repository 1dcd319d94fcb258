"""Run scripts whose input or output fails at a chosen byte, and compare the outcome with docs/SCRIPT.md.

The scripts are worked rows. If a read fails, the program has executed and answered the complete lines before that byte,
and no other line. If a write fails, the client has the bytes before it, and the program has executed all lines up to
the one with the failed answer; it may have executed later lines only if it had already read them. disk_judge.py then
reads the file, and a later run on it reports the same state and continues the script.
"""
import bisect
import functools
import itertools
import os
import subprocess
from collections.abc import Iterator
from contextlib import AbstractContextManager
from pathlib import Path
from typing import Any, NamedTuple

from tests.ends.failing_ends import SECONDS, ended, pipe, pipe_of, received, started, stream, wait_taken
from tests.hostile.script_runs import differing
from tests.program import MEMORY
from tests.reading import crash_model, disk_judge, line_judge
from tests.reading.crash_model import State
from tests.reading.front_model import Source
from tests.rows.reader import ROWS
from tests.served_source import reset

ROWS_OF_SCRIPTS = ["one_resource", "three_changes", "put_again_after_delete", "splitting_resources"]
SIZE, BASE, LIMIT = int(MEMORY[1]), MEMORY[2], int(MEMORY[3])
# The commands that a later run executes before it continues, and at its end.
ASKED = [b"status", b"show /resourcelist.xml", b"show /changelist.xml", b"verify"]
READ, WRITE = b"rs_source: Read\n", b"rs_source: Write\n"
# How input fails after a byte: the client sends all bytes before it and resets at once; it resets once the program has
# read them; or it sends every line only after the previous answer.
READS = ["reset at once", "reset when taken", "reset, line by line"]
# How output fails: the client closes its pipe or resets its connection after some bytes, and then sends the next line;
# or the program's own write fails from a byte on, when it has read one line, or all lines; or one write fails, and the
# program writes its buffered output as it ends.
WRITES = ["closed", "reset by its reader", "cut, a line read", "cut, all read", "cut once, a line read"]
BY_ITS_READER, ALL_READ, ONCE = WRITES[1], WRITES[3], WRITES[4]
# The step in bytes between the places where a single write fails.
EACH = 5


class Case(NamedTuple):
    """A script whose input or output fails after the byte `at`."""

    script: "Script"
    way: str
    at: int


class Wanted(NamedTuple):
    """Bounds of a right outcome: the least and greatest number of executed lines, and the longest output."""

    status: int
    output: bytes
    messages: bytes
    least: int
    most: int
    longest: bytes | None = None


class Outcome(NamedTuple):
    """The outcome of a run: its status and ends, the state on its file, and the output of a later run."""

    status: int
    output: bytes
    messages: bytes
    state: State | None
    later: bytes | None


# The status of a run, its output, and its messages.
End = tuple[int, bytes, bytes]


class Script:
    """A script with its answers and the state after every line."""

    def __init__(self, name: str) -> None:
        self.name, self.data = name, ROWS.joinpath(f"{name}.in").read_bytes()
        source = Source(crash_model.State(BASE, LIMIT), SIZE)
        judge = line_judge.Judge(source)
        self.lines, self.answers, self.states = line_judge.lines_of(self.data), [], [source.state]
        for line in self.lines:
            self.answers.append(judge.answer(line))
            self.states.append(source.state)
        self.output = b"".join(self.answers)
        # The offsets at which answers begin and lines end.
        self.begins = [len(b"".join(self.answers[:number])) for number in range(len(self.answers))]
        self.ends = [len(b"".join(line + b"\n" for line in self.lines[: number + 1]))
                     for number in range(len(self.lines))]

    def answered_at(self, at: int) -> int:
        """Return the number of the line whose answer contains this byte of the output."""
        return bisect.bisect_right(self.begins, at) - 1

    @functools.cache
    def later(self, done: int) -> tuple[bytes, bytes]:
        """Return a script that continues after this many lines, and its right answers."""
        judge = line_judge.Judge(Source(self.states[done], SIZE))
        lines = [*ASKED, *self.lines[done:], *ASKED]
        return b"".join(line + b"\n" for line in lines), b"".join(judge.answer(line) for line in lines)


def cases_of(script: Script) -> Iterator[Case]:
    """Yield all cases of a script: every way at every byte."""
    for way in READS:
        yield from (Case(script, way, at) for at in range(len(script.data) + 1))
    places = {BY_ITS_READER: script.begins, ONCE: range(0, len(script.output), EACH)}
    for way in WRITES:
        yield from (Case(script, way, at) for at in places.get(way, range(len(script.output))))


def few_of(script: Script) -> list[Case]:
    """Return a sample: every way at the ends and in the middle of lines and answers."""
    marks = {True: {0, *script.ends}, False: {*script.begins, len(script.output)}}
    for of_reads, places in marks.items():
        middles = {(a + b) // 2 for a, b in itertools.pairwise(sorted(places))}
        marks[of_reads] = places | middles | {place - 1 for place in places}
    return [case for case in cases_of(script) if case.at in marks[case.way in READS] or case.way == BY_ITS_READER]


def wanted_of(case: Case) -> Wanted:
    """Return the right outcome of a case."""
    script, way, at = case
    if way in READS:
        done = bisect.bisect_right(script.ends, at)
        return Wanted(1, b"".join(script.answers[:done]), READ, done, done)
    line, output = script.answered_at(at), script.output[:at]
    if way == ALL_READ:
        return Wanted(1, output, WRITE, line + 1, len(script.lines))
    if way == ONCE:
        return Wanted(1, output, WRITE, line + 1, line + 1, b"".join(script.answers[: line + 1]))
    if way == "cut, a line read" or at == script.begins[line]:
        return Wanted(1, output, WRITE, line + 1, line + 1)
    # The whole answer was sent before the reader left, so the next answer fails, if there is a next line.
    if line + 1 == len(script.lines):
        return Wanted(0, output, b"", line + 1, line + 1)
    return Wanted(1, output, WRITE, line + 2, line + 2)


def done_of(script: Script, wanted: Wanted, state: State | None) -> int | None:
    """Return the greatest permitted number of lines that leads to this state, or None."""
    numbers = range(wanted.most, wanted.least - 1, -1)
    return next((number for number in numbers if script.states[number] == state), None)


def faults(case: Case, outcome: Outcome) -> list[str]:
    """Return the faults of the outcome of a case."""
    wanted, found = wanted_of(case), []
    if (outcome.status, outcome.messages) != (wanted.status, wanted.messages):
        found.append(f"status {outcome.status}, {outcome.messages[:200]!r}")
    if not outcome.output.startswith(wanted.output) or not (wanted.longest or wanted.output).startswith(outcome.output):
        found.append(differing("the output", wanted.output, outcome.output))
    done = done_of(case.script, wanted, outcome.state)
    if done is None:
        status = outcome.state.status() if outcome.state else None
        return [*found, f"the file holds {status!r}, which {wanted.least} to {wanted.most} lines do not make"]
    if outcome.later != case.script.later(done)[1]:
        found.append(differing(f"a later run, from line {done} on", case.script.later(done)[1], outcome.later or b""))
    return found


def state_on(disk: bytes) -> State | None:
    """Return the state in the bytes of a file, or None if no source opens."""
    verdict, source = disk_judge.verdict_of(disk)
    return disk_judge.state_of(disk, source) if verdict == disk_judge.OPENS else None


class Runs:
    """Runs of the built program on its own file."""

    def __init__(self, program: str, folder: str, environment: dict[str, str]) -> None:
        self.program, self.environment = program, environment
        self.file = Path(folder, f"{os.getpid()}.disk")
        self.file.unlink(missing_ok=True)
        self.run("format", self.file, *MEMORY[1:])
        self.new = self.file.read_bytes()
        self.known: dict[tuple[str, int, bytes], bytes] = {}
        self.states: dict[bytes, State | None] = {}

    def run(self, *words: str | Path, data: bytes = b"") -> bytes:
        """Return the output and messages of a run without faults."""
        return subprocess.run([self.program, *words], input=data, stdout=subprocess.PIPE, stderr=subprocess.STDOUT,
                              timeout=SECONDS).stdout

    def outcome(self, case: Case) -> Outcome:
        """Run a case and return its outcome."""
        self.file.write_bytes(self.new)
        run = self.reading if case.way in READS else self.cut if case.way.startswith("cut") else self.leaving
        status, output, messages = run(case)
        state, disk = self.state()
        done = done_of(case.script, wanted_of(case), state)
        return Outcome(status, output, messages, state, None if done is None else self.later(case.script, done, disk))

    def state(self) -> tuple[State | None, bytes]:
        """Return the state on the file (None if no source opens), and the bytes of the file."""
        disk = self.file.read_bytes()
        if disk not in self.states:
            self.states[disk] = state_on(disk)
        return self.states[disk], disk

    def later(self, script: Script, done: int, disk: bytes) -> bytes:
        """Return the output of a later run; equal files share one run."""
        key = script.name, done, disk
        if key not in self.known:
            self.known[key] = self.run("run", self.file, data=script.later(done)[0])
        return self.known[key]

    def start(self, stdin: Any, stdout: Any,
              environment: dict[str, str] | None = None) -> AbstractContextManager[subprocess.Popen[bytes]]:
        """Start the program with this input and output."""
        return started([self.program, "run", str(self.file)], environment, stdin=stdin, stdout=stdout)

    def reading(self, case: Case) -> End:
        """Run a case in which the client resets the input."""
        script, way, at = case
        ours, theirs = stream()
        answers, output = pipe()
        with ours, theirs, answers, output, self.start(theirs, output) as child:
            output.close()
            done, found = bisect.bisect_right(script.ends, at) if way == READS[2] else 0, b""
            for number in range(done):
                ours.sendall(script.lines[number] + b"\n")
                found += received(answers, len(script.answers[number]))
            ours.sendall(script.data[script.ends[done - 1] if done else 0 : at])
            if way != READS[0]:
                wait_taken(theirs)
            reset(ours)
            found += answers.read()
            status, messages = ended(child)
        return status, found, messages

    def cut(self, case: Case) -> End:
        """Run a case in which the preloaded library makes a write fail."""
        environment = {**self.environment, "TAKEN": str(case.at)}
        environment |= {"BY_LINE": "1"} if case.way.endswith("a line read") else {}
        environment |= {"ONCE": "1"} if case.way == ONCE else {}
        answers, output = pipe()
        with pipe_of(case.script.data) as lines, answers, output, self.start(lines, output, environment) as child:
            output.close()
            found = answers.read()
            status, messages = ended(child)
        return status, found, messages

    def leaving(self, case: Case) -> End:
        """Run a case in which the reader leaves, and then sends one more line."""
        script, way, at = case
        ends: tuple[Any, Any] = stream() if way == BY_ITS_READER else pipe()
        answers, output = ends
        lines, to = pipe()
        line = script.answered_at(at)
        whole = line + (at > script.begins[line])
        with answers, output, lines, to, self.start(lines, output) as child:
            output.close()
            lines.close()
            found = b""
            for number in range(whole):
                to.write(script.lines[number] + b"\n")
                found += received(answers, min(len(script.answers[number]), at - script.begins[number]))
            (reset if way == BY_ITS_READER else close)(answers)
            if whole < len(script.lines):
                to.write(script.lines[whole] + b"\n")
            to.close()
            status, messages = ended(child)
        return status, found, messages


def close(end: Any) -> None:
    """Close a pipe as a leaving reader does."""
    end.close()
