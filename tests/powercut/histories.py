"""The states that a file may have after a cut at a place of the log, and the check of the program's answers."""
import contextlib
import os
import subprocess
from pathlib import Path
from typing import NamedTuple

from tests.powercut.machine import SECONDS
from tests.reading import crash_lists, crash_model
from tests.reading.crash_model import State



class Event(NamedTuple):
    """A request to a program: the places of the log where it began and where it was acknowledged (None if never), and
    the state after it (None if no state is promised).
    """

    begun: int
    acknowledged: int | None
    state: State | None


# The outcomes of an image, the best first. HELD: a prefix with all acknowledged commands. REPAIRED: the same, after the
# file system's own repair (machine.REPAIRS). TOLD: the program reports damage to the file or a body. UNMOUNTED: the
# system does not mount the file system. LOST: no file, or an acknowledged command is missing. WRONG: other states.
HELD, REPAIRED, TOLD, UNMOUNTED, LOST, WRONG = "held", "repaired", "told", "unmounted", "lost", "wrong"
OUTCOMES = [HELD, REPAIRED, TOLD, UNMOUNTED, LOST, WRONG]


class History:
    """The history of one file, as a list of events."""

    def __init__(self) -> None:
        self.events = [Event(0, 0, None)]
        self.served: dict[int, dict[str, bytes]] = {}

    def state(self) -> State:
        """Return the state after the last event."""
        state = self.events[-1].state
        assert state
        return state

    def add(self, begun: int, acknowledged: int | None, state: State | None) -> None:
        """Add an event."""
        self.events.append(Event(begun, acknowledged, state))

    def allowed(self, place: int) -> set[int]:
        """Return the numbers of possible last events after a cut there: the last acknowledged and the begun ones."""
        last = max(number for number, event in enumerate(self.events)
                   if event.acknowledged is not None and event.acknowledged <= place)
        return {last} | {number for number, event in enumerate(self.events) if number > last and event.begun <= place}

    def numbers_of(self, status: bytes) -> list[int]:
        """Return the numbers of the events whose states have these counts."""
        return [number for number, event in enumerate(self.events) if event.state and event.state.status() == status]

    def served_by(self, number: int) -> dict[str, bytes]:
        """Return the expected bodies and documents after an event, by path."""
        if number not in self.served:
            self.served[number] = crash_model.all_served(self.events[number].state)
        return self.served[number]


def answers_of(output: bytes, paths: list[str]) -> dict[str, bytes]:
    """Split an output into the answers to `verify` and to a `show` of every path."""
    lines, at = [], 0
    while output[at : at + 8] == b"damaged ":
        lines.append(output[at : output.index(b"\n", at) + 1])
        at += len(lines[-1])
    end = output.index(b"\n", at) + 1
    found = {"verify": b"".join(lines) + output[at:end]}
    for path in paths:
        at, end = end, output.index(b"\n", end) + 1
        if output.startswith(b"bytes ", at):
            end += int(output[at + 6 : end]) + 1
        found[path] = output[at:end]
    return found


def compared(history: History, number: int, output: bytes, paths: list[str]) -> tuple[str, str]:
    """Return the outcome and the first fault of a program's answers on a file with the counts of this event."""
    served, state = history.served_by(number), history.events[number].state
    assert state
    try:
        found = answers_of(output, paths)
    except ValueError:
        return WRONG, f"answers that end early: {output[-100:]!r}"
    wanted = {path: crash_model.shown(path, served.get(path)) for path in paths} | {
        "verify": b"verified %d\n" % len(state.held)}
    others = [path for path in found if found[path] != wanted[path]]
    reported = [path for path in others
                if found[path] in (b"refused Damaged\n", b"refused Device\n") or found[path].startswith(b"damaged ")]
    if others and len(reported) == len(others):
        return TOLD, f"{', '.join(reported)} as {found[reported[0]][:40]!r}"
    if others:
        return WRONG, f"{others[0]}: {found[others[0]][:60]!r}, not {wanted[others[0]][:60]!r}"
    shown = {path: found[path].partition(b"\n")[2][:-1] for path in paths if found[path].startswith(b"bytes ")}
    why = crash_lists.fault(shown, state.entries())
    return (WRONG, why) if why else (HELD, "")


def ask(program: str, path: Path, history: History, allowed: set[int]) -> tuple[str, int | None, str]:
    """Run the program on a file; return the outcome, the number of the event whose state it has, and the fault."""
    pipe = subprocess.PIPE
    with subprocess.Popen([program, "run", path], stdin=pipe, stdout=pipe, stderr=pipe, bufsize=0) as process:
        assert process.stdin and process.stdout
        numbers, paths = list[int](), list[str]()
        try:
            with contextlib.suppress(BrokenPipeError):
                process.stdin.write(b"status\n")
            status = process.stdout.readline()
            if numbers := history.numbers_of(status):
                paths = [*sorted(history.served_by(numbers[0])), "/resource/no-such-name"]
            questions = "verify\n" + "".join(f"show {path}\n" for path in paths)
            output, message = process.communicate(questions.encode(), SECONDS)
        except subprocess.TimeoutExpired:
            process.kill()
            return WRONG, None, "the program does not end"
    if process.returncode or message:
        return TOLD, None, message.decode(errors="replace").strip()
    if not numbers:
        return WRONG, None, f"the counts of no state: {status[:100]!r}"
    outcomes = [(*compared(history, number, output, paths), number) for number in numbers]
    outcome, why, number = min(
        outcomes, key=lambda candidate: (OUTCOMES.index(candidate[0]), candidate[2] not in allowed))
    return outcome, number, why


def outcome_of(program: str, path: Path, history: History, allowed: set[int]) -> tuple[str, str, int | None]:
    """Return the outcome of a file after one of these events, the fault, and the event whose state it has."""
    is_free = any(history.events[number].state is None for number in allowed)
    if not os.path.exists(path):
        return (HELD, "", None) if is_free else (LOST, "there is no file", None)
    outcome, number, why = ask(program, path, history, allowed)
    if is_free and outcome == TOLD:
        return HELD, "", None
    if outcome == HELD and number is not None and number not in allowed:
        return (LOST if number < min(allowed) else WRONG), f"event {number} stands, of {sorted(allowed)}", number
    return outcome, why, number
