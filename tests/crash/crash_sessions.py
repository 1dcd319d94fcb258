"""Sessions of commands on a file, the images of their crashes, and the answers of the program on these images."""
import hashlib
import operator
import random
import subprocess
from collections.abc import Callable, Iterator
from pathlib import Path
from typing import Any, NamedTuple, Protocol

from tests.crash import crash_images
from tests.crash.recorded_calls import Call, Recorder, Unrecorded, replayed
from tests.disks import damaged_disks
from tests.reading import crash_lists, crash_model, disk_judge, disk_reader
from tests.reading.crash_model import State

# The longest run of an image, in seconds.
SECONDS = 120
# 128 names in ascending order fill pages of 32, 32 and 64 records, and two pages of 64 changes.
FILLING = [f"put n{i:03d} - text/plain" for i in range(128)]
# A put that splits a page and begins a page of changes, a publication of four pages, a put into one of them, a delete
# in another, a group over three pages whose last item replaces its first body, and a publication that drops three parts
# of 40 changes, which removes one page of changes and cuts another.
GROUP = "group 4\nput n041 6f6c64 text/plain\nput n100 6e6577 text/plain\ndelete n001\nput n041 6e6577 text/plain"
PAGED = ["put n128 6e6577 text/plain", "publish", "put n040 61 text/plain", "delete n000", GROUP, "publish"]
# The commands on a disk of version 1: the first drops parts.
ON_VERSION_1 = ["publish", "put a 61 text/plain", "publish"]


class Session(NamedTuple):
    """A session on a disk with these bytes: the recorded calls and answers, the states that its commands make, the
    number of states after every line, and the questions for an image.
    """

    before: bytes
    calls: list[Call]
    states: list[State]
    made: list[int]
    questions: Any


class Judged(NamedTuple):
    """A judged image: the moment, the name of the choice, the bytes, the number of the state that the program serves or
    None, and the fault or an empty text.
    """

    moment: crash_images.Moment
    name: str
    image: bytes
    state: int | None
    why: str


class Plan(Protocol):
    """The numbers of images per moment (crash_images.images)."""

    @property
    def rounds(self) -> int:
        """Return the number of rounds of random choices."""

    @property
    def picks(self) -> int:
        """Return the number of random choices if there are no rounds."""


class Crashes:
    """Runs a program in sessions and on images, and collects faults."""

    def __init__(self, program: str, room: str | Path, rng: random.Random) -> None:
        self.program, self.recorder, self.rng = program, Recorder(program, room), rng
        self.image = Path(room, "image.disk")
        self.sessions = 0
        self.faults = list[str]()

    def formatted(self, size: int, state: State) -> bytes:
        """Return the bytes of a new disk, all settled."""
        calls = self.recorder.format(size, state.base, state.limit)
        if any(moment.writes for moment in crash_images.moments(b"", calls) if moment.answered):
            raise Unrecorded("format is answered before its last sync")
        return replayed(b"", calls)

    def session(self, before: bytes, state: State, lines: list[str]) -> Session:
        """Record a session of these lines on a disk with this state."""
        answers, states, made = crash_model.run(state, lines)
        calls = self.recorder.run(before, lines, answers)
        self.sessions += 1
        return Session(before, calls, states, made, crash_model.Questions(states))

    def paged(self, base: str) -> Session:
        """Return a session on a disk whose lists have several pages before and after it."""
        state = crash_model.State(base, 40)
        filling = self.session(self.formatted(131_072, state), state, FILLING)
        session = self.session(replayed(filling.before, filling.calls), filling.states[-1], PAGED)
        source = disk_reader.source_of(replayed(session.before, session.calls))
        counts = [len(pages) for pages in (source.catalogue, source.changes, source.published)]
        if min(counts) < 2:
            raise Unrecorded("a list of the session over several pages has only one")
        return session

    def of_version_1(self) -> Session:
        """Return a session on a disk of version 1, from which no change was ever dropped."""
        before = damaged_disks.DISKS["five_of_version_1"]()
        state = disk_judge.state_of(before, disk_judge.verdict_of(before)[1])
        return self.session(before, state, ON_VERSION_1)

    def served(self, image: bytes, questions: Any) -> tuple[bytes | None, str]:
        """Return the output of the program on this image, or None and the reason."""
        self.image.write_bytes(image)
        how: dict[str, Any] = {"input": questions.script, "capture_output": True, "timeout": SECONDS}
        try:
            finished = subprocess.run([self.program, "run", self.image], **how)
        except subprocess.TimeoutExpired:
            return None, f"no end after {SECONDS} seconds"
        if finished.returncode or finished.stderr:
            return None, f"status {finished.returncode}, {finished.stderr.decode(errors='replace').strip()}"
        if self.image.read_bytes() != image:
            return None, "the image was changed by reading it"
        return finished.stdout, ""

    def state_of(self, image: bytes, session: Session) -> tuple[int | None, str]:
        """Return the number of the state that the program serves on this image, or None and the reason."""
        output, why = self.served(image, session.questions)
        if output is None:
            return None, why
        state = session.questions.states.get(output)
        if state is None:
            return None, session.questions.difference(output)
        entries = session.states[state].entries()
        why = crash_lists.fault(session.questions.shown_in(output), entries)
        return (None, why) if why else (state, "")

    def judged(self, session: Session, rounds: int, picks: int) -> Iterator[Judged]:
        """Yield the images of all moments of a session. Run equal images only once."""
        found, last = dict[bytes, tuple[int | None, str]](), len(session.made) - 1
        for moment in crash_images.moments(session.before, session.calls):
            least = session.made[min(moment.answered, last)]
            upper = session.made[min(moment.answered + 1, last)]
            for name, image in crash_images.images(moment, self.rng, rounds, picks):
                key = hashlib.sha256(image).digest()
                if key not in found:
                    found[key] = self.state_of(image, session)
                state, why = found[key]
                if state is not None and not least <= state <= upper:
                    why = f"{least} commands were answered, {upper} had begun, {state} stand"
                yield Judged(moment, name, image, state, why)

    def look(self, session: Session, plan: Plan, count: int) -> list[tuple[bytes, State]]:
        """Check all images of a session; return some images to continue, with their states.

        The images are drawn by lot, with a higher chance for a torn root slot, because these are few and the next
        commit must handle that slot.
        """
        wrong, continued = set[bytes](), list[tuple[float, bytes, State]]()
        for judged in self.judged(session, plan.rounds, plan.picks):
            key = hashlib.sha256(judged.image).digest()
            if judged.why and key not in wrong:
                self.faults.append(describe(session, judged))
                wrong.add(key)
            if judged.state is not None and not judged.why and judged.moment.writes:
                lot = self.rng.random() * (1 if crash_images.is_torn(judged.moment, judged.image) else 20)
                continued.append((lot, judged.image, session.states[judged.state]))
                continued = sorted(continued, key=operator.itemgetter(0))[:count]
        return [(image, state) for _, image, state in continued]

    def passes(self, session: Session, change: Callable[[list[Call]], list[Call]]) -> bool:
        """Return whether the checks accept the recording of a wrong program; they must not."""
        changed = session._replace(calls=change(session.calls))
        return not any(judged.why for judged in self.judged(changed, 1, 0))


def describe(session: Session, judged: Judged) -> str:
    """Describe one wrong image."""
    number = judged.moment.call
    kind = session.calls[number].kind if number < len(session.calls) else "the end"
    return f"behind entry {number} of the record, within {kind}, {judged.name}: {judged.why}"
