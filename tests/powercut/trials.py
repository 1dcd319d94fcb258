"""Trials: a recording on a file system, cuts of its log, and images of the cuts, which are mounted and opened."""
import collections
import contextlib
import os
import random
from collections.abc import Callable
from pathlib import Path
from typing import Any, NamedTuple

from tests.powercut import cut_images, kinds, machine, wrong_histories
from tests.powercut.cut_images import Pieces
from tests.powercut.histories import HELD, LOST, OUTCOMES, REPAIRED, UNMOUNTED, outcome_of
from tests.powercut.recordings import Recording
from tests.powercut.write_log import Settled, Settling, entries

# The number of images per cut, and the share of the held images whose replay is also cut.
IMAGES_OF_A_CUT, CUT_AGAIN = 3, 0.2
# The number of failed images that a trial reports.
TOLD_AT_MOST = 5
# The choice that keeps all writes but one.
LOST_WRITES = "lost writes"
# The permitted events of the files; and the event of every file, with its place in the log.
Allowed = dict[str, set[int]]
States = dict[str, tuple[int | None, int]]


class Image(NamedTuple):
    """An image: the place of the cut, the name of the choice, and the pieces."""

    place: int
    name: str
    pieces: Pieces


class Trial:
    """A recording and the outcomes of its images. `cache` is that of the device (write_log.py)."""

    def __init__(self, room: Path, server: Path, program: str, kind: kinds.Kind, seed: str,
                 environment: dict[str, str] | None = None, clock: dict[str, str] | None = None,
                 cache: int | None = None) -> None:
        self.kind, self.cache, self.program, self.rng = kind, cache, program, random.Random(seed)
        self.bytes = kinds.made(kind, os.path.join(room, "bytes"))
        self.device = machine.Device(server, room, self.bytes, kind.sector)
        self.recording = Recording(program, self.device, self.rng, environment, clock)
        self.log, self.outcomes, self.cuts, self.messages = b"", collections.Counter[str](), 0, list[str]()

    def record(self, life: Callable[[Recording], object]) -> None:
        """Record the commands of a life.

        With planted faults a command may fail; the file system is unmounted in any case.
        """
        self.device.order(HOLD=50)
        with self.device.mounted(self.kind.system, self.kind.options):
            life(self.recording)
        self.device.order(HOLD=0)
        self.log = self.device.log.read_bytes()

    def places(self, count: int, is_behind: bool) -> list[int]:
        """Return sorted places to cut at: after acknowledgements, or a third there, in commands and anywhere."""
        ends = [entry.end for entry in entries(self.log)]
        events = [event for history in self.recording.histories.values() for event in history.events[1:]]
        within = [end for event in events for end in ends if event.begun < end <= (event.acknowledged or event.begun)]
        behind = [event.acknowledged for event in events if event.acknowledged]
        chosen = [behind] if is_behind else [ends, within or ends, behind or ends]
        return sorted(self.rng.choice(self.rng.choice(chosen)) for _ in range(count))

    def look(self, count: int, choices: Any, is_over: Callable[[], bool], is_behind: bool) -> None:
        """Make and check about this many images."""
        if choices == LOST_WRITES:
            self.look_without_one(count, is_over)
            return
        settled = Settled(self.bytes, self.log, self.cache)
        try:
            for place in self.places(max(count // IMAGES_OF_A_CUT, 1), is_behind):
                if is_over():
                    break
                cut = settled.cut_at(place)
                self.cuts += 1
                for _ in range(IMAGES_OF_A_CUT if cut.writes else 1):
                    name, pieces = cut_images.image_of(cut, self.rng, self.kind.sector, choices or cut_images.CHOICES)
                    self.look_at(Image(place, name, pieces))
        finally:
            settled.close()

    def look_without_one(self, count: int, is_over: Callable[[], bool]) -> None:
        """Check images of the end, or of an earlier place, without one write, which the device took and lost."""
        writes = [entry for entry in entries(self.log) if entry.kind == b"W"]
        for _ in range(count):
            if is_over():
                break
            lost = self.rng.randrange(len(writes))
            last = len(writes) if self.rng.random() < 0.5 else self.rng.randrange(lost + 1, len(writes) + 1)
            place = len(self.log) if last == len(writes) else writes[last].end
            pieces = [(write.at, write.data) for number, write in enumerate(writes[:last]) if number != lost]
            allowed = {name: history.allowed(place) for name, history in self.recording.histories.items()}
            outcome, why, _ = self.opened(pieces, allowed)
            self.count(Image(place, f"without write {lost}", []), outcome, why)
            self.cuts += 1

    def unnoticed(self) -> list[str]:
        """Return the wrong histories that an image of the end passes for."""
        pieces, found = [(entry.at, entry.data) for entry in entries(self.log) if entry.kind == b"W"], []
        name, history = next(iter(self.recording.histories.items()))
        for wrong in wrong_histories.WRONG:
            self.recording.histories[name] = wrong(history) or history
            outcome, _, _ = self.opened(pieces, {key: other.allowed(len(self.log))
                                                 for key, other in self.recording.histories.items()})
            found += [wrong.__name__] if outcome == HELD and self.recording.histories[name] is not history else []
        self.recording.histories[name] = history
        return found

    def look_at(self, image: Image) -> None:
        """Check an image, and some cuts of its replay."""
        allowed = {name: history.allowed(image.place) for name, history in self.recording.histories.items()}
        outcome, why, states = self.opened(image.pieces, allowed)
        self.count(image, outcome, why)
        if outcome == HELD and self.rng.random() < CUT_AGAIN:
            self.cut_again(image, allowed, states)

    def cut_again(self, image: Image, allowed: Allowed, states: States) -> None:
        """Cut within the replay of an image, or within its opening, and check the result."""
        log = self.device.log.read_bytes()
        ends = [entry.end for entry in entries(log)]
        if not ends:
            return
        place, pieces = self.rng.choice(ends), list(image.pieces)
        settling = Settling(lambda at, data: pieces.append((at, data)), self.cache)
        for entry in entries(log):
            if entry.end > place:
                break
            settling.go_on(entry)
        name, more = cut_images.image_of(settling.cut(place), self.rng, self.kind.sector, cut_images.CHOICES)
        # The state that the program reported once it had opened the file must last.
        allowed = {name: {number} if number is not None and place >= at else allowed[name]
                   for name, (number, at) in states.items()}
        outcome, why, _ = self.opened(pieces + more, allowed)
        self.count(Image(image.place, f"{image.name}, again {name}", []), outcome, why)

    def opened(self, pieces: Pieces, allowed: Allowed) -> tuple[str, str, States]:
        """Mount an image; return the worst outcome of its files, the fault, and the event and place of every file."""
        self.device.begin(pieces)
        try:
            return self.mounted(allowed)
        except machine.Unmounted as fault:
            if not self.device.is_repaired(self.kind.system):
                return UNMOUNTED, str(fault), {}
        try:
            outcome, why, states = self.mounted(allowed)
            return REPAIRED if outcome == HELD else outcome, f"behind a repair: {why}", states
        except machine.Unmounted as fault:
            return UNMOUNTED, f"{fault}, behind a repair", {}

    def mounted(self, allowed: Allowed) -> tuple[str, str, States]:
        """Open the files of the present device; return the same."""
        found, states = [(HELD, "")], {}
        with self.device.mounted(self.kind.system, self.kind.options) as top:
            for name, history in self.recording.histories.items():
                with self.device.patience():
                    outcome, why, number = outcome_of(self.program, top / name, history, allowed[name])
                states[name] = (number, self.device.place())
                found.append((outcome, f"{name}: {why}"))
        return *max(found, key=lambda pair: OUTCOMES.index(pair[0])), states

    def count(self, image: Image | None, outcome: str, why: str) -> None:
        """Count the outcome of an image, and note the fault."""
        self.outcomes[outcome] += 1
        if outcome != HELD and len(self.messages) < TOLD_AT_MOST:
            where = f"cut at {image.place} of {len(self.log)}, {image.name}: " if image else ""
            self.messages.append(f"{where}{outcome}: {why}")

    def close(self) -> None:
        """End the device, and remove its bytes."""
        self.device.close()
        with contextlib.suppress(OSError):
            os.unlink(self.bytes)


def in_words(outcomes: collections.Counter[str]) -> str:
    """Return a text of the counts of outcomes."""
    return ", ".join(f"{outcomes[outcome]} {outcome}" for outcome in OUTCOMES
                     if outcomes[outcome] or outcome in (HELD, LOST))
