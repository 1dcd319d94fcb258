"""The parts of this test: commands on a file system, and the required outcomes of its images."""
import collections
import time
from pathlib import Path
from typing import Any, NamedTuple

from tests.powercut import cut_images, kinds, lives, machine
from tests.powercut.histories import HELD, LOST, REPAIRED, UNMOUNTED, WRONG
from tests.powercut.trials import LOST_WRITES, Trial, in_words
from tests.program import Differs, interposed
from tests.served_source import with_clock

# The required outcomes of a part: all images are held; all are held or, for a few, not mounted; none has a state that
# never was; some are lost; or no requirement, only printed figures.
ALL_HELD, FEW_UNMOUNTED, NONE_WRONG, SOME_LOST, ANY = "all held", "few unmounted", "none wrong", "some lost", "any"
KEPT = [ALL_HELD, FEW_UNMOUNTED]
# File systems with a superblock of 4,096 bytes, which smaller sectors tear. The system mounts none of these.
TORN = ["btrfs"]
# The percentages of a control's images that must be lost, and that count as few.
SEEN, FEW = 5, 5


class Part(NamedTuple):
    """A part: its title, the file system, the commands, the numbers of recordings and of images per recording, the
    required outcomes, the choices of images, a preloaded library, the cache of the device, and whether all cuts
    directly follow an acknowledgement.
    """

    title: str
    kind: kinds.Kind
    life: Any
    recordings: int
    images: int
    wanted: str = ALL_HELD
    choices: Any = None
    library: str | None = None
    cache: int | None = None
    is_behind: bool = False


class Result(NamedTuple):
    """The result of a part."""

    title: str
    outcomes: collections.Counter[str]
    fault: str | None
    messages: list[str]


# The numbers of commands of a recording and of a long recording.
COMMANDS, LONG = 48, 480
OTHERS = ["a long recording", "full", "a write fails", "a write fails, and those after it", "a flush fails",
          "a flush fails, and those after it", "a read fails", "a read fails, and those after it", "a write is lost",
          "garbage in a sector"]


def promised(name: str, count: int, each: int = 500) -> Part:
    """Return the part of a file system that must keep the promise."""
    recordings, wanted = -(-count // each), FEW_UNMOUNTED if name in TORN else ALL_HELD
    return Part(name, kinds.KINDS[name], lives.Life(COMMANDS), recordings, count // recordings, wanted)


def others(name: str, count: int) -> list[Part]:
    """Return the parts of OTHERS."""
    kind, rounds, wanted = kinds.KINDS[name], max(count // 40, 1), FEW_UNMOUNTED if name in TORN else ALL_HELD
    found = [Part(OTHERS[0], kind, lives.Life(LONG), 1, count, wanted),
             Part(OTHERS[1], kind, lives.Full(COMMANDS), max(count // 100, 1), min(count, 100), wanted)]
    for which in ("FAIL_WRITE", "FAIL_FLUSH", "FAIL_READ"):
        found += [Part(OTHERS[len(found) + often], kind, lives.Faulty(COMMANDS, which, bool(often)), rounds // 2 + 1,
                       20, wanted) for often in (0, 1)]
    found += [Part(OTHERS[8], kind, lives.Life(COMMANDS), max(count // 200, 1), min(count, 200), NONE_WRONG,
                   LOST_WRITES),
              Part(OTHERS[9], kind, lives.Life(COMMANDS), max(count // 200, 1), min(count, 200), ANY,
                   [cut_images.with_garbage])]
    return [part._replace(title=f"{name}, {part.title}") for part in found]


def setting(name: str, count: int) -> Part:
    """Return the part of a setting other than the default; its figures are only printed."""
    return Part(name, kinds.SETTINGS[name], lives.Life(COMMANDS), max(count // 500, 1), min(count, 500), ANY)


def control(definition: kinds.Control, system: str, count: int, is_behind: bool = False) -> Part:
    """Return a part whose images lose commands; the test must notice the loss."""
    return Part(f"{system}, {definition.title}", definition.kinds[system], lives.Life(COMMANDS), 1, count, SOME_LOST,
                None, definition.library, definition.cache, is_behind)


class Runner:
    """Runs parts with a seed; makes no image after the time `until`."""

    def __init__(self, room: Path, server: Path, program: str, seed: int) -> None:
        self.room, self.server, self.program, self.seed = room, server, program, seed
        self.until: float | None = None
        self.clock = with_clock(room)

    def is_over(self) -> bool:
        """Return whether the time limit has passed."""
        return self.until is not None and time.monotonic() > self.until

    def run(self, part: Part) -> Result:
        """Make all recordings of a part, and return the result."""
        outcomes, cuts, commands, refused = collections.Counter[str](), 0, 0, 0
        messages, fault = list[str](), None
        library = "control" + part.title.replace(" ", "-")
        environment = interposed(self.room, library, part.library) if part.library else None
        for number in range(part.recordings):
            if self.is_over():
                break
            trial = Trial(self.room, self.server, self.program, part.kind, f"{self.seed} {part.title} {number}",
                          environment, self.clock, part.cache)
            try:
                trial.record(part.life)
                trial.look(part.images, part.choices, self.is_over, part.is_behind)
                is_sample = part.wanted in KEPT and number == 0 and isinstance(part.life, lives.Life)
                if is_sample and (blind := trial.unnoticed()):
                    fault = f"not noticed, so this test is blind: {', '.join(blind)}"
            except Differs as differs:
                fault = f"recording {number}: {differs}"
            except machine.Unready as late:
                trial.count(None, UNMOUNTED, str(late))
            finally:
                trial.close()
            outcomes += trial.outcomes
            refused += len(trial.recording.refused)
            cuts, commands, messages = cuts + trial.cuts, commands + trial.recording.commands, messages + trial.messages
        faults = f", {refused} faults" if refused else ""
        print(f"{part.title}: {commands} commands{faults}, {cuts} cuts, {sum(outcomes.values())} images: "
              f"{in_words(outcomes)}")
        return Result(part.title, outcomes, fault or unwanted(part.wanted, outcomes), messages)


def unwanted(wanted: str, outcomes: collections.Counter[str]) -> str | None:
    """Return the fault of the outcomes of images, or None."""
    count = sum(outcomes.values())
    if wanted == ALL_HELD and outcomes[HELD] + outcomes[REPAIRED] != count:
        return f"{count - outcomes[HELD] - outcomes[REPAIRED]} images are not held"
    if wanted == FEW_UNMOUNTED and (outcomes[HELD] + outcomes[UNMOUNTED] != count
                                    or outcomes[UNMOUNTED] * 100 > max(count, 100) * FEW):
        return f"{count - outcomes[HELD]} images are not held"
    if wanted == NONE_WRONG and outcomes[WRONG]:
        return f"{outcomes[WRONG]} images tell a state that never was"
    if wanted == SOME_LOST and outcomes[LOST] * 100 < count * SEEN:
        return f"only {outcomes[LOST]} of {count} images are lost, so this test is blind"
    return None
