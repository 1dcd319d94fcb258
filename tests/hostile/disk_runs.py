"""Run the program on one disk of the search, and compare its answers with those of an independent reader."""
import os
import signal
import threading
import xml.etree.ElementTree as ElementTree
from pathlib import Path
from typing import Any, NamedTuple

from tests.reading import crash_model, disk_judge
from tests.reading.crash_model import State

# Limits of the address space, in bytes: the allowance per byte of a disk, the constant that covers the steps in which a
# heap grows, and the memory of the program itself, which is measured on an empty source.
OF_A_BYTE, STEPS, OF_ITSELF = 16, 1_048_576, 16_777_216
PAGE = 4_096
# Limits in seconds: processor time, which other programs do not affect, and time on the clock. The number of tries.
SECONDS, CLOCK, TRIES = 1.0, 60, 3
HEADS = ["/.well-known/resourcesync", "/capabilitylist.xml", "/resourcelist.xml", "/changelist.xml"]
# The shell sets limits and executes the program: no core, an address space in KiB, and 10 seconds of processor time.
LIMITED = 'ulimit -c 0; ulimit -t 10; ulimit -v "$2"; exec "$0" run "$1"'


class Outcome(NamedTuple):
    """The outcome of a run: its status (negative for a signal), output, messages, processor seconds, and file."""

    status: int
    output: bytes
    messages: bytes
    seconds: float
    file: bytes


class Wanted(NamedTuple):
    """The script, the right answers, and the documents in them."""

    script: bytes
    status: int
    output: bytes
    messages: bytes
    documents: dict[str, str]


def verified(state: State) -> str:
    """Return the answer to `verify`: the names of damaged bodies, in order, then the number of sound ones."""
    names = sorted(state.held, key=str.encode)
    damaged = [name for name in names if state.held[name][0] is None]
    return "".join(f"damaged {name}\n" for name in damaged) + f"verified {len(names) - len(damaged)}\n"


def shown(path: str, served: Any) -> bytes:
    """Return the answer to `show` of a path; a damaged body is refused."""
    return b"refused Damaged\n" if served == () else crash_model.shown(path, served)


def served_of(state: State, documents: dict[str, str]) -> dict[str, Any]:
    """Return the answers by path, also of missing paths: a part after the last, a dropped or old part, and a name."""
    texts = {path: text.encode() for path, text in documents.items()}
    bodies = {f"/resource/{name}": () if body is None else body for name, (body, _) in state.held.items()}
    parts = [sum(path.startswith(front) for path in texts) for front in ("/resourcelist/", "/changelist/")]
    publications = (state.number, parts[0]), (state.number ^ 1, 0)
    changes = [state.first + parts[1], *([0, state.first - 1] if state.first else [])]
    missing = [f"/resourcelist/{number}/{part}.xml" for number, part in publications] + [
        f"/changelist/{number}.xml" for number in changes]
    return {**texts, **bodies, **{path: None for path in [*missing, "/resource/none"] if path not in bodies}}


def wanted_of(disk: bytes) -> Wanted:
    """Return the script for a disk, and its right answers."""
    verdict, source = disk_judge.verdict_of(disk)
    ask = "status\nverify\n"
    if verdict != disk_judge.OPENS:
        script = ask + "".join(f"show {path}\n" for path in HEADS)
        return Wanted(script.encode(), 1, b"", f"rs_source: {verdict}\n".encode(), {})
    state = disk_judge.state_of(disk, source)
    documents = crash_model.documents(state)
    served = served_of(state, documents)
    script = ask + "".join(f"show {path}\n" for path in served)
    answers = [state.status(), verified(state).encode()]
    answers += [shown(*document) for document in served.items()]
    return Wanted(script.encode(), 0, b"".join(answers), b"", documents)


def unread(texts: dict[str, str]) -> list[str]:
    """Return the documents that xml.etree cannot parse."""
    found = []
    for path, text in texts.items():
        try:
            ElementTree.fromstring(text)
        except ElementTree.ParseError as fault:
            found.append(f"{path} is not read: {fault}")
    return found


class Room:
    """A folder that runs the program on one file at a time."""

    def __init__(self, program: str, folder: str, itself: int | None = None) -> None:
        """`itself` is the memory of the program itself; without it, only explicit limits apply."""
        self.program, self.itself = program, itself
        self.paths = [os.path.join(folder, f"{os.getpid()}.{name}")
                      for name in ("disk", "script", "output", "messages")]

    def begin(self, limit: int | None) -> int:
        """Start the program with this address space in bytes, or without a limit."""
        disk, script, output, messages = self.paths
        words = ["sh", "-c", LIMITED, self.program, disk, "unlimited" if limit is None else str(limit // 1_024)]
        opened = [(os.POSIX_SPAWN_OPEN, 0, script, os.O_RDONLY, 0)]
        opened += [(os.POSIX_SPAWN_OPEN, number, path, os.O_WRONLY | os.O_CREAT | os.O_TRUNC, 0o600)
                   for number, path in ((1, output), (2, messages))]
        return os.posix_spawn("/bin/sh", words, os.environ, file_actions=opened)

    def run(self, disk: bytes, script: bytes, limit: int | None = None) -> Outcome:
        """Run the program on a disk; the default limit of memory is the disk's allowance.

        Processor time includes time lost to the host of a virtual machine, so a slow run is repeated, up to TRIES
        times.
        """
        if limit is None and self.itself is not None:
            limit = self.itself + STEPS + OF_A_BYTE * len(disk)
        for _ in range(TRIES):
            outcome = self.run_once(disk, script, limit)
            if outcome.seconds <= SECONDS:
                break
        return outcome

    def run_once(self, disk: bytes, script: bytes, limit: int | None) -> Outcome:
        """Run the program on a disk; return its outcome."""
        for path, data in zip(self.paths, (disk, script)):
            Path(path).write_bytes(data)
        child = self.begin(limit)
        watch = threading.Timer(CLOCK, os.kill, (child, signal.SIGKILL))
        watch.start()
        _, status, used = os.wait4(child, 0)
        watch.cancel()
        file, _, output, messages = (Path(path).read_bytes() for path in self.paths)
        return Outcome(os.waitstatus_to_exitcode(status), output, messages, used.ru_utime + used.ru_stime, file)


def least(room: Room, disk: bytes, wanted: Wanted) -> int | None:
    """Return the least memory, in whole pages, with which the answers are right, or None if it is too much."""
    low, high = 0, (OF_ITSELF + OF_A_BYTE * len(disk)) // PAGE + 1
    while high - low > 1:
        middle = (low + high) // 2
        outcome = room.run(disk, wanted.script, middle * PAGE)
        is_enough = (outcome.status, outcome.output) == (wanted.status, wanted.output)
        low, high = (low, middle) if is_enough else (middle, high)
    return None if high * PAGE > OF_ITSELF + OF_A_BYTE * len(disk) else high * PAGE


def differing(what: str, wanted: Any, found: Any) -> list[str]:
    """Return the first difference, or an empty list."""
    if wanted == found:
        return []
    at = len(os.path.commonprefix([wanted, found]))
    return [f"{what}, from byte {at} on: wanted {wanted[at : at + 70]!r}, found {found[at : at + 70]!r}"]


def faults(disk: bytes, wanted: Wanted, outcome: Outcome) -> list[str]:
    """Return the faults of a run."""
    found = [] if outcome.status == wanted.status else [f"status {outcome.status}, and not {wanted.status}"]
    found += differing("messages", wanted.messages, outcome.messages[:300])
    found += differing("output", wanted.output, outcome.output)
    found += [f"{outcome.seconds:.2f} seconds of a processor"] if outcome.seconds > SECONDS else []
    found += ["the file was changed"] if outcome.file != disk else []
    return found + unread(wanted.documents)
