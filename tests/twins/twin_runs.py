"""Run two programs on the same script, disk or requests, and report the first difference of their answers or files."""
import os
import random
import subprocess
from collections.abc import Iterator
from contextlib import ExitStack
from dataclasses import dataclass
from pathlib import Path
from typing import Any

from tests.hostile import any_disks, made_requests, made_scripts
from tests.hostile.request_rounds import CLOCKS, LIMITS, SERVERS, SIZE, STEPS
from tests.hostile.script_runs import run as run_in_memory
from tests.served_source import exchanged, served

SEED = 20261128
# The longest run, in seconds.
SECONDS = 120
# Commands that read and change every disk of the search. A disk that does not open answers none of them.
ASKED = b"""status
verify
show /resourcelist.xml
show /changelist.xml
show /capabilitylist.xml
show /.well-known/resourcesync
show /resourcelist/0/0.xml
show /changelist/0.xml
show /resource/a
put a 616263 text/plain
at 253402300799000
publish
put twin ff - a
delete a
show /changelist.xml
publish
status
verify
"""
DISKS_IN = 20


@dataclass(frozen=True)
class Twins:
    """The proved and the plain program, a folder for their files, and the environment of their servers."""
    programs: tuple[str, str]
    folder: Path
    environment: dict[str, str]

    def files(self) -> tuple[str, str]:
        """Return the paths of a file for each program, unique to this process."""
        return str(self.folder / f"{os.getpid()}.proved.disk"), str(self.folder / f"{os.getpid()}.plain.disk")

    def both(self, *words: str, script: bytes = b"") -> None:
        """Run both programs with these arguments, `FILE` replaced by their files, and compare the results."""
        found = []
        for program, file in zip(self.programs, self.files()):
            arguments = [word.replace("FILE", file) for word in words]
            finished = subprocess.run([program, *arguments], input=script, capture_output=True, timeout=SECONDS,
                                      check=False)
            found.append((finished.returncode, finished.stdout, finished.stderr))
        same(f"`{words[0]}`", ["status", "output", "messages"], *found)

    def same_files(self, ending: str = "") -> None:
        """Compare the programs' files, or the files whose names add this ending. Both may be missing."""
        paths = [Path(path + ending) for path in self.files()]
        same("the file", ["bytes"], *((path.read_bytes() if path.exists() else b"",) for path in paths))

    def cleared(self) -> None:
        """Remove the files."""
        for file in self.files():
            for ending in ("", ".copy"):
                Path(file + ending).unlink(missing_ok=True)


class Differ(Exception):
    """The programs differ."""


def same(what: str, names: list[str], proved: tuple[Any, ...], plain: tuple[Any, ...]) -> None:
    """Raise Differ with the first difference of two values."""
    for name, one, other in zip(names, proved, plain, strict=True):
        if one == other:
            continue
        if isinstance(one, int):
            raise Differ(f"{what}: the {name}: {one} and {other}")
        at = len(os.path.commonprefix([one, other]))
        what = f"{what}: the {name} from byte {at} of {len(one)} and {len(other)} on:"
        raise Differ(f"{what}\n  {one[at:at + 120]!r}\n  {other[at:at + 120]!r}")


def script(twins: Twins, seed: int, number: int) -> int:
    """Run a script in memory or on a file, which is then copied. Return the number of lines."""
    made = made_scripts.script_of(seed, number)
    if number % 2:
        found = [run_in_memory(program, str(twins.folder), made) for program in twins.programs]
        same(f"`mem`, {made.what}", ["status", "output", "messages"], *found)
    else:
        twins.cleared()
        twins.both("format", "FILE", str(made.size), made.base, str(made.limit))
        twins.both("run", "FILE", script=made.data)
        twins.same_files()
        if number % 20 == 0:
            twins.both("copy", "FILE", "FILE.copy", str(made.size + 4096 * (number % 7 - 3)))
            twins.same_files(".copy")
    return made.data.count(b"\n") + 1


def disks(twins: Twins, seed: int, number: int) -> int:
    """Open some hostile disks. Return their number."""
    for at in range(number * DISKS_IN, (number + 1) * DISKS_IN):
        what, disk = any_disks.disk_of(seed, at)
        for file in twins.files():
            Path(file).write_bytes(disk)
        try:
            twins.both("run", "FILE", script=ASKED)
            twins.same_files()
        except Differ as fault:
            raise Differ(f"disk {at}, {what}: {fault}") from None
    return DISKS_IN


def requests(twins: Twins, seed: int, number: int) -> int:
    """Send a round of requests to a new source, on consecutive servers. Return the number of requests."""
    rng = random.Random(f"twins {seed} {number}")
    limit = rng.choice(LIMITS)
    every = made_requests.requests_of(rng, number, limit)
    twins.cleared()
    twins.both("format", "FILE", str(SIZE), rng.choice(made_scripts.BASES), str(limit))
    each = len(every) // SERVERS
    for first in range(0, len(every), each):
        serve(twins, every[first:first + each], rng.choice(CLOCKS), rng.choice(STEPS))
        twins.same_files()
    return len(every)


def serve(twins: Twins, every: list[made_requests.Made], clock: int, step: int) -> None:
    """Send these requests to a server of each program, with the same clock."""
    environment = {**twins.environment, "CLOCK": str(clock), "STEP": str(step)}
    with ExitStack() as stack:
        ports = [stack.enter_context(served(program, file, len(every), environment))
                 for program, file in zip(twins.programs, twins.files())]
        for made in every:
            try:
                same_responses(*(exchanged(port, made.pieces) for port in ports))
            except Differ as fault:
                raise Differ(f"{made.what}, at {clock} and {step} more each: {made.data[:300]!r}\n{fault}") from None


def same_responses(proved: tuple[bytes, bool], plain: tuple[bytes, bool]) -> None:
    """Compare two responses. A response cut by a reset must be a prefix of the other."""
    (one, cuts_one), (other, cuts_other) = proved, plain
    if cuts_one and other.startswith(one) or cuts_other and one.startswith(other):
        return
    same("the response", ["bytes"], (one,), (other,))


def words(twins: Twins, seed: int, number: int) -> int:
    """Run command lines, most of them wrong. Return their number."""
    count = 0
    for line in command_lines(random.Random(f"words {seed} {number}")):
        twins.cleared()
        twins.both(*line, script=b"status\n")
        twins.same_files()
        count += 1
    return count


def command_lines(rng: random.Random) -> Iterator[list[str]]:
    """Yield command lines with extreme, missing and repeated arguments."""
    sizes = ["0", "1", "8191", "8192", "65536", "-1", "", "1e5", "0065536", "9" * 20, "9223372036854775808"]
    bases = ["http://a", "http://", "ftp://a", "", "http://a/", "https://b.c/d", "http://é", "http://a?b"]
    bases.append("http://" + "a" * 200)
    limits = ["2", "4000", "4001", "1", "0", "", "x", "65536", "-2", "02"]
    for _ in range(20):
        source = [rng.choice(sizes), rng.choice(bases), rng.choice(limits)]
        line = rng.choice([
            ["mem", *source], ["mem", *source], ["format", "FILE", *source],
            ["format", rng.choice(["/", "/nowhere/a", "", "."]), *source],
            ["run", "FILE"], ["run", rng.choice(["/", "/dev/null", "/nowhere/a", "", "."])],
            ["serve", "FILE", "0", "0"],
            ["serve", "FILE", rng.choice(["x", "65536", "-1", ""]), "1"], ["copy", "FILE", "FILE", "65536"],
            ["help"], ["--version"],
        ])
        if rng.random() < 0.2:
            line.pop(rng.randrange(len(line)))
        if rng.random() < 0.1:
            line.append(rng.choice(["", "x", "2"]))
        if rng.random() < 0.1:  # a byte that is not valid text
            line.insert(rng.randrange(len(line) + 1), "\udcff")
        if line:
            yield line
