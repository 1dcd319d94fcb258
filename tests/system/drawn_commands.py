"""Run every kind of command on sources of every thousand and of random numbers of resources, and groups of every size.

A group has puts of new names, second puts of a name, and deletions, in random order; names have random lengths. The
test counts resources and changes itself to predict the answers, and publishes twice. Then it copies the source, or puts
a resource over HTTP.
"""
import math
import pathlib
import random
import subprocess
from collections.abc import Callable
from dataclasses import dataclass, field

from tests.disks import counted_disk, paged_disk
from tests.program import CLOCK
from tests.reading.crash_model import moment_text
from tests.served_source import exchanged, served
from tests.system.calls_of_commands import request

MOST, MOST_IN_GROUP, STEP, LONGEST_NAME = 50_000, 16, 1_000, 240
SECONDS = 300
# The number of parts into which the counts are split. A part has all sizes of groups.
PARTS = 4
Compare = Callable[[str, object, object], None]


def between(draw: random.Random, limit: int) -> int:
    """Return a number from 0 to `limit`: uniform, or with a uniform number of digits."""
    return draw.randint(0, limit) if draw.random() < 0.5 else int(math.exp(draw.uniform(0, math.log(limit + 1)))) - 1


@dataclass
class Count:
    """The numbers of resources, of made and dropped changes, and of the publication; the lines and answers so far."""

    resources: int
    made: int
    dropped: int = 0
    publication: int = 1
    published: int = 0
    moment: int = CLOCK
    lines: list[str] = field(default_factory=list)
    answers: list[str] = field(default_factory=list)

    def command(self, line: str, word: str, items: int, more: int) -> None:
        """Add a command with `items` changes that adds `more` resources."""
        self.lines.append(line)
        self.answers.append(f"{word} {moment_text(self.moment)}\n")
        self.moment, self.made, self.resources = self.moment + max(items, 1), self.made + items, self.resources + more

    def publish(self) -> None:
        """Add a publication, which drops the full parts of the changes before the previous publication."""
        self.publication += 1
        self.command("publish", f"published {self.publication}", 0, 0)
        self.dropped = max(self.dropped, self.published // counted_disk.LIMIT * counted_disk.LIMIT)
        self.published = self.made

    def asked(self, line: str, answer: str) -> None:
        """Add a line that changes nothing, and its answer."""
        self.lines.append(line)
        self.answers.append(f"{answer}\n")

    def status(self) -> None:
        """Ask for the counts."""
        last = moment_text(self.moment - 1)
        self.asked("status", f"resources {self.resources} changes {self.made - self.dropped} "
                             f"publication {self.publication} last {last}")


def items(draw: random.Random, count: int, resources: list[str]) -> tuple[list[str], int]:
    """Return `count` random lines of a group, and the number of resources that they add.

    `resources` are names to delete.
    """
    lines: list[str] = []
    new: list[str] = []
    gone = 0
    for at in range(count):
        kind = draw.random()
        if kind < 0.25 and resources:
            lines.append(f"delete {resources.pop()}")
            gone += 1
            continue
        if kind > 0.5 or not new:
            new.append(f"new{at:02d}" + "x" * between(draw, LONGEST_NAME - 5))
            lines.append(f"put {new[-1]} {'61' * draw.randint(0, 9) or '-'} text/plain")
            continue
        lines.append(f"put {draw.choice([new[0], draw.choice(new)])} 62 a/b")
    return lines, len(new) - gone


def script(draw: random.Random, count: Count, resources: int, size: int) -> None:
    """Add the lines of a run: every kind of command, and a group of `size` items."""
    numbers = draw.sample(range(resources), min(resources, MOST_IN_GROUP + 1))
    names = [paged_disk.name(number).decode() for number in numbers]
    count.command("put made - text/plain", "created", 1, 1)
    count.command(f"delete {names.pop()}", "deleted", 1, -1)
    lines, more = items(draw, size, names)
    count.command("\n".join([f"group {size}", *lines]), f"grouped {size}", size, more)
    count.status()
    count.publish()
    count.status()
    count.asked("show /resource/made", "bytes 0\n")
    count.asked("verify", f"verified {count.resources}")
    count.publish()
    count.status()


def other_run(program: str, file: pathlib.Path, is_copy: bool) -> bytes:
    """Copy the source, or put a resource over HTTP; return the beginning of the answer."""
    if is_copy:
        copy, size = file.with_suffix(".copy"), file.stat().st_size
        copy.unlink(missing_ok=True)
        finished = subprocess.run([program, "copy", file, copy, str(size)], capture_output=True, timeout=SECONDS)
        return (finished.stdout + finished.stderr)[:7]
    with served(program, file, 1) as port:
        return exchanged(port, [request("PUT", "/resource/served", b"x")])[0][:13]


def look(program: str, file: pathlib.Path, draw: random.Random, compare: Compare, part: int) -> None:
    """Run the commands on sources of every thousand of this part, and on some of random sizes."""
    thousands = [*range(STEP, MOST, STEP)][part::PARTS]
    counts = sorted({*thousands, *(between(draw, MOST - MOST_IN_GROUP - 3) + 1 for _ in range(MOST_IN_GROUP // PARTS))})
    sizes = draw.sample(range(1, MOST_IN_GROUP + 1), MOST_IN_GROUP)
    for number, resources in enumerate(counts):
        size = sizes[number % MOST_IN_GROUP]
        limit = min(resources, MOST - size - 3)
        changes = limit if number % 4 else draw.randint(0, limit)
        file.write_bytes(counted_disk.spelled(resources, changes, MOST))
        count = Count(resources, changes, published=changes)
        script(draw, count, resources, size)
        text = f"at {CLOCK}\n" + "".join(f"{line}\n" for line in count.lines)
        finished = subprocess.run([program, "run", file], input=text.encode(), capture_output=True, timeout=SECONDS)
        what = f"{resources} resources, {changes} changes, a group of {size}"
        compare(what, "".join(["ok\n", *count.answers]).encode(), finished.stdout + finished.stderr)
        wanted = b"copied " if number % 2 else b"HTTP/1.1 201 "
        compare(f"{what}: another run", wanted, other_run(program, file, bool(number % 2)))
