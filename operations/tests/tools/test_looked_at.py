"""Test `ropepeach look` on files that change, and compare its figures with those of the program."""
from __future__ import annotations

import functools
import random
import shutil
import subprocess
import threading
import time
from collections.abc import Sequence
from pathlib import Path
from unittest import mock

import pytest

from operations.tests.tools.command_runs import json_of, run_command, status_of
from ropepeach.disk import file as disk_file, room as disk_room
from ropepeach.disk.formats import Image
from tests.disks import disks, made_disks
from tests.program import ask
from tests.reading.page_rule import Lists
from tests.served_source import serving
from tests.threads import beside

pytestmark = pytest.mark.plain
BASE, KIND, SECONDS = "http://127.0.0.1:8080", "text/plain", 300
LENGTHS = (0, 1, 511, 512, 513, 1_024, 2_000, 4_097)
COMMANDS, LIMIT = 150, 20
# The most and the fewest looks at a served file, and the seconds between two of them.
LOOKS, STATES, PAUSE = 200, 30, 0.02


@pytest.fixture(autouse=True)
def no_pause(monkeypatch: pytest.MonkeyPatch) -> None:
    """Read slots again without a pause."""
    monkeypatch.setattr(disk_file, "SLOT_PAUSE", 0)


class Moving(disk_file.File):
    """A file that is replaced after the read of every part whose number is in `steps`."""

    def __init__(self, path: Path, steps: dict[int, bytes]) -> None:
        super().__init__(path)
        self.path, self.steps, self.parts = path, dict(steps), 0

    def part(self, first: int, length: int) -> bytes:
        """Read a part of the file, and replace the file after some parts."""
        found = super().part(first, length)
        self.parts += 1
        if self.parts in self.steps:
            self.path.write_bytes(self.steps.pop(self.parts))
        return found


def read_of(path: Path, first: bytes, steps: dict[int, bytes]) -> Image:
    """Read a file that is replaced after some parts."""
    path.write_bytes(first)
    with Moving(path, steps) as file:
        try:
            return file.read()
        except disk_file.Moves as why:
            pytest.fail(f"{why}")


def states() -> list[bytes]:
    """Return the disk of one source after some commands."""
    return [disks.DISKS[f"after_{name}"]() for name in ("put", "publish", "delete", "update", "all")]


def test_a_file_that_changes_during_a_look_is_read_whole(room: Path) -> None:
    """A command follows one of the parts that a look reads; `is_changed` is true if the look has an old state."""
    path, (first, second, _, fourth, _) = room / "a.disk", states()
    for at in range(1, 7):
        one = read_of(path, first, {at: second})
        generation = one.root.generation
        assert generation in (2, 3) and one.is_changed == (generation == 2), f"a command after part {at}: {generation}"
    late = read_of(path, first, {6: second})
    assert (late.root.generation, late.tries, late.is_changed) == (2, 1, True)
    # The third command overwrites pages of the first state that look reads after the slots and the directory.
    more = [read_of(path, first, {at: fourth}) for at in (2, 3, 4)]
    assert any(look.tries > 1 for look in more)
    assert all(look.root.generation in (2, 5) for look in more)


def test_a_half_written_slot_is_read_again(room: Path) -> None:
    """Neither slot is complete at first."""
    sound = states()[0]
    torn = bytes(512) * 2 + sound[1024:]
    assert read_of(room / "a.disk", torn, {2: sound}).root.generation == 2


def test_a_file_that_never_rests_ends_the_look(room: Path) -> None:
    """The root changes whenever a page is wrong."""
    path, spoilt = room / "a.disk", [disk[:1024] + bytes(len(disk) - 1024) for disk in states()]
    path.write_bytes(spoilt[0])
    # (a read takes two parts for the slots, and one for the directory)
    steps = {3: spoilt[1], 8: spoilt[2], 13: spoilt[3], 18: spoilt[4]}
    with mock.patch.object(disk_file, "IMAGE_READINGS", 4), Moving(path, steps) as file:
        with pytest.raises(disk_file.Moves):
            file.read()


def run(program: str, path: Path, lines: Sequence[str]) -> list[str]:
    """Return the program's output for these lines."""
    done = subprocess.run([program, "run", path], input="".join(f"{line}\n" for line in lines).encode(),
                          capture_output=True, timeout=SECONDS)
    assert done.returncode == 0, done.stderr.decode(errors="replace")
    return done.stdout.decode().splitlines()


def test_counts_are_those_of_the_program(program: str, room: Path) -> None:
    """The disks are the written ones that open."""
    names = ["sound", "shared", "empty", "part_dropped", "all_dropped", "five_of_version_1", "two_change_pages",
             "formatted", "after_put", "after_publish", "after_delete", "after_update", "after_all", "five_published",
             "copied", "written_before", "lists_of_one_page", "two_puts_65536"]
    for name in names:
        disks.disk(room, name, "a.disk")
        facts = json_of("look", str(room / "a.disk"), "--json")
        status_line = (f"resources {facts['resources']} changes {facts['changes']} publication {facts['publications']} "
                       f"last {facts['last']}")
        answers = run(program, room / "a.disk", ["status"])
        assert answers == [status_line], name


def commands(draw: random.Random) -> tuple[list[bytes], list[tuple[int, int, int]]]:
    """Return random commands over HTTP, and the counts of resources, changes and publications after every command."""
    lists, texts, counts, number = Lists(LIMIT), [], [(0, 0, 0)], 0
    for _ in range(COMMANDS):
        name, kind = f"n{draw.randrange(150):03d}", draw.random()
        if kind < 0.04:
            lists.publish()
            number += 1
            texts.append(b"POST /publish HTTP/1.1\r\nHost: a\r\n\r\n")
        elif kind < 0.3 and lists.delete(name) == "deleted":
            texts.append(f"DELETE /resource/{name} HTTP/1.1\r\nHost: a\r\n\r\n".encode())
        else:
            lists.put(name)
            body = draw.randbytes(draw.choice(LENGTHS))
            texts.append(f"PUT /resource/{name} HTTP/1.1\r\nHost: a\r\nContent-Length: {len(body)}\r\n\r\n".encode()
                         + body)
        counts.append((sum(map(len, lists.catalogue)), sum(map(len, lists.changes)), number))
    return texts, counts


def ask_between_looks(port: int, texts: Sequence[bytes], looks: Sequence[object], are_over: threading.Event,
                      answers: list[bytes]) -> None:
    """Send one request after the other, slowly enough that the looks spread over all of them."""
    for number, text in enumerate(texts):
        while len(looks) * COMMANDS < STATES * number and not are_over.is_set():
            time.sleep(PAUSE / 10)
        answers.append(ask(port, text)[:12])


def test_a_served_file_is_read_whole(program: str, room: Path) -> None:
    """A look has the counts of one generation while the program changes the file."""
    subprocess.run([program, "format", room / "a.disk", "1048576", BASE, str(LIMIT)], check=True, capture_output=True,
                   timeout=SECONDS)
    texts, counts = commands(random.Random(8))
    looks: list[Image] = []
    answers: list[bytes] = []
    with serving(program, room) as (address, _):
        port = int(address.rpartition(":")[2])
        are_over = threading.Event()
        ask_all = functools.partial(ask_between_looks, port, texts, looks, are_over, answers)
        with beside(ask_all, ending=are_over.set) as (asking,):
            while not asking.done() and len(looks) < LOOKS:
                with disk_file.File(room / "a.disk") as file:
                    looks.append(file.read())
                time.sleep(PAUSE)
        facts = json_of("look", str(room / "a.disk"), "--json")
    assert len(answers) == COMMANDS
    assert all(answer.startswith(b"HTTP/1.1 20") for answer in answers), set(answers)
    for source in looks:
        counts_read = (sum(len(page.items) for page in source.catalogue),
                       sum(len(page.items) for page in source.changes), source.header.number)
        assert counts_read == counts[source.root.generation - 1], f"generation {source.root.generation}"
    assert len({look.root.generation for look in looks}) > 10
    assert (facts["resources"], facts["changes"], facts["publications"]) == counts[-1]


def filled(program: str, path: Path, size: int, draw: random.Random, count: int) -> None:
    """Make a source of this size by random commands, whose names and types have one length."""
    subprocess.run([program, "format", path, str(size), BASE, "100"], check=True, capture_output=True, timeout=SECONDS)
    lines = []
    for _ in range(count):
        name = f"n{draw.randrange(count):05d}"
        kind = draw.random()
        body = draw.randbytes(draw.choice(LENGTHS)).hex() or "-"
        lines.append("publish" if kind < 0.05 else f"delete {name}" if kind < 0.3 else f"put {name} {body} {KIND}")
    # (so that the last page of records is published, and a put leaves it unchanged)
    if lines:
        run(program, path, [*lines, "publish"])


def test_the_program_takes_exactly_the_promised_puts(program: str, room: Path) -> None:
    """The program accepts exactly as many puts as were promised, and refuses the next one with the promised word."""
    draw, path = random.Random(9), room / "a.disk"
    for size, count, lengths in ((8_192, 0, (0, 1, 1_024)), (65_536, 0, (1, 4_097)), (65_536, 30, (0, 1, 4_097)),
                                 (131_072, 80, (1, 4_097))):
        path.unlink(missing_ok=True)
        filled(program, path, size, draw, count)
        is_empty = json_of("look", str(path), "--json")["resources"] == 0
        for length in lengths:
            facts = json_of("look", str(path), "--json", "--put", str(length))["put"]
            name, kind = facts["name"], facts["type"]
            assert is_empty or (name, kind) == (6, len(KIND)), f"names of {name} and types of {kind} bytes"
            shutil.copyfile(path, room / "copy.disk")
            lines = [f"put {f'z{number:05d}':z>{name}} {'61' * length or '-'} {KIND:x<{kind}}"
                     for number in range(facts["fit"] + 1)]
            answers = [answer.split(" ")[0] if answer.startswith("created") else answer
                       for answer in run(program, room / "copy.disk", lines)]
            assert answers == ["created"] * facts["fit"] + [f"refused {facts['then']}"], f"{size} {count} {length}"


def test_promised_puts_end_at_the_limits_of_a_source(program: str, room: Path) -> None:
    """The numbers are used up before the room."""
    few = made_disks.filled([b"a"], 49_997, blocks=3_000)
    (room / "few.disk").write_bytes(few)
    disks.disk(room, "most_changes", "changes.disk")
    disks.disk(room, "most_resources", "resources.disk")
    for file, count, word in (("few", 3, "TooManyChanges"), ("changes", 0, "TooManyChanges"),
                              ("resources", 0, "TooManyResources")):
        facts = json_of("look", str(room / f"{file}.disk"), "--json", "--put", "5")["put"]
        assert (facts["fit"], facts["then"]) == (count, word), f"{file}: {facts}"
        if not count:
            continue
        answers = run(program, room / f"{file}.disk",
                      [f"put zz{number} 6161616161 {KIND}" for number in range(count + 1)])
        assert ([answer.split(" ")[0] for answer in answers[:-1]] == ["created"] * count
                and answers[-1] == f"refused {word}"), answers
    status_of(run_command("look", str(room / "few.disk"), "--put", "5"), 0,
              "puts of 5 bytes: 0 more fit, then TooManyChanges")


def test_the_lowest_free_run_is_found() -> None:
    """Blocks are taken and returned at random; a slow search gives the same block."""
    draw = random.Random(10)
    taken: list[tuple[int, int]] = []
    blocks, slow = disk_room.Blocks([], 400), [False] * 400
    for _ in range(3_000):
        if taken and draw.random() < 0.5:
            first, count = taken.pop(draw.randrange(len(taken)))
            blocks.given_back(first, count)
            slow[first : first + count] = [False] * count
            continue
        count = draw.choice((1, 1, 2, 3, 8, 20))
        lowest = next((at for at in range(len(slow) - count + 1) if not any(slow[at : at + count])), None)
        found = blocks.taken(count)
        assert found == lowest, f"{count} blocks: block {found}, and {lowest} by the slow search"
        if found is not None:
            slow[found : found + count] = [True] * count
            taken.append((found, count))
