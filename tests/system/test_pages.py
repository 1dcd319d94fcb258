"""Tests of the pages on a file: the program leaves the pages of the page rule (page_rule.py), item by item.

disk_reader.py reads the pages from the file after commands. A page that no command has changed keeps its entry: its
blocks, its length, and its SHA-256. No block belongs to two parts.
"""
import gzip
import itertools
import random
import subprocess
from collections.abc import Sequence
from pathlib import Path
from typing import Any

import pytest

from tests import hunting
from tests.program import Differs
from tests.reading import crash_model, disk_reader
from tests.reading.disk_formats import CREATED, DELETED, UPDATED
from tests.reading.page_rule import Lists
from tests.rows.reader import ROWS

pytestmark = pytest.mark.plain

OLD = ROWS / "old_disks/one_page_a_list"
SEED, COMMANDS = 20261124, 2_000
BASE, LIMIT = "http://127.0.0.1:8080", 40
# The bytes of a file, of which 20,000 changes take a quarter.
SIZE = 8_388_608
SECONDS = 600
NAMES_OF = ("catalogue", "changes", "published")
WHAT = {CREATED: "created", UPDATED: "updated", DELETED: "deleted"}
# The names of the random commands, in the order of their bytes.
POOL = sorted(f"{front}{i:03d}" for front in ("%41", "A", "a", "a/", "b/c", "~") for i in range(100))
# The number of commands drawn in one way: random commands of all names or of neighbouring names with one of these
# shares of puts; or puts or deletes of consecutive names, and a publication.
STRETCH, BESIDE, SHARES = 60, 200, (0.05, 0.4, 0.7, 0.95)
PUBLICATIONS = 0.03
# The number of commands between two checks of the file.
PIECE = 100
BODIES = ("-", "-", "61", "62" * 513)

# The commands on the old disk: they keep the old page of records, split it, and change the pages that result.
OLD_LINES = [
    ["publish"],
    ["put n050 616263 text/plain"],
    ["delete n000", "delete n111", "put n0505 - text/plain", "put z 7a text/plain"],
    ["publish", "delete z"],
    [f"delete n{i:03d}" for i in range(1, 40)],
]


Source = Any
Pages = list[list[tuple[Any, ...]]]


def rule_item(item: Any) -> tuple[Any, ...]:
    """Return an item in the form of the rule."""
    if isinstance(item, disk_reader.Record):
        return item.name, item.moment
    return item.name, WHAT[item.what], item.moment


def pages_of(source: Source, name: str) -> Pages:
    """Return the pages of a list in the form of the rule."""
    return [[rule_item(item) for item in page.items] for page in getattr(source, name)]


def sizes(pages: Sequence[Sequence[Any]]) -> str:
    """Return the sizes of the pages as text."""
    return " ".join(str(len(page)) for page in pages) or "none"


def compare(name: str, wanted: Pages, found: Pages) -> None:
    """Compare the pages of a list."""
    if wanted == found:
        return
    counts = f"{name}: the rule has pages of {sizes(wanted)} items, the disk pages of {sizes(found)}"
    at = next((i for i, (a, b) in enumerate(zip(wanted, found)) if a != b), min(len(wanted), len(found)))
    firsts = [pages[at][0] if at < len(pages) else "none" for pages in (wanted, found)]
    raise Differs(f"{counts}; page {at + 1} begins with {firsts[0]} by the rule, and with {firsts[1]} on the disk")


class Run:
    """A file with a source, its expected lists, and the entries of all pages so far."""

    def __init__(self, program: str, room: Path, name: str) -> None:
        self.program, self.file = program, room / name
        self.lists = Lists(LIMIT)
        self.known: dict[int, tuple[Any, Any]] = {}

    def format(self) -> "Run":
        """Make a new source on the file."""
        words = [self.program, "format", str(self.file), str(SIZE), BASE, str(LIMIT)]
        subprocess.run(words, check=True, capture_output=True, timeout=SECONDS)
        return self

    def ask(self, script: bytes) -> bytes:
        """Return the output of a run of a script."""
        finished = subprocess.run([self.program, "run", self.file], input=script, capture_output=True, timeout=SECONDS)
        if finished.returncode or finished.stderr:
            raise Differs(f"status {finished.returncode}: {finished.stderr.decode(errors='replace')}")
        return finished.stdout

    def opened(self) -> Source:
        """Take the lists from the file."""
        source = disk_reader.source_of(self.file.read_bytes())
        moments = {"last": source.last, "at": source.at, "first": source.first, "begin": source.begin}
        self.lists = Lists(source.limit, *(pages_of(source, name) for name in NAMES_OF), **moments)
        return self.look()

    def does(self, lines: list[str]) -> Source:
        """Run these lines, and check the file."""
        wanted = [done(self.lists, line) for line in lines]
        answers = self.ask("".join(line + "\n" for line in lines).encode()).decode().splitlines()
        for line, word, answer in zip(lines, wanted, answers, strict=True):
            if answer.split(" ")[0] != word:
                raise Differs(f"{line[:60]}: {answer}, where the rule has {word}")
        return self.look()

    def look(self) -> Source:
        """Compare the pages on the file with the lists; return the source on it."""
        disk = self.file.read_bytes()
        source = disk_reader.source_of(disk)
        for name in NAMES_OF:
            compare(name, getattr(self.lists, name), pages_of(source, name))
            self.compare_entries(name, source)
        if why := disk_reader.fault(disk, source):
            raise Differs(why)
        for name in ("last", "at", "first", "begin"):
            wanted, found = getattr(self.lists, name), getattr(source, name)
            if wanted != found:
                raise Differs(f"{name} is {found}, and not {wanted}")
        return source

    def compare_entries(self, name: str, source: Source) -> None:
        """Check that an unchanged page keeps its entry, also as a page of another list."""
        for page, found in zip(getattr(self.lists, name), getattr(source, name)):
            _, entry = self.known.setdefault(id(page), (page, found.entry))
            if entry != found.entry:
                raise Differs(f"{name}: no command touched the page from {page[0]} on, and its entry is another one")


def done(lists: Lists, line: str) -> str:
    """Apply a line; return the first word of its answer."""
    words = line.split(" ")
    if words[0] == "publish":
        word: str = lists.publish()
    else:
        word = (lists.put if words[0] == "put" else lists.delete)(words[1].encode())
    return word


def puts(names: list[str]) -> list[str]:
    """Return lines that put these names."""
    return [f"put {name} - text/plain" for name in names]


def entries(pages: Sequence[Any]) -> list[Any]:
    """Return the entries of pages."""
    return [page.entry for page in pages]


def counts(source: Source, name: str) -> list[int]:
    """Return the numbers of items of the pages of a list."""
    return [len(page.items) for page in getattr(source, name)]


def test_130_names_fill_pages_as_counted_by_hand(program: str, room: Path) -> None:
    """Put the names in ascending order, the last again, publish, put the first again, and publish again."""
    run = Run(program, room, "worked.disk").format()
    names = [f"n{i:03d}" for i in range(130)]
    first = run.does(puts(names))
    assert [counts(first, name) for name in NAMES_OF] == [[32, 32, 32, 34], [64, 64, 2], []]
    again = run.does(puts(["n129"]))
    for name, count in (("catalogue", 3), ("changes", 2)):
        before, after = entries(getattr(first, name)), entries(getattr(again, name))
        assert before[:count] == after[:count] and before[count] != after[count], name
    run.does(["publish"])
    last = run.does(puts(["n000"]))
    shared = set(entries(last.published)) & set(entries(last.catalogue))
    assert len(last.published) == 4
    assert shared == set(entries(last.published[1:]))
    # The first publication drops three parts of 40 of the 131 earlier changes: one page, and 56 changes of the second.
    end = run.does(["publish"])
    assert counts(end, "changes") == [8, 4]
    assert entries(end.changes)[1] == entries(last.changes)[2]


def check_served(run: Run, state: crash_model.State) -> None:
    """Check that the program serves a whole state."""
    questions = crash_model.Questions([state])
    output = run.ask(questions.script)
    if output not in questions.states:
        raise Differs(f"the old disk serves {questions.difference(output)}")


def test_an_old_disk_of_one_page_a_list_is_served_and_changed(program: str, room: Path) -> None:
    """The program opens a disk of version 1, serves all its contents, and executes commands by the rule."""
    run = Run(program, room, "old.disk")
    run.file.write_bytes(gzip.decompress(OLD.with_suffix(".gz").read_bytes()))
    lines = OLD.with_suffix(".script").read_text().splitlines()
    source = run.opened()
    for name in NAMES_OF:
        assert len(counts(source, name)) == 1 and counts(source, name)[0] > 64, name
    assert source.version == 1
    state = crash_model.run(crash_model.State(BASE, source.limit), lines)[1][-1]
    check_served(run, state)
    for more in OLD_LINES:
        state = crash_model.run(state, more)[1][-1]
        assert run.does(more).version == 2
        check_served(run, state)


def line_at_random(rng: random.Random, names: list[str], share: float) -> str:
    """Return a random line: a publication, a put or a delete."""
    if rng.random() < PUBLICATIONS:
        return "publish"
    name = rng.choice(names)
    return f"put {name} {rng.choice(BODIES)} text/plain" if rng.random() < share else f"delete {name}"


def stretch_at_random(rng: random.Random) -> list[str]:
    """Return lines of one kind: puts or deletes of neighbouring names and a publication, or random lines."""
    first = rng.randrange(len(POOL) - BESIDE)
    beside = POOL[first : first + BESIDE]
    way = rng.randrange(4)
    if way < 2:
        return [*(puts(beside) if way else [f"delete {name}" for name in beside]), "publish"]
    share = rng.choice(SHARES)
    return [line_at_random(rng, [POOL, beside][way - 2], share) for _ in range(STRETCH)]


def lines_at_random(rng: random.Random, count: int) -> list[str]:
    """Return this many random lines."""
    lines: list[str] = []
    while len(lines) < count:
        lines += stretch_at_random(rng)
    return lines[:count]


def steps(lines: list[str]) -> list[tuple[int, int]]:
    """Return the numbers of pages of the catalogue and of changes that every line adds by the rule."""
    lists, found = Lists(LIMIT), []
    for line in lines:
        before = len(lists.catalogue), len(lists.changes)
        done(lists, line)
        found.append((len(lists.catalogue) - before[0], len(lists.changes) - before[1]))
    return found


def test_random_commands_leave_the_pages_of_the_rule(program: str, room: Path) -> None:
    """The commands split and empty pages, and drop changes."""
    rng = random.Random(hunting.seed(SEED))
    lines = lines_at_random(rng, COMMANDS)
    run = Run(program, room, "random.disk").format()
    for at in range(0, COMMANDS, PIECE):
        try:
            run.does(lines[at : at + PIECE])
        except Differs as fault:
            raise Differs(f"after random commands {at + 1} to {at + PIECE}: {fault}") from fault
    added, changed = zip(*steps(lines))
    cut = sum(number > 0 for number in added)
    emptied, largest = added.count(-1), max(itertools.accumulate(added))
    gone = -sum(number for number in changed if number < 0)
    # (otherwise the commands show too little)
    assert cut >= 5 and emptied >= 1 and largest >= 5 and gone >= 5 and run.lists.first >= 10


def test_the_judge_rejects_an_item_in_another_page() -> None:
    with pytest.raises(Differs):
        compare("changes", [[(b"a", 1), (b"b", 2)], [(b"c", 3)]], [[(b"a", 1)], [(b"b", 2), (b"c", 3)]])
