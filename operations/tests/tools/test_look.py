"""Compare `ropepeach look` with the figures of tests/reading, which is separate code."""
from __future__ import annotations

import json
import os
import subprocess
import xml.etree.ElementTree as ElementTree
from collections.abc import Iterable
from pathlib import Path
from typing import Any

import pytest

from operations.tests.tools.command_runs import json_of, lines_of, run_command, status_of
from ropepeach.disk import file as disk_file, picture
from ropepeach.disk import look as command
from ropepeach.disk.formats import Broken
from tests.disks import disks
from tests.hostile import any_disks
from tests.reading import crash_model, disk_judge, disk_reader
from tests.reading.disk_formats import BLOCK
from tests.rows.reader import disk_rows

pytestmark = pytest.mark.plain
# The number of disks of the hunt that are read, and the seed of their numbers.
HUNTED, SEED = 1_500, 8
STATUSES = {"opens": 0, "Damaged": 4, "NotASource": 5}
# Messages of the other reader about a broken rule, and texts by which the command may name it.
RULES = {
    "follow the directory": ["the directory has as many entries"],
    "follow the last item": ["nothing follows the last item", "year 9999", "1 to 50,000 items"],
    "16,777,216 bytes at most": ["a body has at most 16,777,216"],
    "exactly the blocks of its length": ["a body lies in exactly the blocks"],
    "creates, updates or deletes": ["creates, updates or deletes"], "a media type": ["a media type is lawful"],
    "a page has an item": ["1 to 50,000 items"],
    "a field ends": ["ends within a field", "as many entries", "1 to 50,000 items", "a media type is lawful"],
    "another SHA-256": ["has the SHA-256 of its reference"], "a page of ": ["a page lies "],
    "the directory of ": ["the directory lies "],
    "last is the greater": ["the last moment is that of the last change or of the publication"],
    "no bytes begin": ["a body of no bytes has no first block"],
    "no more parts": ["no more parts of the changes"], "start <= at": ["the moments of formatting", "year 9999"],
    "the base": ["the base is an address"],
    "the disk ends": ["all that is used lies in", "lies within the file"],
    "the item limit": ["the item limit is 2 to 4,000"],
    "the kept changes": ["the moments of formatting"],
    "the moment of a change": ["the moments of changes are in their bounds", "year 9999"],
    "the moment of a record": ["are in their bounds", "year 9999"],
    "the moments of changes": ["the moments of changes rise"],
    "the name of": ["a name is lawful"], "the names of": ["ascend", "a name is lawful"],
    "not of the kind": ["a page is of the kind of its list"],
    "what lies in": ["no two things have a block in common"], "where no part": ["where no part was dropped"],
    "50,000 records at most": ["has at most 50,000 records"],
    "50,000 changes at most": ["at most 50,000 changes are kept"],
}
# Disks with more items than allowed.
CROWDED = [("50001_held", "Damaged"), ("50000_changes", "opens"), ("25000_and_25001_changes", "Damaged"),
           ("25000_and_25001_listed", "Damaged")]


@pytest.fixture(autouse=True)
def no_pause(monkeypatch: pytest.MonkeyPatch) -> None:
    """Read slots again without a pause."""
    monkeypatch.setattr(disk_file, "SLOT_PAUSE", 0)


def look_at(path: Path) -> tuple[int, Any]:
    """Run look in this process; return the exit status, and the facts or the broken rule."""
    try:
        with disk_file.File(path) as file:
            source = file.read()
        return 0, command.source_facts(str(path), source, None)
    except (Broken, disk_file.NoSource) as why:
        return why.status, str(why)


def longest(free: Iterable[int]) -> int:
    """Return the length of the longest run of consecutive blocks in a set."""
    runs: dict[int, int] = {}
    for block in sorted(free):
        runs[block] = runs.get(block - 1, 0) + 1
    return max(runs.values(), default=0)


def facts_by_reading(disk: bytes, source: Any) -> dict[str, object]:
    """Return the facts of a disk by the other reader."""
    extents = disk_reader.extents(source)
    used = {0, 1} | {block for first, count in extents for block in range(first, first + count)}
    every = min(len(disk) // BLOCK, disk_reader.MOST_BLOCKS)
    state = disk_judge.state_of(disk, source)
    changes = [path for path in crash_model.documents(state) if path.startswith("/changelist")]
    parts = (len(changes) - 1) or (1 if state.changes else 0)
    shared = {page.entry for page in source.catalogue}
    of = {"slots": 2, "directory": source.directory.blocks,
          "records": sum(page.entry.blocks for page in source.catalogue),
          "changes": sum(page.entry.blocks for page in source.changes),
          "bodies": sum(item.blocks for item in disk_judge.items_of(source.catalogue)),
          "published": sum(page.entry.blocks for page in source.published if page.entry not in shared)}
    return {
        "blocks": {"all": every, "used": len(used), "free": every - len(used),
                   "longest_free_run": longest(set(range(every)) - used), "of": of},
        "base": state.base, "resources": len(state.held),
        "bytes": sum(facts.length for _, facts in state.held.values()),
        "changes": len(state.changes),
        "item_limit": state.limit, "parts": parts, "first_part": state.first, "publications": state.number,
        "published": crash_model.moment_text(state.at), "published_resources": len(state.listed),
        "last": crash_model.moment_text(state.last),
        "changes_begin": crash_model.moment_text(state.begin), "formatted": crash_model.moment_text(source.start),
        "version": source.version,
        "generation": disk_reader.root(disk).generation, "readings": 1, "changed_meanwhile": False,
    }


def compare(what: str, disk: bytes, status: int, findings: Any) -> Any:
    """Compare look's findings with those of the other reader."""
    verdict, other = disk_judge.verdict_of(disk)
    assert status == STATUSES[verdict], f"{what}: {verdict} by the other reader: {other}, {findings}"
    if verdict == "opens":
        for name, value in facts_by_reading(disk, other).items():
            assert findings[name] == value, f"{what}: {name}"
    if verdict == "Damaged":
        names: Iterable[str] = next((names for words, names in RULES.items() if words in str(other)), [])
        assert any(name in findings for name in names), f"{what}: {other}, by the other reader; {findings}"
    return verdict


def test_disks_of_the_tables_read_as_the_other_reader_reads_them(room: Path) -> None:
    """The disks are those of tests/rows."""
    path = room / "a.disk"
    for words, verdict in [*disk_rows(), *(([name], verdict) for name, verdict in CROWDED)]:
        disks.disk(room, words[0], "a.disk", *words[1:])
        status, findings = look_at(path)
        assert status == STATUSES[verdict], f"{' '.join(words)}: status {status}, {findings}"
        if not words[0][0].isdigit():
            compare(" ".join(words), path.read_bytes(), status, findings)


def test_random_disks_read_as_the_other_reader_reads_them(room: Path) -> None:
    """The disks are random ones of the hunt."""
    path = room / "a.disk"
    for number in range(HUNTED):
        what, disk = any_disks.disk_of(SEED, number)
        path.write_bytes(disk)
        # (a disk may break two rules at once, so the rule is not compared)
        verdict, other = disk_judge.verdict_of(disk)
        status, findings = look_at(path)
        assert status == STATUSES[verdict], f"disk {number}, {what}: {verdict} by the other reader: {other}, {findings}"
        if verdict == "opens":
            compare(what, disk, status, findings)


@pytest.mark.parametrize("changes, status, phrase", [
    ([], 0, ""), (["slot.first=8388608"], 4, "lies within the file"), (["slot.first=8388607"], 4, "the SHA-256"),
    (["slot.blocks=8000000", "slot.length=4096000000"], 4, "6,600,191 bytes at most")], ids=str)
def test_at_most_4_gib_of_a_file_are_used(changes: list[str], status: int, phrase: str, room: Path) -> None:
    """Of a file of 5 GiB, a page beyond 4 GiB and a directory of gigabytes are refused before they are read."""
    path = room / "a.disk"
    disks.disk(room, "empty", "a.disk", *changes)
    with open(path, "r+b") as file:
        file.truncate(5 << 30)
    process = run_command("look", str(path), "--json")
    status_of(process, status, phrase)
    assert status or json.loads(process.stdout)["results"][0]["blocks"]["all"] == 8_388_608, process.stdout


@pytest.mark.parametrize("words, status, phrase", [
    (["sound", "bytes=1024:01"], 4, "the directory has the SHA-256"),
    (["sound", "held.a.first=4"], 4, "no two things have a block in common"),
    (["two_held_pages", "more_held.d.name=a"], 4, "`a` comes behind `b`"),
    (["sound", "directory.last=1008"], 4, "whichever is later"),
    (["sound", "slot.gate=0"], 5, "neither slot of the file is open"), (["sound", "slot.version=3"], 5, "version 3"),
    (["sound", "spare.gate=1", "spare.generation=1"], 5, "both slots are open with one generation")], ids=str)
def test_a_damaged_file_is_reported_in_one_sentence(words: list[str], status: int, phrase: str, room: Path) -> None:
    """The exit status distinguishes a damaged source from a file that is no source."""
    disks.disk(room, words[0], "a.disk", *words[1:])
    process = run_command("look", str(room / "a.disk"))
    status_of(process, status, phrase, "ropepeach look: ", "damaged, by this rule" if status == 4 else "no source")
    assert not process.stdout and process.stderr.count("\n") == 1, process.stderr


def test_unreadable_files_have_their_statuses(room: Path) -> None:
    """A missing file, a folder and a pipe have different statuses."""
    status_of(run_command("look", str(room / "none")), 3, "No such file")
    status_of(run_command("look", str(room)), 3, "Is a directory")
    os.mkfifo(room / "pipe")
    assert run_command("look", str(room / "pipe"), seconds=20).returncode in (3, 5)


@pytest.mark.parametrize("words", [[], ["--put", "-1", "a"], ["--put", "16777217", "a"], ["--put", "1k", "a"]], ids=str)
def test_wrong_arguments_have_status_2(words: list[str]) -> None:
    """The message names the error."""
    status_of(run_command("look", *words), 2, "ropepeach look: error: ")


def test_look_changes_no_byte_no_time_and_no_lock(room: Path) -> None:
    """The file is read-only, and locked by a program."""
    disks.disk(room, "after_update", "a.disk")
    path = room / "a.disk"
    path.chmod(0o400)
    before = path.read_bytes(), path.stat().st_mtime_ns, path.stat().st_ctime_ns
    status_of(run_command("look", str(path), behind=["flock", "--nonblock", str(path)]), 0, "a source at")
    assert (path.read_bytes(), path.stat().st_mtime_ns, path.stat().st_ctime_ns) == before, "the file was changed"
    with disk_file.File(path):
        status_of(subprocess.run(["flock", "--nonblock", path, "true"], capture_output=True, text=True, timeout=60), 0)


def test_lines_have_the_figures_of_the_json_object(room: Path) -> None:
    """Lines and JSON are printed for the same disk."""
    disks.disk(room, "after_delete", "a.disk")
    path = str(room / "a.disk")
    facts = json_of("look", path, "--json", "--put", "512")
    lines = "\n".join(lines_of(run_command("look", path, "--put", "512")))
    for phrase in ("version 2, generation 4", f"blocks: {facts['blocks']['used']} used of 16",
                   f"{facts['blocks']['free']} free", "resources: 2 of 50,000",
                   f"changes kept: {facts['changes']} of 50,000",
                   f"{facts['parts']} parts of up to 2, the first is number 1", "publications: 2",
                   f"longest free run: {facts['blocks']['longest_free_run']} blocks",
                   f"puts of 512 bytes: {facts['put']['fit']} more fit, then {facts['put']['then']}"):
        assert phrase in lines, f"no {phrase!r} in {lines!r}"


@pytest.mark.parametrize("name", ["after_update", "lists_of_one_page", "most_resources"])
def test_the_picture_shows_blocks_by_area(name: str, room: Path) -> None:
    """Every kind of blocks has its share of the area, and all texts are inside the picture."""
    disks.disk(room, name, "a.disk")
    facts = json_of("look", str(room / "a.disk"), "--json", "--picture", str(room / "a.svg"))
    root = ElementTree.parse(room / "a.svg").getroot()
    boxes = [box.attrib for box in root if box.tag.endswith("rect")]
    areas = {kind: sum(float(box["width"]) * float(box["height"]) for box in boxes
                       if box.get("fill") == fill and "stroke" not in box)
             for kind, fill in picture.FILLS.items()}
    columns, rows = picture.shape(facts["blocks"]["all"])
    block = picture.WIDTH / columns * picture.HEIGHT / rows
    for kind, count in facts["blocks"]["of"].items():
        is_near = abs(areas[kind] - count * block) <= (0.01 * count + 0.3) * block
        assert is_near, f"{kind} has {areas[kind] / block:.1f} blocks of {count}"
    texts = [text for text in root if text.tag.endswith("text")]
    assert all(text.text for text in texts)
    width, height = float(root.attrib["width"]), float(root.attrib["height"])
    ends = [(float(text.attrib["x"]) + len(text.text or "") * float(text.attrib["font-size"]) * 0.6,
             float(text.attrib["y"])) for text in texts]
    assert all(x < width and y < height for x, y in ends)
    assert sorted(path.name for path in room.iterdir()) == ["a.disk", "a.svg"]


def test_a_picture_that_cannot_be_written_has_status_3(room: Path) -> None:
    """The folder of the picture is missing."""
    disks.disk(room, "after_update", "a.disk")
    process = run_command("look", str(room / "a.disk"), "--picture", str(room / "none" / "a.svg"))
    status_of(process, 3, "No such file")
