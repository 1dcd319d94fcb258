"""Test `ropepeach check` on mirrors of a Ropepeach and of a collection.

operations/tests/mirror_sources/test_check.py has mirrors of sources of any software.
"""
from __future__ import annotations

import fcntl
import json
import os
import pathlib

import pytest

from operations.tests.tools.hostile_source import Liar, changed, collected
from operations.tests.tools.mirrored import change, goes_on, hold_files, mirrored
from operations.tests.tools.command_runs import page_of
from operations.tests.tools.running import ropepeach

pytestmark = pytest.mark.usefixtures("room")

FILES = {"a": b"one", "a/b": b"two", "c": b"", "d%20e": b"three"}


@pytest.fixture
def origin(liar: Liar) -> Liar:
    """Return a source of FILES that is mirrored into the folder `m`."""
    hold_files(liar, FILES)
    mirrored("at first", liar)
    return liar


def checked(*words: object, status: int = 0, lines: tuple[str, ...] = (), says: str = "") -> None:
    """Run the command, and check its exit status, its findings, and a line of its output."""
    found, output, complaints = ropepeach("check", *words)
    assert found == status, complaints + output
    lines_found = [line for line in output.splitlines()
                   if line.split()[0] in ("missing", "rotten", "strange", "behind")]
    assert sorted(lines_found) == sorted(lines)
    assert says in output + complaints
    assert complaints.count("\n") <= 1


def spoil() -> tuple[str, ...]:
    """Remove a file of the mirror, change another file and add a third; return the findings."""
    os.remove("m/a#")
    pathlib.Path("m/d%20e").write_bytes(b"xxxxx")
    os.mkdir("m/s")
    pathlib.Path("m/s/t").write_bytes(b"strange")
    return "missing a", "rotten d%20e", "strange s/t"


def test_missing_changed_and_unknown_files_are_named_and_counted(origin: Liar) -> None:
    checked("m", says="4 files (11 bytes): 4 well, 0 missing, 0 rotten, 0 strange")
    lines = spoil()
    checked("m", status=4, lines=lines, says="5 files (15 bytes): 2 well, 1 missing, 1 rotten, 1 strange")
    found = json.loads(ropepeach("check", "m", "--json")[1])
    findings = [f"{row['finding']} {row['path']}" for row in found["results"] if "finding" in row]
    assert (found["status"], sorted(findings)) == (4, sorted(lines))


@pytest.mark.parametrize(("what", "finding"), [
    ("link", "rotten"), ("pipe", "rotten"), ("folder", "missing"), ("nothing", "missing")])
def test_a_link_or_a_pipe_for_a_file_is_named_and_a_folder_is_a_missing_file(origin: Liar, what: str, finding: str
                                                                             ) -> None:
    os.remove("m/c")
    if what == "link":
        os.symlink("/etc/passwd", "m/c")
    elif what == "pipe":
        os.mkfifo("m/c")
    elif what == "folder":
        os.mkdir("m/c")
    checked("m", status=4, lines=(f"{finding} c",))


def test_changes_at_the_source_are_behind_and_other_bytes_are_a_fault(origin: Liar) -> None:
    checked("m", origin.base, says="4 well")
    goes_on(origin, {}, change(origin, "c", 2, "updated", b"new"), change(origin, "e", 3, "created", b"e"),
            change(origin, "a/b", 4, "deleted"))
    lines = ("behind c", "behind e", "behind a/b")
    checked("m", origin.base, lines=lines, says="5 files")
    pathlib.Path("m/c").write_bytes(b"new")
    checked("m", origin.base, lines=lines[1:])
    pathlib.Path("m/d%20e").write_bytes(b"THREE")
    checked("m", origin.base, status=4, lines=(*lines[1:], "rotten d%20e"))


def test_a_source_without_its_change_list_ends_the_audit(origin: Liar) -> None:
    del origin.answers["/changelist.xml"]
    checked("m", origin.base, "--patience", "0", status=1)


def test_a_repair_asks_for_nothing_where_nothing_is_wrong(origin: Liar) -> None:
    origin.requests.clear()
    checked("m", "--repair", says="4 well")
    assert origin.paths() == []


def test_a_repair_fetches_missing_and_changed_files_only(origin: Liar) -> None:
    origin.requests.clear()
    checked("m", "--repair", lines=spoil(), says="after the repair 4 files (11 bytes): 4 well")
    assert len(origin.paths("/resource/")) == 2


def test_a_repair_compares_digests(origin: Liar) -> None:
    spoil()
    origin.documents({"/resource/d%20e": b"THREE"})
    status, output, complaints = ropepeach("check", "m", "--repair")
    assert status == 1, output
    assert "has other bytes than listed" in complaints


def test_a_repair_removes_more_than_half_with_yes_only(origin: Liar) -> None:
    spoil()
    hold_files(origin, {"a": b"one"})
    changed(origin, [])
    status, _, complaints = ropepeach("check", "m", "--repair")
    assert (status, "more than half" in complaints, os.path.exists("m/a/b")) == (1, True, True)
    assert ropepeach("check", "m", "--repair", "--yes")[0] == 0


def test_the_parts_of_a_collection_are_audited_and_repaired_together(liar: Liar) -> None:
    """Findings have the name of the part."""
    collected(liar, {"s1": FILES, "s2": {"x": b"x", "y": b"y", "z": b"z"}})
    mirrored("both", liar)
    checked("m", says="7 files (14 bytes): 7 well")
    os.remove("m/s2/x")
    pathlib.Path("m/s1/c").write_bytes(b"c")
    lines = ("missing s2 x", "rotten s1 c")
    checked("m", status=4, lines=lines)
    checked("m", liar.base, status=2, says="URL goes with the mirror of one source")
    checked("m/s2", status=4, lines=("missing x",))
    checked("m", "--repair", lines=lines, says="after the repair 7 files (14 bytes): 7 well")


@pytest.mark.parametrize("path", ["none", ".", "m/c"])
def test_no_folder_no_mirror_and_a_file_are_refused(origin: Liar, path: str) -> None:
    checked(path, status=3)


def test_a_mirror_that_another_run_has_locked_is_refused(origin: Liar) -> None:
    lock = os.open("m", os.O_RDONLY)
    fcntl.flock(lock, fcntl.LOCK_EX)
    checked("m", status=3, says="another run is at work in it")
    os.close(lock)


def test_a_mirror_whose_baseline_did_not_end_is_not_audited(origin: Liar) -> None:
    pathlib.Path("m/#state").write_text(json.dumps({"source": origin.base, "until": None, "newest": None}))
    checked("m", status=1, says="its last baseline did not end")


def test_a_mirror_without_notes_is_not_audited(origin: Liar) -> None:
    os.remove("m/#known")
    checked("m", status=3, says="has no #known that can be read")


def test_the_manual_page_has_the_options_and_statuses_of_the_command() -> None:
    assert "6 statuses" in page_of("check")
