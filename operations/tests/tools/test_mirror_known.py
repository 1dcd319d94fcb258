"""Test the notes of a mirror (`#known`, `--list`), the lines of `--on-change`, several connections, and sources
restored from a backup.
"""
from __future__ import annotations

import hashlib
import json
import os
import pathlib
import signal
import time
from collections.abc import Callable
from typing import Any

import pytest

from operations.tests.tools.hostile_source import MOMENT, Liar, answered, changed, collected, entry
from operations.tests.tools.mirrored import AFTER, change, goes_on, hold_files, mirrored, state
from operations.tests.tools.running import begun, ended, files_of, ropepeach, wait_until
from ropepeach.mirror import catalogue
from ropepeach.mirror.folder import Folder
from ropepeach.resync.facts import any_facts, date_of, dated, kind_of

pytestmark = pytest.mark.usefixtures("room")

FILES = {"a": b"one", "a/b": b"two", "c": b"", "d%20e": b"three"}
MANY = {f"f{number}": b"%d" % number * 90 for number in range(60)}


def lines_of(folder: str = "m") -> list[str]:
    """Return the lines of --list."""
    status, output, complaints = ropepeach("mirror", "--list", folder)
    assert status == 0, complaints
    return list(output.splitlines())


def late(answer: bytes) -> Callable[[], list[bytes]]:
    """Return a response that is delayed by a minute."""

    def answers() -> list[bytes]:
        time.sleep(60)
        return [answer]

    return answers


def line(liar: Liar, name: str, moment: str, body: bytes, path: str = "") -> str:
    """Return the line of a resource in --list."""
    return (f"{path or name} {liar.base}/resource/{name} {moment} {len(body)} {hashlib.sha256(body).hexdigest()} "
            f"a/b")


def test_list_has_the_moment_length_digest_and_type_of_every_file(liar: Liar) -> None:
    """The list has them after a baseline, after increments, and after a baseline without fetches."""
    hold_files(liar, FILES)
    mirrored("at first", liar)
    listed = [line(liar, name, MOMENT, body, "a#" if name == "a" else "") for name, body in FILES.items()]
    assert lines_of() == listed
    goes_on(liar, {"c": b"new", "e": b"e"}, change(liar, "c", 2, "updated", b"new"),
            change(liar, "e", 3, "created", b"e"), change(liar, "a/b", 4, "deleted"))
    mirrored("changes", liar, says="incremental: fetched 2 ")
    later = [line(liar, "a", MOMENT, b"one"), line(liar, "c", AFTER[2], b"new"), listed[3],
             line(liar, "e", AFTER[3], b"e")]
    assert lines_of() == later
    mirrored("nothing new", liar, says="incremental: fetched 0 ")
    assert lines_of() == later
    last = {"a": b"one", "c": b"new", "e": b"e"}
    hold_files(liar, last, at=AFTER[5])
    changed(liar, [], start=AFTER[4])
    mirrored("a baseline", liar, "--baseline", says="baseline: fetched 0 ")
    assert lines_of() == [line(liar, name, MOMENT, body) for name, body in last.items()]
    assert sorted(name for name in os.listdir("m") if name[0] == "#") == ["#known", "#state"]


def test_more_rows_of_increments_than_a_number_move_to_the_rows_of_the_baseline(
        monkeypatch: pytest.MonkeyPatch) -> None:
    """`#known-later` is merged into `#known`, without the rows of deleted files."""
    pathlib.Path("f").mkdir()
    folder, moment = Folder("f"), "1970-01-01T00:00:00.005Z"
    monkeypatch.setattr(catalogue, "MOST_LATER", 2)

    def note(names: str, is_baseline: bool) -> None:
        """Note some names; an increment deletes `a` and `b`."""
        noted = catalogue.Catalogue(folder)
        noted.is_baseline = is_baseline
        for name in names:
            row = catalogue.Row(name, "", moment, "x/y", "", 3, bytes(32), "", "", "sha-256")
            noted.put(name, None if name in "ab" and not is_baseline else row)
        noted.save()
        noted.close()

    note("abc", True)
    for names, has_later in (("a", True), ("de", False), ("b", True)):
        note(names, False)
        assert folder.tree.is_there("#known-later") == has_later, names
    known = catalogue.whole(folder.tree)
    rows = [] if known is None else [*known.rows()]
    assert [row.place for row in rows] == ["c", "d", "e"]
    assert rows[0].modified == moment
    folder.close()


@pytest.mark.parametrize("hashes", ["", "md5:" + "1" * 32, f"md5:{'1' * 32} sha-256:{'2' * 64}"])
def test_facts_have_any_moment_and_the_media_type(hashes: str) -> None:
    for moment in (-62_135_596_800_000, -1, 0, 951_782_400_001, 253_402_300_799_999):
        facts = dated(any_facts({"hash": hashes, "type": "text/plain"}), moment)
        assert (date_of(facts), kind_of(facts)) == (moment, "text/plain")
    assert date_of(any_facts({"hash": hashes, "type": "text/plain"})) is None


# Objects that replace a file of the mirror's own, made from a path and a file outside.
REPLACEMENTS: dict[str, Callable[[pathlib.Path, pathlib.Path], object]] = {
    "bytes": lambda path, _: path.write_bytes(b"x" * 9), "link": lambda path, victim: path.symlink_to(victim),
    "pipe": lambda path, _: os.mkfifo(path), "long file": lambda path, _: path.open("wb").truncate(5 << 30),
    "folder": lambda path, _: path.mkdir()}


@pytest.mark.parametrize("name", ["#known", "#known-later"])
@pytest.mark.parametrize("what", ["bytes", "link", "pipe", "long file"])
def test_changed_notes_are_refused_by_list_and_restored_by_a_baseline(liar: Liar, name: str, what: str) -> None:
    """The mirror neither reads nor writes outside."""
    victim, path = pathlib.Path("victim").absolute(), pathlib.Path("m", name)
    victim.write_bytes(b"theirs")
    hold_files(liar, FILES)
    mirrored("at first", liar, "--baseline")
    path.unlink(missing_ok=True)
    REPLACEMENTS[what](path, victim)
    status, _, complaints = ropepeach("mirror", "--list", "m")
    assert (status, complaints.count("\n")) == (3, 1), complaints
    goes_on(liar, {"c": b"n"}, change(liar, "c", 2, "updated", b"n"))
    mirrored("any run", liar)
    mirrored("a baseline", liar, "--baseline")
    assert (victim.read_bytes(), len(lines_of())) == (b"theirs", 4)


def reported_changes() -> list[tuple[str, str]]:
    """Return the changes and names that KEEP received since the last call."""
    path = pathlib.Path("reported")
    lines = [json.loads(text) for text in path.read_text().splitlines()] if path.exists() else []
    path.unlink(missing_ok=True)
    return [(line["change"], line["name"]) for line in lines]


KEEP = ("--on-change", "cat >> reported")


def some_changes(liar: Liar) -> list[str]:
    """Return changes of FILES, and make their bodies: `g` comes and goes, `c` and `a/b` have two."""
    entries = [change(liar, "c", 2, "updated", b"x"), change(liar, "e", 3, "created", b"e"),
               change(liar, "d%20e", 4, "deleted"), change(liar, "g", 5, "created", b"g"),
               change(liar, "g", 6, "deleted"), change(liar, "c", 7, "updated", b"new"),
               change(liar, "a/b", 8, "deleted"), change(liar, "a/b", 9, "created", b"2")]
    goes_on(liar, {"c": b"new", "e": b"e", "a/b": b"2"}, *entries)
    return entries


def test_changes_are_reported_again_until_the_command_ends_well(liar: Liar) -> None:
    """The next run of the command gets the lines of a failed one, even after a run without --on-change."""
    hold_files(liar, FILES)
    mirrored("at first", liar, *KEEP)
    assert reported_changes() == [("created", name) for name in FILES]
    mirrored("nothing new", liar, *KEEP)
    assert reported_changes() == []
    some = some_changes(liar)
    mirrored("a command that fails", liar, "--on-change", "cat >> reported; echo out; exit 7", status=1,
             says="--on-change ended with status 7: the next run gives it the same lines")
    due = sorted([("updated", "c"), ("created", "e"), ("deleted", "d%20e"), ("updated", "a/b")])
    assert sorted(reported_changes()) == due
    goes_on(liar, {}, *some, change(liar, "e", 10, "updated", b"e"))
    mirrored("without a command", liar)
    del liar.answers["/changelist.xml"]
    mirrored("a run that fails", liar, *KEEP, "--patience", "0", status=1)
    assert sorted(reported_changes()) == due
    goes_on(liar, {}, *some, change(liar, "e", 10, "updated", b"e"))
    mirrored("nothing is left", liar, *KEEP)
    assert reported_changes() == []
    assert not pathlib.Path("m/#changes").exists()


def test_json_has_an_object_per_change_although_the_command_prints(liar: Liar) -> None:
    hold_files(liar, FILES)
    mirrored("at first", liar)
    goes_on(liar, {"c": b"E"}, change(liar, "c", 11, "updated", b"E"))
    output, _ = mirrored("one more", liar, "--on-change", "cat >> reported; echo out", "--json")
    assert reported_changes() == [("updated", "c")]
    found: dict[str, Any] = json.loads(output)["results"][0]
    keys = ("change", "name", "path", "moment", "length", "sha256", "type")
    assert [found[key] for key in keys] == ["updated", "c", "c", AFTER[11], 1, hashlib.sha256(b"E").hexdigest(), "a/b"]


def killed_at(liar: Liar, path: str, *words: str, promised: str = "") -> None:
    """Kill a run once it requests a delayed resource and has recorded a moment as the newest."""
    answer = liar.answers[path]
    liar.answers[path] = late(answer)
    run = begun("mirror", liar.base, "m", *words)
    wait_until(lambda: path in liar.paths(), "a request")
    wait_until(lambda: not promised or state()["newest"] == promised, "the promise")
    run.send_signal(signal.SIGKILL)
    ended(run)
    liar.answers[path] = answer


def test_a_baseline_reports_what_a_killed_run_fetched_and_removed(liar: Liar) -> None:
    hold_files(liar, FILES)
    mirrored("at first", liar)
    hold_files(liar, {"a": b"one", "c": b"new", "f": b"f"}, at=AFTER[3])
    killed_at(liar, "/resource/f", "--baseline", "--yes", *KEEP)
    assert reported_changes() == []
    mirrored("a baseline", liar, "--yes", *KEEP, says="baseline: ")
    assert sorted(reported_changes()) == [("created", "f"), ("deleted", "a/b"), ("deleted", "d%20e"),
                                          ("updated", "c")]


def test_a_baseline_after_lost_notes_reports_all_files(liar: Liar) -> None:
    hold_files(liar, FILES)
    mirrored("at first", liar)
    os.remove("m/#known")
    pathlib.Path("m/x").write_bytes(b"x")
    mirrored("a baseline", liar, "--baseline", *KEEP)
    assert sorted(reported_changes()) == [*(("created", name) for name in FILES), ("deleted", "x")]


@pytest.mark.parametrize("what", ["link", "pipe", "folder"])
def test_a_link_pipe_or_folder_for_waiting_changes_is_refused(liar: Liar, what: str) -> None:
    """The mirror neither reads nor writes outside."""
    victim = pathlib.Path("victim").absolute()
    victim.write_bytes(b"theirs")
    hold_files(liar, FILES)
    mirrored("at first", liar)
    REPLACEMENTS[what](pathlib.Path("m/#changes"), victim)
    for option in ("--incremental", "--baseline"):
        mirrored(option, liar, option, *KEEP, status=3, says="#changes: is no regular file")
    assert (victim.read_bytes(), reported_changes()) == (b"theirs", [])


def test_a_source_that_lost_the_changes_of_a_killed_run_is_mirrored_by_a_baseline(liar: Liar) -> None:
    """A baseline follows even if another change was made since."""
    hold_files(liar, FILES)
    mirrored("at first", liar)
    goes_on(liar, {"a": b"lost", "c": b"slow"}, change(liar, "a", 5, "updated", b"lost"),
            change(liar, "c", 6, "updated", b"slow"))
    killed_at(liar, "/resource/c", promised=AFTER[6])
    goes_on(liar, {"a": b"one", "c": b"", "a/b": b"2"}, change(liar, "a/b", 3, "updated", b"2"))
    mirrored("the changes are lost", liar, says="baseline: ")
    assert pathlib.Path("m/a#").read_bytes() == b"one"
    goes_on(liar, {"a": b"new"}, change(liar, "a/b", 3, "updated", b"2"), change(liar, "a", 5, "updated", b"new"))
    mirrored("it goes on", liar, says="incremental: fetched 1 ")


def test_a_source_that_lost_its_last_change_is_mirrored_by_a_baseline(liar: Liar) -> None:
    """A baseline follows even if another change was made since, at a later moment or at the same one."""
    hold_files(liar, FILES | {"a/b": b"2"})
    first = change(liar, "a/b", 3, "updated", b"2")
    mirrored("at first", liar)
    goes_on(liar, {"a": b"new"}, first, change(liar, "a", 5, "updated", b"new"))
    mirrored("it goes on", liar, says="incremental: fetched 1 ")
    hold_files(liar, FILES)
    goes_on(liar, {"a": b"one", "c": b"n", "a/b": b"2"}, first, change(liar, "c", 7, "updated", b"n"))
    mirrored("the last change is lost", liar, says="baseline: fetched 2 ")
    goes_on(liar, {"a": b"m", "c": b""}, first, change(liar, "a", 7, "updated", b"m"))
    mirrored("another change has its moment", liar, says="baseline: fetched 2 ")


def test_a_source_that_lost_its_last_publication_is_mirrored_by_a_baseline(liar: Liar) -> None:
    """A change has the moment of that publication. A later Change List in parts is followed."""
    hold_files(liar, {"a": b"m", "c": b"p"}, at=AFTER[9])
    changed(liar, [], start=AFTER[8])
    mirrored("a publication", liar, "--baseline")
    hold_files(liar, {"a": b"m"}, at=AFTER[6])
    goes_on(liar, {"c": b"q"}, change(liar, "c", 9, "created", b"q"))
    mirrored("it is lost", liar, says="baseline: fetched 1 ")
    changed(liar, [change(liar, "c", 9, "created", b"q")], [change(liar, "a", 10, "updated", b"r")],
            bounds=[(MOMENT, AFTER[9]), (AFTER[9], None)])
    liar.documents({"/resource/a": b"r"})
    mirrored("in parts", liar, says="incremental: fetched 1 ")


def test_a_source_that_went_back_is_detected_by_the_moments_of_its_resources(liar: Liar) -> None:
    """A cache kept the Change List of this Resource List back."""
    held = [entry(f"{liar.base}/resource/{name}", body, moment=AFTER[at])
            for name, body, at in (("a", b"new", 4), ("b", b"b", 2))]
    liar.resources(held, attributes=f' at="{AFTER[9]}"')
    changed(liar, [])
    liar.documents({"/resource/a": b"new", "/resource/b": b"b"})
    mirrored("an old Change List", liar, says="baseline: fetched 2 ")
    assert state()["newest"] == AFTER[4]
    hold_files(liar, {"a": b"old"})
    goes_on(liar, {"b": b"b"}, change(liar, "b", 3, "created", b"b"))
    mirrored("it went back", liar, says="baseline: fetched 1 ")
    assert pathlib.Path("m/a").read_bytes() == b"old"


def test_as_many_connections_as_allowed_fetch_at_the_same_time(liar: Liar) -> None:
    hold_files(liar, MANY)
    counts = counted(liar, MANY)
    mirrored("at once", liar, "--connections", "4", says="baseline: fetched 60 ")
    assert max(counts) == 4
    assert files_of("m") == MANY


def test_faults_and_limits_hold_at_several_connections(liar: Liar) -> None:
    hold_files(liar, MANY)
    liar.documents({"/resource/f7": b"other"})
    mirrored("other bytes", liar, "--connections", "3", into="o", status=1, says="f7: has other bytes than listed")
    assert len(files_of("o")) == 59
    hold_files(liar, MANY)
    mirrored("bytes", liar, "--connections", "3", "--max-bytes", "24KiB", into="p", status=1, says="--max-bytes")
    assert 0 < len(files_of("p")) < 60
    begin = time.monotonic()
    mirrored("a rate", liar, "--connections", "3", "--bwlimit", "12KiB", into="q")
    assert time.monotonic() - begin > 1.2
    liar.answers["/resource/f9"] = answered(b"", "503 Away")
    mirrored("away", liar, "--connections", "3", "--patience", "0.3", into="r", status=1, says="no answer for 0.3")


@pytest.mark.parametrize("word", ["0", "65", "x"])
def test_a_number_of_connections_is_from_1_to_64(word: str) -> None:
    assert ropepeach("mirror", "http://127.0.0.1:9", "m", "--connections", word)[0] == 2


def counted(liar: Liar, files: dict[str, bytes]) -> list[int]:
    """Delay every response by 0.1 seconds; return a growing list of the numbers of responses then in progress."""
    doing, counts = [0], list[int]()

    def slowly(body: bytes) -> list[bytes]:
        doing[0] += 1
        counts.append(doing[0])
        time.sleep(0.1)
        doing[0] -= 1
        return [answered(body)]

    for name, body in files.items():
        liar.answers[f"/resource/{name}"] = lambda body=body: slowly(body)
    return counts


@pytest.mark.parametrize(("number", "end"), [(signal.SIGKILL, -9), (signal.SIGINT, 130)])
def test_a_stopped_run_at_several_connections_is_resumed(liar: Liar, number: signal.Signals, end: int) -> None:
    """The run's processes end with it, and the next run gets the folder at once."""
    files = {f"f{number}": b"%d" % number for number in range(40)}
    hold_files(liar, files)
    counted(liar, files)
    run = begun("mirror", liar.base, "m", "--connections", "3")
    wait_until(lambda: sum("/f" in path for path in liar.paths()) > 5, "requests")
    run.send_signal(number)
    status, _, complaints = ended(run)
    assert status == end, complaints
    mirrored("the next run", liar, "--connections", "3", says="baseline: ")
    assert files_of("m") == files


@pytest.mark.parametrize("words", [KEEP, ("--connections", "2")])
def test_options_for_one_source_are_refused_for_a_collection(liar: Liar, words: tuple[str, str]) -> None:
    collected(liar, ["s1", "s2"])
    status, _, complaints = ropepeach("mirror", liar.base, "m", *words)
    assert (status, complaints.count("\n")) == (2, 1)


def test_the_files_of_a_collection_are_listed_per_source(liar: Liar) -> None:
    collected(liar, ["s1", "s2"])
    mirrored("both", liar)
    status, _, complaints = ropepeach("mirror", "--list", "m")
    assert status == 3
    assert "list one of the folders in it" in complaints
    assert lines_of("m/s1") == [line(liar, "a", MOMENT, b"body").replace(liar.base, f"{liar.base}/s1")]
