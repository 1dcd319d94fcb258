"""Attack the folder of a mirror by a list, a link or a name.

The attacker is an untrusted source, or a user who may write below the folder. A version of `ropepeach mirror` that
missed one of these attacks changed a file outside, froze or emptied the mirror, or filled the disk.
"""
from __future__ import annotations

import datetime
import errno
import json
import os
import pathlib
import shutil
from collections.abc import Callable, Iterator

import pytest

from operations.tests.tools.folded import folding
from operations.tests.tools.hostile_source import MOMENT, Liar, answered, changed, collected, entry, gone, in_parts
from operations.tests.tools.mirrored import hold_files, mirrored, state
from operations.tests.tools.noted_calls import noted
from operations.tests.tools.running import files_of, ropepeach, written

pytestmark = pytest.mark.usefixtures("room")

LATER = "2000-02-29T00:00:00.002Z"
FAR = "9999-12-31T00:00:00.000Z"
# The longest body in a list.
LONGEST = 16_777_216
# Files of a folder outside the mirror.
THEIRS = {name: b"theirs" for name in ("x", "0", "1", "a")}
TWENTY = {f"d/{number}": b"%d" % number for number in range(20)}


def in_days(days: float) -> str:
    """Return the moment in this many days."""
    there = datetime.datetime.now(datetime.timezone.utc) + datetime.timedelta(days)
    return there.strftime("%Y-%m-%dT%H:%M:%S.000Z")


def in_order(number: int) -> str:
    """Return one of many moments after the first publication."""
    return f"2000-02-29T00:00:01.{number:03}Z"


@pytest.fixture
def ours(liar: Liar) -> Liar:
    """Return a source that is mirrored into the folder `m`, next to a folder `victim`."""
    written("victim", THEIRS)
    hold_files(liar, {"d/x": b"ours", "a": b"ours"})
    mirrored("at first", liar)
    return liar


def test_a_link_for_a_folder_is_refused_by_an_increment_and_replaced_by_a_baseline(ours: Liar) -> None:
    shutil.rmtree("m/d")
    os.symlink("../victim", "m/d")
    changed(ours, [entry(f"{ours.base}/resource/d/x", b"later", moment=LATER)])
    ours.documents({"/resource/d/x": b"later"})
    mirrored("an increment", ours, status=3, says="m/d: is a link")
    assert state()["until"] == MOMENT
    hold_files(ours, {"d/x": b"later", "a": b"ours"}, LATER)
    mirrored("a baseline", ours, "--baseline")
    assert files_of("m") == {"d/x": b"later", "a": b"ours"}
    assert files_of("victim") == THEIRS


@pytest.mark.parametrize("to", ["../victim/a", "../same"])
def test_a_link_for_a_file_is_replaced_by_a_baseline(ours: Liar, to: str) -> None:
    """A baseline also replaces a link to a file with the right bytes."""
    pathlib.Path("same").write_bytes(b"ours")
    os.remove("m/a")
    os.symlink(to, "m/a")
    mirrored("a baseline", ours, "--baseline")
    assert (os.path.islink("m/a"), files_of("m")["a"]) == (False, b"ours")
    assert files_of("victim") == THEIRS


def test_a_link_for_files_in_progress_is_not_followed(ours: Liar) -> None:
    os.remove("m/a")
    os.symlink("../victim", "m/#incoming")
    mirrored("a baseline", ours, "--baseline", says="fetched 1 ")
    assert files_of("victim") == THEIRS


def test_a_link_for_the_state_is_refused(ours: Liar) -> None:
    os.replace("m/#state", "victim/state")
    kept = files_of("victim")
    os.symlink("../victim/state", "m/#state")
    mirrored("any run", ours, status=3, says="#state: is no regular file")
    assert files_of("victim") == kept


def test_a_link_for_the_folder_of_a_source_of_a_collection_is_refused(liar: Liar) -> None:
    written("victim", THEIRS)
    collected(liar, ["s1", "s2"])
    mirrored("a collection", liar)
    shutil.rmtree("m/s1")
    os.symlink("../victim", "m/s1")
    mirrored("a link", liar, status=3, says="m/s1: is a link")
    os.remove("m/s1")
    os.mkdir("m/s1")
    mirrored("a folder again", liar)
    assert files_of("victim") == THEIRS


def test_a_link_for_the_mark_of_a_collection_is_refused(liar: Liar) -> None:
    collected(liar, ["s1", "s2"])
    mirrored("a collection", liar)
    written("victim", THEIRS)
    os.replace("m/#collection", "victim/whole")
    kept = files_of("victim")
    os.symlink("../victim/whole", "m/#collection")
    mirrored("any run", liar, status=3, says="#collection: is no regular file")
    assert files_of("victim") == kept


NOTES = {"#notes": b"1", "#letter.txt#": b"2", "#dir/x": b"3"}


@pytest.mark.parametrize("name", ["a", *NOTES, "#incoming"])
def test_a_folder_with_a_file_of_a_user_is_refused_and_kept(liar: Liar, name: str) -> None:
    written("m", {name: b"a letter"})
    mirrored("it is no mirror", liar, status=3, says="is not empty, and no mirror")
    assert files_of("m") == {name: b"a letter"}


def test_a_folder_with_the_beginning_of_a_first_state_becomes_a_mirror(liar: Liar) -> None:
    """A stopped run left the folder in this state."""
    written("m", {"#incoming": b'{"sour'})
    mirrored("the next run", liar)


def test_a_baseline_keeps_files_of_users_whose_names_begin_with_a_number_sign(liar: Liar) -> None:
    mirrored("a mirror", liar)
    notes = NOTES | {"d/#mine": b"4", "#incoming.old/x": b"5"}
    written("m", notes | {"foreign#": b"", "a#": b""})
    mirrored("a baseline", liar, "--baseline", "--yes")
    assert files_of("m") == notes | {"a": b"body"}


ODD = ["9999-99-99T99:99:99.999Z", "2000-02-30T00:00:00.000Z", "2000-02-29T24:00:00.000Z",
       "\u0662\u0660\u0660\u0660-02-29T00:00:00.000Z", "0000-01-01T00:00:00.000Z", "2000-02-29T00:00:00.000Z\n",
       "2000-02-29T00:00:00.000", "~~~", "0"]


@pytest.mark.parametrize("text", [*ODD, FAR, "in 2 days"])
def test_a_moment_that_is_none_or_more_than_a_day_ahead_is_refused(liar: Liar, text: str) -> None:
    """A moment must be a date of ASCII digits. The message is one line, and the mirror keeps its position."""
    says = "refused, as it is no moment" if text in ODD else "later than"
    text = in_days(2) if text == "in 2 days" else text
    mirrored("at first", liar)
    hold_files(liar, {"a": b"body"}, at=text)
    mirrored("of a Resource List", liar, "--baseline", status=1, says=says)
    hold_files(liar, {"a": b"body"})
    changed(liar, [entry(f"{liar.base}/resource/a", moment=text)])
    mirrored("of a change", liar, status=1, says=says)
    changed(liar, [], start=text)
    mirrored("of a Change List", liar, status=1, says=says)
    assert state()["until"] == MOMENT


def test_the_clock_of_a_source_may_be_a_day_ahead(liar: Liar) -> None:
    hold_files(liar, {"a": b"body"}, at=in_days(0.9))
    changed(liar, [], start=MOMENT)
    mirrored("a baseline", liar, "--baseline", says="as of 2")


def test_a_position_in_the_future_makes_a_baseline(liar: Liar) -> None:
    """An earlier version remembered positions that a source had not reached."""
    mirrored("at first", liar)
    pathlib.Path("m/#state").write_text(json.dumps({"source": liar.base, "until": FAR, "newest": FAR}))
    hold_files(liar, {"a": b"other"}, at=LATER)
    mirrored("the next run", liar, says="which no source may have by now: this run is a baseline")
    assert (files_of("m"), state()["until"]) == ({"a": b"other"}, LATER)


THIRD, FIFTH = (f"2000-02-29T00:00:00.00{number}Z" for number in (3, 5))
Bounds = list[tuple[str | None, str | None]]


@pytest.mark.parametrize("bounds", [
    pytest.param([(MOMENT, "0"), ("0", None)], id="until 0"), pytest.param([(MOMENT, "~~~")], id="until tilde"),
    pytest.param([(THIRD, LATER)], id="until before from"), pytest.param([(LATER, LATER)], id="until from"),
    pytest.param([(THIRD, FIFTH), (MOMENT, THIRD)], id="in reverse"),
    pytest.param([(MOMENT, FIFTH), (THIRD, None)], id="one in another"),
    pytest.param([(MOMENT, None), (THIRD, FIFTH)], id="the first one open"),
    pytest.param([("1999-12-31T00:00:00.000Z", LATER)], id="before the index"),
    pytest.param([(MOMENT, FAR)], id="far ahead"), pytest.param([(None, LATER)], id="no from")])
def test_parts_of_a_change_list_that_are_out_of_order_are_refused(liar: Liar, bounds: Bounds) -> None:
    mirrored("at first", liar)
    liar.documents({"/resource/b": b"b"})
    changed(liar, *[[entry(f"{liar.base}/resource/b", b"b", moment=LATER)]] * len(bounds), bounds=bounds)
    mirrored("an increment", liar, status=1, says="refused, as")
    assert (state()["until"], state()["newest"]) == (MOMENT, MOMENT)


def test_parts_of_a_change_list_in_order_are_followed(liar: Liar) -> None:
    mirrored("at first", liar)
    liar.documents({"/resource/b": b"b"})
    changed(liar, [entry(f"{liar.base}/resource/b", b"b", moment=LATER)], [gone(f"{liar.base}/resource/a", THIRD)],
            bounds=[(MOMENT, LATER), (LATER, None)])
    mirrored("an increment", liar, "--yes", says="fetched 1 ")
    assert (files_of("m"), state()["until"]) == ({"b": b"b"}, THIRD)


def deleted(liar: Liar, count: int) -> None:
    """Delete this many of TWENTY by the Change List."""
    changed(liar, [gone(f"{liar.base}/resource/{name}", in_order(number))
                   for number, name in enumerate(list(TWENTY)[:count])])


def test_a_dry_run_of_a_first_run_makes_no_folder(liar: Liar) -> None:
    hold_files(liar, TWENTY)
    mirrored("a dry run", liar, "--dry-run", says="baseline: 20 to fetch (30 bytes), 0 to remove")
    assert not os.path.exists("m")


def test_an_empty_resource_list_empties_a_mirror_with_yes_only(liar: Liar) -> None:
    """Removals of more than half, or more than --max-delete, end the run and a dry run without changes."""
    hold_files(liar, TWENTY)
    mirrored("at first", liar)
    before = state()
    hold_files(liar, {})
    mirrored("a baseline", liar, "--baseline", status=1, says="20 of 20 resources would be removed, more than half")
    output, _ = mirrored("a dry run", liar, "--baseline", "--dry-run", status=1,
                         says="0 to fetch (0 bytes), 20 to remove")
    assert sorted(output.splitlines()[:-1]) == sorted(f"remove {name}" for name in TWENTY)
    mirrored("too many", liar, "--baseline", "--max-delete", "19", status=1, says="more than --max-delete 19")
    assert (files_of("m"), state()) == (TWENTY, before)
    mirrored("all", liar, "--baseline", "--yes", says="removed 20")
    assert files_of("m") == {}


def test_changes_remove_half_of_a_mirror_and_no_more_without_yes(liar: Liar) -> None:
    hold_files(liar, TWENTY)
    mirrored("at first", liar)
    before = state()
    deleted(liar, 11)
    mirrored("more than half", liar, status=1, says="11 of 20 resources would be removed")
    assert (files_of("m"), state()) == (TWENTY, before)
    deleted(liar, 10)
    mirrored("half", liar, says="removed 10")


def test_all_folders_that_a_deletion_empties_are_removed(liar: Liar) -> None:
    hold_files(liar, {"a": b"a", "b/c": b"c", "b/d/e/f": b"f"})
    mirrored("at first", liar)
    changed(liar, [gone(f"{liar.base}/resource/b/d/e/f", in_order(0))])
    mirrored("one is gone", liar, says="removed 1")
    assert (os.listdir("m/b"), files_of("m")) == (["c"], {"a": b"a", "b/c": b"c"})


def test_max_delete_allows_more_than_half(liar: Liar) -> None:
    hold_files(liar, TWENTY)
    mirrored("at first", liar)
    hold_files(liar, {})
    mirrored("as many as are allowed", liar, "--baseline", "--max-delete", "20", says="removed 20")


def test_files_that_came_and_went_within_a_run_do_not_count_as_removed(liar: Liar) -> None:
    """Only removals of files from before the run count."""
    hold_files(liar, {"a": b"a", "b": b"b", "c": b"c"})
    well = liar.answers["/resource/c"]

    def late() -> Iterator[bytes]:
        changed(liar, [gone(f"{liar.base}/resource/{name}", in_order(number)) for number, name in enumerate("abc")])
        yield answered(b"NoSuchResource", "404 Not Found")

    liar.answers["/resource/c"] = late
    mirrored("all go meanwhile", liar, says="removed 2, ")
    assert files_of("m") == {}
    liar.answers["/resource/c"] = well
    changed(liar, [])
    mirrored("all are back", liar, "--baseline", says="fetched 3 ")
    liar.answers["/resource/c"] = late
    pathlib.Path("m/c").write_bytes(b"changed")
    mirrored("three are removed", liar, "--baseline", status=1, says="3 of 3 resources would be removed")
    assert files_of("m") == {"a": b"a", "b": b"b", "c": b"changed"}


def test_removals_from_all_sources_of_a_collection_count_together(liar: Liar) -> None:
    files = {name: {f"{name}-{number}": b"body" for number in range(6)} for name in ("s1", "s2")}
    collected(liar, files)
    mirrored("a dry run of nothing", liar, "--dry-run", says="s2: baseline: 6 to fetch (24 bytes), 0 to remove")
    assert not os.path.exists("m")
    mirrored("at first", liar)
    assert {state(f"m/{name}")["until"] for name in files} == {MOMENT}
    for remaining, says in ((0, "12 of 12 resources would be removed, more than half"), (2, "8 of 12")):
        collected(liar, {name: dict(list(bodies.items())[:remaining]) for name, bodies in files.items()})
        mirrored(f"{remaining} are left", liar, "--baseline", status=1, says=says)
        mirrored(f"{remaining} are left: a dry run", liar, "--baseline", "--dry-run", status=1, says=says)
        assert {name: files_of(f"m/{name}") for name in files} == files, f"{remaining} are left"
    mirrored("too many", liar, "--baseline", "--max-delete", "7", status=1, says="more than --max-delete 7")
    mirrored("as many as are allowed", liar, "--baseline", "--max-delete", "8", says="removed 4")
    assert len(files_of("m/s1")) == 2


@pytest.mark.needs("cc")
@pytest.mark.parametrize(("how", "says"), [
    ("fold", "has several names as one"), ("keep", "has several names as one"), ("dots", "has several names as one"),
    ("refuse", "does not take each name")])
def test_a_file_system_that_has_several_names_as_one_is_refused_before_a_fetch(
        liar: Liar, room: pathlib.Path, how: str, says: str) -> None:
    """`Report` and `report` would be the same file (folded.py)."""
    hold_files(liar, {"Report": b"1", "report": b"2"})
    status, output, messages = ropepeach("mirror", liar.base, "m", env=folding(room, how))
    assert (status, output, messages.count("\n")) == (3, "", 1), messages
    assert says in messages
    assert os.listdir("m") == ["#state"]
    assert liar.paths("/resource/") == []


@pytest.mark.alone
def test_a_list_that_the_disk_has_no_room_for_is_refused_before_a_fetch(liar: Liar) -> None:
    """A dry run before the folder exists, a run, and a dry run after it refuse the list."""
    disk = os.statvfs(".")
    # (larger than the whole file system, as its free space changes during the test)
    count = disk.f_blocks * disk.f_frsize // LONGEST + 1
    assert count <= 50_000
    in_parts(liar, [entry(f"{liar.base}/resource/{number}", length=LONGEST, hashes="md5:" + "0" * 32)
                    for number in range(count)])
    says = f"and what the source lists takes {count * LONGEST:,} more: nothing was fetched"
    mirrored("it is refused", liar, "--dry-run", status=3, says=says)
    assert not os.path.lexists("m")
    for words in ((), ("--dry-run",)):
        mirrored("it is refused", liar, *words, status=3, says=says)
        assert os.listdir("m") == ["#state"]
    assert liar.paths("/resource/") == []


@pytest.mark.needs("cc")
def test_a_disk_that_fills_up_leaves_no_incomplete_file(liar: Liar, room: pathlib.Path) -> None:
    hold_files(liar, {str(number): b"body" * number for number in range(9)})
    calls = noted(room, [liar.base])[2]
    numbered = enumerate([call for call in calls if call.name != "synced"], 1)
    number = [at for at, call in numbered if call.name == "write" and call.path.startswith("#incoming/")][4]
    shutil.rmtree("m")
    status, message, _ = noted(room, [liar.base], FAILS=number, ERROR=errno.ENOSPC)
    assert (status, os.path.lexists("m/#incoming")) == (3, False)
    assert "m: No space left on device" in message


# Changes of the bytes of a valid state.
CHANGES: list[Callable[[bytes], bytes]] = [
    lambda _: b"", lambda _: b"{}", lambda _: b"[]", lambda _: b"null", lambda _: b"[" * 100_000, lambda _: b"\xff",
    lambda good: good[:-1], lambda _: b'{"source": 1, "until": null, "newest": null}', lambda _: b"\x00" * 9,
    lambda good: good.replace(b'"2000', b"2000"), lambda good: good.replace(b'"until"', b'"until": [1], "x"'),
    lambda _: b'{"source": null, "until": "a", "newest": {}}', lambda _: b"9" * 5_000,
    lambda _: b'{"source": "\\u001b]0;x", "until": null, "newest": null}']


@pytest.mark.parametrize("change", CHANGES)
def test_a_changed_state_is_refused_in_one_printable_line(ours: Liar, change: Callable[[bytes], bytes]) -> None:
    path = pathlib.Path("m/#state")
    path.write_bytes(change(path.read_bytes()))
    _, messages = mirrored("any run", ours, status=3)
    assert (messages.count("\n"), messages.rstrip("\n").isprintable()) == (1, True)


@pytest.mark.parametrize("make", [os.mkdir, os.mkfifo])
def test_a_folder_or_a_pipe_for_the_state_is_refused(ours: Liar, make: Callable[[str], object]) -> None:
    os.remove("m/#state")
    make("m/#state")
    mirrored("any run", ours, status=3, says="#state: is no regular file")


def test_a_state_with_moments_that_are_none_makes_a_baseline(ours: Liar) -> None:
    path = pathlib.Path("m/#state")
    path.write_bytes(path.read_bytes().replace(MOMENT.encode(), b"once"))
    mirrored("any run", ours, says="this run is a baseline")
