"""Test that `ropepeach` is exact: digits of a digest, a length at its limit, the end of a base, the order of changes,
one run at a time.

Every test of this file follows a planted bug that no other test noticed (operations/tests/model has random histories).
"""
from __future__ import annotations

import hashlib
import os
import pathlib
import signal
from unittest import mock

import pytest

from operations.tests.tools.hostile_source import (
    MOMENT, Liar, answered, changed, collected, entry, gone, in_parts, listed)
from operations.tests.tools.made_up_store import OTHER, MadeUp
from operations.tests.tools.mirrored import AFTER, change, hold_files, mirrored, state
from operations.tests.tools.noted_calls import SHIM
from operations.tests.tools.running import begun, ended, files_of, ropepeach, wait_until, written
from operations.tests.tools.taking_source import Taking
from ropepeach.cli import numbers
from ropepeach.faults import Fault
from ropepeach.http.client import Client
from ropepeach.resync import lists
from tests.program import interposed

LONGEST, BATCH, MOST_ENTRIES = 16_777_216, 256, 50_000
# The number of passes in which a run of the mirror reads changes made while it fetched.
PASSES = 50
LATER, LAST, NEXT = (f"2000-02-29T00:00:00.00{place}Z" for place in (2, 3, 4))
BODY = b"the body"


def test_every_digit_of_a_digest_counts(room: pathlib.Path) -> None:
    """A wrong digit of one digest is at its beginning, in its middle or at its end."""
    digests = {"md5": hashlib.md5(BODY).hexdigest(), "sha-256": hashlib.sha256(BODY).hexdigest()}
    with Liar() as liar:
        liar.documents({"/resource/a": BODY})
        for kind, digest in digests.items():
            for at in [0, 1, len(digest) // 2, len(digest) - 8, len(digest) - 2, len(digest) - 1]:
                bent = digest[:at] + f"{int(digest[at], 16) ^ 1:x}" + digest[at + 1 :]
                for listed_ones in ({kind: bent}, digests | {kind: bent}):
                    hashes = " ".join(f"{word}:{text}" for word, text in listed_ones.items())
                    liar.resources([entry(f"{liar.base}/resource/a", BODY, hashes=hashes)])
                    mirrored(f"{kind}, digit {at}", liar, status=1, says="other bytes")
        assert files_of("m") == {}
        for word, text in digests.items():
            liar.resources([entry(f"{liar.base}/resource/a", BODY, hashes=f"{word}:{text}")])
            mirrored(f"{word} alone", liar, "--baseline")
        assert files_of("m") == {"a": BODY}


def test_a_repeated_digest_is_refused(room: pathlib.Path) -> None:
    """A list with the same kind of digest twice is refused, whichever is correct."""
    right, wrong = (f"sha-256:{hashlib.sha256(body).hexdigest()}" for body in (BODY, b"other"))
    with Liar() as liar:
        liar.documents({"/resource/a": BODY})
        for hashes in (f"{right} {wrong}", f"{wrong} {right}", f"{right} {right}"):
            liar.resources([entry(f"{liar.base}/resource/0", BODY),
                            entry(f"{liar.base}/resource/a", BODY, hashes=hashes)])
            mirrored(hashes, liar, status=1, says="refused")
        assert liar.paths("/resource/") == []


def test_the_longest_body_is_mirrored_and_put(room: pathlib.Path) -> None:
    """A body of exactly 16,777,216 bytes is mirrored, and put from a file; a file of one byte more is left out."""
    body = bytes(LONGEST)
    with Liar() as liar:
        hold_files(liar, {"a": body})
        mirrored("the longest body", liar)
        assert files_of("m") == {"a": body}
        mirrored("the longest body, which is here", liar, "--baseline", says="fetched 0 ")
    folder = written("folder", {"a": body, "b": b"b"})
    os.truncate(folder / "b", LONGEST + 1)
    with Taking() as source:
        status, output, messages = ropepeach("fill", folder, source.base)
        assert (status, output.split(" (")[0]) == (3, "1 put")
        assert "left out b: it has more than 16,777,216 bytes" in messages
        assert source.put == {"a": body}


@pytest.mark.parametrize("count", [2 * BATCH, 2 * BATCH + 1, 3 * BATCH - 1])
def test_files_of_several_batches_are_all_there(count: int, room: pathlib.Path) -> None:
    """The files of a batch are synced together."""
    files = {f"n/{number:04}": b"%d" % number for number in range(count)}
    with Liar() as liar:
        hold_files(liar, files)
        mirrored(f"{count} files", liar)
    assert files_of("m") == files


def test_a_list_has_at_most_50_000_entries(room: pathlib.Path) -> None:
    """A list of 50,000 entries is accepted, and a list of 50,001 refused."""
    with Liar() as liar:
        front, hashes = f"{liar.base}/resource", f"md5:{hashlib.md5(BODY).hexdigest()}"
        entries = [entry(f"{front}/{number}", BODY, hashes=hashes) for number in range(MOST_ENTRIES + 1)]
        liar.resources(entries[:-1])
        mirrored("50,000 entries", liar, "--dry-run", says="50,000 to fetch")
        liar.resources(entries)
        mirrored("50,001 entries", liar, "--dry-run", status=1, says="refused, as it has more than 50,000 entries")


def test_the_parts_of_a_list_have_at_most_50_000_entries_together(room: pathlib.Path) -> None:
    """The parts of a list may have as many entries together as a source may have resources, and not one more."""
    with Liar() as liar:
        source = lists.Source(Client(liar.base, patience=1))
        entries = [entry(f"{liar.base}/resource/{number}", BODY) for number in range(10)]
        for most in range(1, len(entries)):
            with mock.patch.object(lists, "MOST_RESOURCES", most):
                in_parts(liar, entries[:most], limit=3)
                assert len(source.resource_list()[1]) == most, f"{most} entries"
                in_parts(liar, entries[: most + 1], limit=3)
                with pytest.raises(Fault, match=f"has more than {most} entries"):
                    source.resource_list()


@pytest.mark.parametrize("text, size", [("0", 0), ("7", 7), ("7KiB", 7 << 10), ("3MiB", 3 << 20), ("2GiB", 2 << 30),
                                         ("7K", 7 << 10), ("3M", 3 << 20), ("5GB", 5 * 10**9)])
def test_sizes_have_units(text: str, size: int) -> None:
    """A size without a unit is in bytes; `M` is `MiB`, and `MB` is decimal."""
    assert numbers.size(text) == size


def test_a_base_is_compared_to_its_end(room: pathlib.Path) -> None:
    """A source at `/s1` sends no request to `/s10`."""
    with Liar() as liar:
        collected(liar, ["s1", "s10"])
        lists = [f'<url><loc>{liar.base}/{name}.xml</loc><rs:md capability="{word}"/></url>\n'
                 for name, word in (("s10/resourcelist", "resourcelist"), ("s1/changelist", "changelist"))]
        mirror = ropepeach("mirror", f"{liar.base}/s1", "m")
        assert mirror[0] == 0
        liar.documents({"/s1/capabilitylist.xml": listed("capabilitylist", lists)})
        status, _, messages = ropepeach("mirror", f"{liar.base}/s1", "m", "--baseline")
        assert status == 1
        assert "refused, as it is not below the base" in messages
        assert liar.paths("/s10/") == []


def test_changes_out_of_order_remove_nothing(room: pathlib.Path) -> None:
    """A Change List has an earlier deletion after a later put."""
    with Liar() as liar:
        hold_files(liar, {"a": BODY})
        mirrored("at first", liar)
        liar.documents({"/resource/a": b"later"})
        changed(liar, [entry(f"{liar.base}/resource/a", b"later", moment=LAST),
                       gone(f"{liar.base}/resource/a", LATER)])
        status = ropepeach("mirror", liar.base, "m", "--yes")[0]
        assert files_of("m") == ({"a": b"later"} if status == 0 else {"a": BODY})
        assert state()["until"] == (LAST if status == 0 else MOMENT)


def test_a_part_older_than_its_index_is_read_again(room: pathlib.Path) -> None:
    """A part from a cache may be older than its index and lack changes: it is read again."""
    bounds = [(MOMENT, LAST), (LAST, None)]
    with Liar() as liar:
        hold_files(liar, {"a": b"a", "b": b"b"})
        mirrored("at first", liar)
        before = state()
        front = f"{liar.base}/resource"
        changes = [entry(f"{front}/a", BODY, moment=LATER), gone(f"{front}/b", LAST)]
        changed(liar, changes, [entry(f"{front}/c", b"c", moment=NEXT)], bounds=bounds)
        liar.documents({"/resource/a": BODY, "/resource/c": b"c"})
        full = liar.answers["/changelist/0.xml"]
        older = answered(listed("changelist", changes[:1], attributes=f' from="{MOMENT}"'))
        liar.answers["/changelist/0.xml"] = older
        says = "is older than the list that names it"
        mirrored("a cache that stays", liar, "--patience", "0.2", status=1, says=says)
        assert (files_of("m"), state()) == ({"a": b"a", "b": b"b"}, before)
        liar.requests.clear()
        answers = iter([older, full])
        liar.answers["/changelist/0.xml"] = lambda: [next(answers)]
        mirrored("a cache that ends", liar)
        assert (files_of("m"), state()["until"]) == ({"a": BODY, "c": b"c"}, NEXT)


def changing_until(liar: Liar, last: int) -> None:
    """Make a source change its only resource at its first N requests."""
    versions = [0]

    def body() -> list[bytes]:
        versions.append(min(versions[-1] + 1, last))
        return [answered(b"%02d" % versions[-1])]

    def changes() -> list[bytes]:
        entries = [change(liar, "a", number + 1, "updated", b"%02d" % number) for number in range(1, versions[-1] + 1)]
        return [answered(listed("changelist", entries, attributes=f' from="{MOMENT}"'))]

    hold_files(liar, {"a": b"00"})
    liar.answers |= {"/resource/a": body, "/changelist.xml": changes}


@pytest.mark.parametrize("last", [1, 2, 3, 4, 7, 29, PASSES - 2, PASSES - 1])
def test_a_resource_that_changes_in_every_pass_is_followed(last: int, room: pathlib.Path) -> None:
    """The resource changes in as many passes as a run has."""
    with Liar() as liar:
        changing_until(liar, last)
        mirrored(f"{last} changes meanwhile", liar, says=f"fetched 1, {last} anew ")
        assert (files_of("m"), state()["until"]) == ({"a": b"%02d" % last}, AFTER[last + 1])


def test_a_resource_that_changes_in_too_many_passes_ends_the_run(room: pathlib.Path) -> None:
    """The resource changes in one pass more than a run has."""
    with Liar() as liar:
        changing_until(liar, PASSES)
        mirrored("a change more", liar, status=1, says="the source changes faster than it can be fetched")


def held_up(liar: Liar, path: str) -> pathlib.Path:
    """Delay a response of a source until a file exists; return the path of this file."""
    well, gate = liar.answers[path], pathlib.Path("gate").absolute()
    answer = well if well.startswith(b"HTTP/") else answered(well)

    def late() -> list[bytes]:
        wait_until(gate.exists, "the gate")
        return [answer]

    liar.answers[path] = late
    return gate


def test_a_second_run_on_a_folder_is_refused(room: pathlib.Path) -> None:
    """The first run continues."""
    with Liar() as liar:
        hold_files(liar, {"a": BODY, "b": b"b"})
        gate = held_up(liar, "/resource/b")
        first = begun("mirror", liar.base, "m")
        wait_until(lambda: "/resource/b" in liar.paths(), "the first run")
        for option in ("--yes", "--baseline", "--dry-run"):
            status, _, messages = ropepeach("mirror", liar.base, "m", option)
            assert status == 3, f"the second run {option}"
            assert "another run is at work in it" in messages
        gate.touch()
        assert ended(first)[0] == 0
        assert files_of("m") == {"a": BODY, "b": b"b"}


def test_files_fetched_before_a_silence_stay(room: pathlib.Path) -> None:
    """The next run fetches the other files."""
    files = {f"{number}": b"%d" % number for number in range(6)}
    with Liar() as liar:
        hold_files(liar, files)
        well = liar.answers["/resource/4"]
        liar.answers["/resource/4"] = answered(b"", "503 Service Unavailable")
        mirrored("a silence", liar, "--patience", "0.2", status=1, says="no answer for 0.2 seconds")
        found = files_of("m")
        assert found == {name: body for name, body in files.items() if name < "4" or name in found}
        liar.answers["/resource/4"] = well
        # (5 may be in progress while 4 is retried)
        mirrored("the next run", liar, says=f"fetched {6 - len(found)} ")
        assert files_of("m") == files


def test_a_baseline_that_ended_early_is_repeated(room: pathlib.Path) -> None:
    """Files that a baseline did not compare may be wrong."""
    files = {"a": b"a", "b": b"b", "c": b"c"}
    with Liar() as liar:
        hold_files(liar, files)
        mirrored("at first", liar)
        for name in files:
            pathlib.Path("m", name).write_bytes(b"other")
        well = liar.answers["/resource/b"]
        liar.answers["/resource/b"] = answered(b"", "503 Service Unavailable")
        mirrored("it ends early", liar, "--baseline", "--patience", "0.2", status=1, says="no answer for")
        assert state()["until"] is None
        liar.answers["/resource/b"] = well
        mirrored("the next run", liar, says="baseline: ")
        assert files_of("m") == files


def test_nothing_of_a_collection_is_removed_while_a_source_is_away(room: pathlib.Path) -> None:
    """The resource may have moved to the missing source."""
    with Liar() as liar:
        collected(liar, {"s1": {"a": b"a", "b": b"b"}, "s2": {"c": b"c"}})
        mirrored("at first", liar)
        lists = {name: liar.answers[f"/{name}/changelist.xml"] for name in ("s1", "s2")}
        liar.documents({"/s1/changelist.xml": listed("changelist",
                                                     [gone(f"{liar.base}/s1/resource/a", LATER)],
                                                     attributes=f' from="{MOMENT}"')})
        liar.answers["/s2/changelist.xml"] = answered(b"", "404 Not Found")
        mirrored("one is away", liar, "--patience", "0.2", status=1, says="s2: ")
        assert files_of("m/s1") == {"a": b"a", "b": b"b"}
        liar.answers["/s2/changelist.xml"] = lists["s2"]
        mirrored("both are there", liar)
        assert files_of("m/s1") == {"b": b"b"}


def test_ctrl_c_ends_a_mirror_of_a_collection_in_one_line(room: pathlib.Path) -> None:
    """Ctrl-C at a terminal reaches all processes of a run."""
    with Liar() as liar:
        collected(liar, [f"s{number}" for number in range(4)])
        gate = held_up(liar, "/s2/resource/a")
        run = begun("mirror", liar.base, "m", start_new_session=True)
        wait_until(lambda: "/s2/resource/a" in liar.paths(), "the run")
        os.killpg(run.pid, signal.SIGINT)
        status, output, messages = ended(run)
        gate.touch()
        assert (status, output, messages) == (130, "", "ropepeach mirror: stopped; the next run goes on\n")


def test_ctrl_c_ends_a_fill_of_a_collection_in_one_line(room: pathlib.Path) -> None:
    """Ctrl-C while a collection is filled reaches all processes too."""
    with Liar() as liar:
        pathlib.Path("c.toml").write_text(f'address = "{liar.base}"\n[source.s1]\naddress = "{liar.base}"\n'
                                          f'base = "{liar.base}/s1"\n'
                                          'file = "/nowhere/s1"\n')
        gate = held_up(liar, "/.well-known/resourcesync")
        run = begun("fill", written("folder", {"a": b"a"}), "c.toml", start_new_session=True)
        wait_until(lambda: bool(liar.paths()), "the run")
        os.killpg(run.pid, signal.SIGINT)
        status, output, messages = ended(run)
        gate.touch()
        assert (status, output, messages) == (130, "", "ropepeach fill: stopped; the next run goes on\n")


@pytest.mark.parametrize("length", [2, 9, 10, 11])
def test_room_is_compared_to_the_byte(length: int, room: pathlib.Path) -> None:
    """--room accepts the size that `ropepeach size` prints, and refuses a block less. Mean lengths of names vary."""
    with Taking() as source:
        folder = written("folder", dict.fromkeys(["a", "n" * length, "b.html"], b"body"))
        status, output, messages = ropepeach("size", folder, "--base", source.base)
        assert status == 0
        # (the types have 24, 24 and 9 bytes)
        mean = -(-(1 + length + 6) // 3)
        assert messages.count(f"; names of {mean} and types of 19 bytes; ") == 1, messages
        for size, wanted in ((int(output), 0), (int(output) - 512, 1)):
            assert ropepeach("fill", folder, source.base, "--dry-run", "--room", size)[0] == wanted


@pytest.mark.needs("cc")
def test_the_folder_is_synced_after_a_takeover(program: str, room: pathlib.Path) -> None:
    """`ropepeach takeover --copy` renames the copy before the sync."""
    store, calls, folder = MadeUp(room), room / "calls", str(room.resolve())
    store.write()
    environment = interposed(room, "noted", SHIM) | {"CALLS": str(calls), "FOLDER": folder}
    environment["PATH"] = f"{store.bin}:{environment['PATH']}"
    words = ["--program", program, "--sockets", room / "run", "--wait", "0", "--copy"]
    status, _, messages = ropepeach("takeover", store.file, OTHER, *words, env=environment)
    assert status == 0, f"the run: {messages}"
    lines = [line.split("\t") for line in calls.read_text().splitlines()]
    calls_made = [(name, to or path) for name, _, path, to in lines]
    assert calls_made.count(("rename", f"{folder}/a.disk")) == 1
    behind = calls_made[calls_made.index(("rename", f"{folder}/a.disk")) :]
    assert ("fsync", folder) in behind
