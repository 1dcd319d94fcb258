"""Test `ropepeach fill`: the source after a run, and the command's output.

operations/tests/system/test_folder.py has the tests of names, types and refusals, test_restarts.py those of stopped and
killed sources.
"""
from __future__ import annotations

import functools
import os
import pathlib
import re
import signal
import threading
import time
from collections.abc import Iterator
from unittest import mock

import pytest

from operations.tests.tools.hostile_source import Liar, answered, entry
from operations.tests.tools.running import SECONDS, Server, begun, ended, ropepeach, wait_until, written
from operations.tests.tools.taken import little, most_memory, small_files
from operations.tests.tools.taking_source import Taking
from ropepeach.fill import files as fill_files
from tests.disks import made_disks, paged_disk
from tests.reading import disk_parts as parts_of
from tests.threads import beside

pytestmark = pytest.mark.plain
# A run first reads four lists.
LISTS = 4


def with_changes(count: int, url: str) -> bytes:
    """Return the disk of an empty source that was never published, with this many changes, deletions of `z`."""
    deletions = 3, parts_of.page(2, [parts_of.change(3, b"z", moment) for moment in range(1, count + 1)])
    header = parts_of.directory(count, lists=[[], [parts_of.entry(*deletions)], []], limit=4000, base=url.encode())
    disk: bytes = made_disks.source([deletions], header, 1, 8_000)
    return disk


def letters(count: int, size: int = 100) -> dict[str, bytes]:
    """Return files in the order of their names."""
    return {f"{number:05}.txt": b"%d" % number * size for number in range(count)}


def test_fill_publishes_where_the_history_is_nearly_full(program: str, room: pathlib.Path) -> None:
    """fill publishes twice if it must; with --no-publish a message names the full history."""
    folder = written("folder", letters(30))
    server = Server(program, "a.disk", data=b"-")
    server.disk.write_bytes(with_changes(49_990, server.url))
    before = server.disk.read_bytes()
    with server:
        status, output, messages = ropepeach("fill", folder, server.url, "--no-publish")
        assert (status, output.endswith("; ended early\n")) == (1, True)
        assert "was refused: 507 TooManyChanges" in messages
        server.kill()
        server.disk.write_bytes(before)
        server.start()
        status, output, messages = ropepeach("fill", folder, server.url)
        assert (status, output.split(" (")[0], messages) == (0, "30 put", "")
        server.holds(folder)
        resources, changes, publications = server.counts()
        assert (resources, publications) == (30, 3)
        assert changes < 4_030


def test_limits_are_checked_before_the_first_put(program: str, room: pathlib.Path) -> None:
    """Too many files or too little room end a run, and a dry run, before any put."""
    folder = pathlib.Path("many")
    folder.mkdir()
    for number in range(50_001):
        os.close(os.open(folder / f"{number}", os.O_CREAT))
    few = written("few", letters(20, 5_000))
    with Server(program, "a.disk") as server:
        before = server.disk.read_bytes()
        options: list[list[str]] = [[], ["--dry-run"]]
        for words in options:
            status, output, messages = ropepeach("fill", folder, server.url, *words)
            assert (status, output) == (1, "")
            assert "FOLDER has 50,001 files, and a source holds 50,000 at most" in messages
            status, output, messages = ropepeach("fill", few, server.url, "--room", "400KiB", *words)
            assert status == 1
            assert "--room has 409,600" in messages
        assert server.disk.read_bytes() == before
        assert ropepeach("fill", few, server.url, "--room", "10MiB")[0] == 0
        assert ropepeach("fill", few, server.url, "--room", "much")[0] == 2


def test_a_wrong_folder_deletes_nothing_without_yes(program: str, room: pathlib.Path) -> None:
    """Deletions of more than half of the resources, or of more than --max-delete, are refused; --yes allows them."""
    folder = written("folder", letters(10))
    wrong = written("wrong", {"00000.txt": b"x", "other": b"y"})
    empty = pathlib.Path("empty")
    empty.mkdir()
    with Server(program, "a.disk") as server:
        assert ropepeach("fill", folder, server.url)[0] == 0
        before = server.disk.read_bytes()
        refusals: list[tuple[pathlib.Path, list[str], str]] = [
            (wrong, [], "9 of 10 resources would be deleted, more than half"),
            (empty, [], "10 of 10 resources would be deleted"), (wrong, ["--dry-run"], "more than half"),
            (wrong, ["--max-delete", "8"], "more than --max-delete 8"),
            (wrong, ["--yes", "--max-delete", "8"], "more than --max-delete 8")]
        for folder_of_run, words, why in refusals:
            status, _, messages = ropepeach("fill", folder_of_run, server.url, *words)
            assert status == 1, f"{folder_of_run} {words}"
            assert why in messages, f"{folder_of_run} {words}"
        assert server.disk.read_bytes() == before
        status, output, _ = ropepeach("fill", wrong, server.url, "--max-delete", "9")
        assert (status, output.split(" (")[0], output.split(", ")[1]) == (0, "2 put", "9 deleted")
        assert ropepeach("fill", empty, server.url, "--yes")[0] == 0
        server.holds(empty)


def test_half_of_the_resources_may_be_deleted_without_yes(program: str, room: pathlib.Path) -> None:
    """One more deletion needs --yes."""
    files = letters(10)
    with Server(program, "a.disk") as server:
        assert ropepeach("fill", written("folder", files), server.url)[0] == 0
        few = dict(list(files.items())[6:])
        messages = ropepeach("fill", written("few", few), server.url)[2]
        assert "6 of 10 resources would be deleted, more than half" in messages
        half = dict(list(files.items())[5:])
        status, output, _ = ropepeach("fill", written("half", half), server.url)
        assert (status, output.split(", ")[1]) == (0, "5 deleted")


def test_types_come_from_a_file_and_are_compared(program: str, room: pathlib.Path) -> None:
    """A pattern gives a type to a name without one; a file with another type is put again."""
    folder = written("folder", {"data/1": b"a,b", "data/2.txt": b"a,b", "README": b"read me", "b.txt": b"b"})
    pathlib.Path("types").write_text("# a pattern and a type\ndata/* text/csv\n\nREADME text/plain; charset=utf-8\n")
    pathlib.Path("wrong").write_text("data/* text\n")
    with Server(program, "a.disk") as server:
        puts: list[tuple[list[str], int]] = [([], 4), (["--types", "types"], 3), (["--types", "types"], 0), ([], 0)]
        for words, put in puts:
            status, output, _ = ropepeach("fill", folder, server.url, *words)
            assert (status, output.split(" (")[0]) == (0, f"{put} put"), f"put with {words}"
        status, _, messages = ropepeach("fill", folder, server.url, "--types", "wrong")
        assert status == 2
        assert "line 1 is no pattern and media type" in messages
        found = re.findall(r'resource/([^<]*)<.*? type="([^"]*)"', server.answers("show /resourcelist.xml").decode())
        wanted = {"README": "text/plain; charset=utf-8", "b.txt": "text/plain", "data/1": "text/csv",
                  "data/2.txt": "text/csv"}
        assert dict(found) == wanted


def test_changes_are_sent_in_groups_in_the_order_of_names(program: str, room: pathlib.Path) -> None:
    """40 files are three groups, a long file between them a single put: the server ends after these connections."""
    files = letters(40) | {"00020.txt": bytes(70_000)}
    folder = written("folder", files | {"a/b": b"1", "a.txt": b"2", "a b": b"3"})
    server = Server(program, "a.disk")
    try:
        # The lists; 16 and 4 files, the long one, 16 and 6; a publication.
        server.start(LISTS + 2 + 1 + 2 + 1)
        status, output, messages = ropepeach("fill", folder, server.url)
        assert (status, output.split(" (")[0], messages) == (0, "43 put", "")
        assert server.process
        server.process.wait(SECONDS)
        found = re.findall(r"resource/([^<]*)<", server.answers("show /changelist.xml").decode())
        assert found == sorted([*files, "a/b", "a.txt", "a%20b"])
        # The lists, one group of deletions, a publication.
        for name in list(files)[:10]:
            os.remove(folder / name)
        server.start(LISTS + 1 + 1)
        status, output, _ = ropepeach("fill", folder, server.url)
        assert (status, output.split(", ")[1]) == (0, "10 deleted")
        assert server.process
        server.process.wait(SECONDS)
    finally:
        server.kill()


def test_files_are_put_one_by_one_where_a_group_has_no_room(program: str, room: pathlib.Path) -> None:
    """The disk has no room for a group in addition to the old files."""
    folder = written("folder", {f"{number}": b"1" * 30_000 for number in range(16)})
    with Server(program, "a.disk", size=660_000) as server:
        for byte in b"123":
            written(folder, {f"{number}": bytes([byte]) * 30_000 for number in range(16)})
            status, output, messages = ropepeach("fill", folder, server.url)
            assert (status, output.split(" (")[0], messages) == (0, "16 put", "")
        server.holds(folder)


def test_a_changing_file_is_put_whole_or_left_out(program: str, room: pathlib.Path) -> None:
    """fill leaves a file that changes during the read for the next run, and puts a replaced file whole."""
    folder, goes_on = written("folder", {"grows": b"", "moved": b"a" * 300_000}), threading.Event()

    def change() -> None:
        with open(folder / "grows", "ab") as file:
            while not goes_on.wait(0.01):
                file.write(b"x" * 100)
                file.flush()
                pathlib.Path("next").write_bytes(os.urandom(1) * 300_000)
                os.utime("next", (1_700_000_000, 1_700_000_000))
                os.replace("next", folder / "moved")

    with Server(program, "a.disk", size=4 << 20) as server:
        with beside(change, ending=goes_on.set):
            status, output, messages = ropepeach("fill", folder, server.url)
        assert (status, output.split(" (")[0]) == (3, "1 put")
        assert "left out grows: it changes while it is read, and is left for the next run" in messages
        shown = server.answers("show /resource/moved")
        assert (len(shown), len(set(shown[13:-1]))) == (300_014, 1)
        server.start()
        assert ropepeach("fill", folder, server.url)[0] == 0
        server.holds(folder)


@pytest.mark.parametrize("changes, wanted", [(0, b"part"), (1, b"part part"), (9, None)])
def test_a_file_that_is_being_written_is_put_whole(changes: int, wanted: bytes | None, room: pathlib.Path) -> None:
    """A file that changed within the last second is read again until it is unchanged for a second; a file that keeps
    changing is left out.
    """
    path, now, left = written("folder", {"a": b"part"}) / "a", [float(int(time.time()))], [changes]

    def pause(seconds: float) -> None:
        now[0] += seconds / 2
        if left[0]:
            left[0] -= 1
            with path.open("ab") as file:
                file.write(b" part")
            os.utime(path, (now[0], now[0]))
        now[0] += seconds / 2

    os.utime(path, (now[0], now[0]))
    with mock.patch.object(time, "time", lambda: now[0]), mock.patch.object(time, "sleep", pause):
        try:
            found: bytes | None = fill_files.Files("folder").read_unchanged("a").body
        except fill_files.Unfit:
            found = None
    assert found == wanted


def test_fill_waits_for_a_source_that_is_down(program: str, room: pathlib.Path) -> None:
    """The run retries as long as its patience lasts, and reports this in one line."""
    folder = written("folder", letters(5))
    server = Server(program, "a.disk")
    status, output, messages = ropepeach("fill", folder, server.url, "--patience", "0.6")
    assert (status, output) == (1, "")
    assert "no answer for 0.6 seconds: Connection refused" in messages
    run = begun("fill", folder, server.url)
    assert run.stderr
    assert "Connection refused; waiting up to 30 s" in run.stderr.readline()
    with server:
        status, output, messages = ended(run)
        assert (status, output.split(" (")[0], messages) == (0, "5 put", "")
        server.holds(folder)


@pytest.mark.parametrize("is_published", [True, False])
def test_a_publication_without_an_answer_is_made_once(is_published: bool, room: pathlib.Path) -> None:
    """fill repeats a publication without a response only if the source did not make it."""
    folder, later = written("folder", {"a": b"other"}), "2000-02-29T00:00:00.009Z"
    with Liar() as liar:

        def publish() -> Iterator[bytes]:
            if is_published:
                liar.resources([entry(f"{liar.base}/resource/a")], attributes=f' at="{later}"')
            elif liar.paths().count("/publish") > 1:
                yield answered(f"published 2 {later}\n".encode())

        liar.answers |= {"/resource/a": answered(b"", "204 No Content"), "/publish": publish}
        status, output, _ = ropepeach("fill", folder, liar.base)
        assert (status, output.split(" (")[0], output.split()[-1]) == (0, "1 put", later)
        assert liar.paths().count("/publish") == (1 if is_published else 2)


def test_ctrl_c_ends_a_run_in_one_line(program: str, room: pathlib.Path) -> None:
    """Ctrl-C during a wait or puts exits 130 with one line; the next run resumes."""
    folder = written("folder", letters(1_000, 20))
    server = Server(program, "a.disk")
    stopped = lambda run: (run.send_signal(signal.SIGINT), ended(run))[1]
    wanted = 130, "", "ropepeach fill: stopped; the next run goes on\n"
    waiting = begun("fill", folder, server.url)
    assert waiting.stderr
    waiting.stderr.readline()
    assert stopped(waiting) == wanted
    with server:
        amid = 0
        for seconds in (0, 0.01, 0.03):
            before, run = server.disk.stat().st_mtime_ns, begun("fill", folder, server.url)
            wait_until(lambda: server.disk.stat().st_mtime_ns != before or run.poll() is not None, "the first put")
            time.sleep(seconds)
            status, output, messages = stopped(run)
            amid += (status, output, messages.count("\n")) == (130, "", 1)
        assert amid == 3
        assert ropepeach("fill", folder, server.url)[0] == 0
        server.holds(folder)


@pytest.mark.alone
@pytest.mark.timeout(600)
def test_a_file_takes_at_most_300_bytes_of_memory(program: str, room: pathlib.Path) -> None:
    """The files are new, or the source has all of them."""

    def memory_of_a_fill(held: bool, count: int) -> int:
        folder = small_files(f"{count}", count)
        with Server(program, f"{count}.disk", data=paged_disk.spelled(count, 0) if held else None) as server:
            return most_memory("fill", folder, server.url, "--dry-run")

    little("fill, where none is held", functools.partial(memory_of_a_fill, False))
    little("fill, where all are held", functools.partial(memory_of_a_fill, True))


@pytest.mark.parametrize(("status", "puts"), [(500, 0), (501, 0), (507, 3), (404, 3), (400, 3)])
def test_a_group_that_the_source_fails_ends_the_run(status: int, puts: int, room: pathlib.Path) -> None:
    """After any other refusal of a group, fill sends its changes one at a time."""
    folder = written("folder", {name: b"body" for name in "abc"})
    with Taking() as liar:
        liar.answers["/group"] = answered(b"", f"{status} Refused")
        assert ropepeach("fill", folder, liar.base)[0] == (0 if puts else 1)
        assert len(liar.put) == puts


@pytest.mark.parametrize("body, kind, ends", [
    (b"NotHeld\n", "plain", 0), (b"", "html", 1), (b"NotHeld\n", "html", 1), (b"NoSuchDocument\n", "plain", 1),
    (b"NotHeldHere\n", "plain", 1), (b"notheld\n", "plain", 1)])
def test_only_the_404_of_the_source_counts_as_a_deletion(body: bytes, kind: str, ends: int, room: pathlib.Path) -> None:
    """Any other 404 ends the run."""
    folder = written("folder", {"kept": b"kept"})
    with Taking() as liar:
        liar.resources([entry(f"{liar.base}/resource/gone")])
        liar.answers["/resource/gone"] = answered(body, "404 Not Found", f"Content-Type: text/{kind}\r\n").replace(
            b"Content-Type: application/xml\r\n", b"")
        status, output, messages = ropepeach("fill", folder, liar.base, "--yes")
        assert (status, output.split(", ")[1]) == (ends, f"{1 - ends} deleted"), messages
        says = f"DELETE {liar.base}/resource/gone was refused: 404" if ends else "gone: was deleted before"
        assert says in messages
        assert messages.count("\n") == 1, messages
