"""Test the state of `ropepeach fill` between two runs."""
from __future__ import annotations

import os
import pathlib
import pwd
import shutil
import sqlite3
import urllib.request
from collections.abc import Callable
from unittest import mock

import pytest

from operations.tests.tools.fill_runs import COUNT, FILES, filled, put, remembered, settled, status_and_puts
from operations.tests.tools.running import Server, begun, ended, wait_until, written
from ropepeach.fill import files, memory, plan

HOUR = 3_600_000_000_000


def test_unchanged_files_are_not_read(program: str, room: pathlib.Path) -> None:
    """The second run reads no file; it reads a changed file, even with the same length and time; --check reads all."""
    with remembered(program, room) as (server, path):
        assert path.stat().st_mode & 0o777 == 0o600
        assert filled(server.url)[3] == []
        assert filled(server.url, "--dry-run")[3] == []
        pathlib.Path("folder/d/03.txt").write_bytes(b"other"[:1] * 50)
        written("folder", {"d/03.txt": b"x" * len(FILES["d/03.txt"])})
        status, printed, _, names = filled(server.url)
        assert (status, put(printed), set(names)) == (0, "1 put", {"d/03.txt"})
        os.replace("folder/d/03.txt", "folder/d/new.txt")
        status, printed, _, names = filled(server.url)
        assert (status, put(printed), set(names)) == (0, "1 put", {"d/new.txt"})
        assert filled(server.url)[3] == []
        assert len(filled(server.url, "--check")[3]) == COUNT
        written("types", {"a": b"d/00.txt text/csv\n"})
        assert status_and_puts(server.url, "--types", "types/a") == (0, "1 put")
        rows_of = sqlite3.connect(path)
        assert rows_of.execute("SELECT count(*) FROM files").fetchone()[0] == COUNT
        rows_of.close()
        server.holds("folder")


def test_a_recently_changed_file_is_read_again(program: str, room: pathlib.Path) -> None:
    """The file changed within the clock's resolution, here an hour; a run after that time remembers it."""
    written("folder", FILES)
    with mock.patch.dict(os.environ, XDG_STATE_HOME=str(room / "state")), Server(program, "a.disk") as server:
        with mock.patch.object(files, "GRAIN", HOUR):
            assert filled(server.url)[0] == 0
            assert len(filled(server.url)[3]) == COUNT
        with mock.patch.object(files, "GRAIN", 0):
            assert len(filled(server.url)[3]) == COUNT
            assert filled(server.url)[3] == []


@pytest.mark.parametrize("mtime, ctime, is_settled", [
    (0, 8, True), (8, 0, True), (9, 0, False), (0, 9, False), (0, 11, False)])
def test_both_times_of_a_file_lie_two_seconds_before_the_reading(mtime: int, ctime: int, is_settled: bool) -> None:
    """The read is at 10 seconds."""
    second = 1_000_000_000
    assert files.Stamp(1, mtime * second, ctime * second, 1).is_settled(10 * second) == is_settled


def test_a_restored_source_is_filled_again(program: str, room: pathlib.Path) -> None:
    """The source was restored from a backup, or is a new source at the same base."""
    with remembered(program, room) as (server, _):
        server.kill()
        shutil.copyfile("a.disk", "backup")
        server.start()
        written("folder", {"d/05.txt": b"5" * 70, "d/06.txt": b"x" * len(FILES["d/06.txt"])})
        assert status_and_puts(server.url) == (0, "2 put")
        server.kill()
        shutil.copyfile("backup", "a.disk")
        server.start()
        assert status_and_puts(server.url) == (0, "2 put")
        server.holds("folder")
        os.remove("a.disk")
        with Server(program, "b.disk", base=server.url) as other:
            assert status_and_puts(other.url) == (0, f"{COUNT} put")
            other.holds("folder")


def test_a_killed_run_leaves_right_rows_and_another_folder_is_read_whole(program: str, room: pathlib.Path) -> None:
    """A killed run leaves correct rows; another folder for the same source is read completely."""
    many = {f"{number:04}.txt": b"%d" % number * 20 for number in range(1_500)}
    written("folder", many)
    with mock.patch.dict(os.environ, XDG_STATE_HOME=str(room / "state")), Server(program, "a.disk") as server:
        run = begun("fill", "folder", server.url)
        before = server.disk.stat().st_mtime_ns
        wait_until(lambda: server.disk.stat().st_mtime_ns != before or run.poll() is not None,
                   "the first put")
        run.kill()
        ended(run)
        with settled():
            # (more rows than a transaction has)
            status, _, messages, _ = filled(server.url)
            assert (status, messages) == (0, "")
            assert filled(server.url)[3] == []
            os.rename("folder", "moved")
            assert len(filled(server.url, folder="moved")[3]) == len(many)
        server.holds("moved")


def changed_database(words: str) -> Callable[[pathlib.Path], object]:
    """Return a function that changes the database by SQL."""

    def change(path: pathlib.Path) -> None:
        database = sqlite3.connect(path, isolation_level=None)
        database.execute(words)
        database.close()

    return change


def change_and_compare(path: pathlib.Path, words: str) -> None:
    """Change the database by SQL, and check that its file has changed."""
    before = path.read_bytes()
    changed_database(words)(path)
    assert path.read_bytes() != before


def flipped(path: pathlib.Path) -> None:
    """Flip a bit in the middle of every page."""
    data = bytearray(path.read_bytes())
    for at in range(2_048, len(data), 4_096):
        data[at] ^= 1
    path.write_bytes(bytes(data))


def replaced(make: Callable[[pathlib.Path], object]) -> Callable[[pathlib.Path], object]:
    """Return a function that replaces the file by another object."""

    def change(path: pathlib.Path) -> None:
        path.unlink()
        make(path)

    return change


def moved_behind_a_link(path: pathlib.Path) -> None:
    """Move the file away, and put a link in its place."""
    path.rename("moved")
    path.symlink_to(os.path.abspath("moved"))


# Whether a file belongs to another program or user, and must stay unchanged.
FOREIGN, OURS = True, False
HOSTILE: dict[str, tuple[Callable[[pathlib.Path], object], bool]] = {
    "a link": (replaced(lambda path: os.symlink("/dev/shm/ropepeach-none", path)), FOREIGN),
    "a link to a database": (moved_behind_a_link, FOREIGN),
    "a second name": (lambda path: os.link(path, "second"), FOREIGN),
    "one that others write": (lambda path: path.chmod(0o666), FOREIGN),
    "a pipe": (replaced(os.mkfifo), FOREIGN),
    "a folder": (replaced(os.mkdir), FOREIGN),
    "a newer version": (changed_database(f"PRAGMA user_version = {memory.VERSION + 1}"), FOREIGN),
    "no bytes": (lambda path: path.write_bytes(b""), OURS),
    "other bytes": (lambda path: path.write_bytes(b"\x1b[2J" * 5_000), OURS),
    "half of it": (lambda path: os.truncate(path, path.stat().st_size // 2), OURS),
    "bits turned": (flipped, OURS),
    "another table": (changed_database("CREATE TABLE more (a)"), OURS),
    "a trigger": (changed_database("CREATE TRIGGER t AFTER DELETE ON noted BEGIN DELETE FROM files; END"),
                  OURS),
    "a view": (changed_database("CREATE VIEW v AS SELECT * FROM files"), OURS),
    "another program's": (changed_database("PRAGMA application_id = 7"), OURS),
    "other names": (changed_database("UPDATE files SET name = x'00ff'||name"), OURS),
    "other digests": (changed_database("UPDATE files SET sha256 = zeroblob(32)"), OURS),
    "digests of text": (changed_database("UPDATE files SET sha256 = 'text'"), OURS),
    "other times": (changed_database("UPDATE files SET mtime = 'never'"), OURS),
}
DOCUMENTS = {
    "no entries": "UPDATE documents SET entries = x'5b5d'",
    "other entries": "UPDATE documents SET entries = CAST(replace(CAST(entries AS TEXT), 'd/0', 'e/0') AS "
                     "BLOB)",
    "another head": "UPDATE documents SET head = CAST(replace(CAST(head AS TEXT), '20', '19') AS BLOB)",
    "text": "UPDATE documents SET head = 'text', entries = 'text', seal = 'text'",
    "another document's": "UPDATE documents SET (head, entries, seal) = (SELECT head, entries, seal FROM "
                          "documents ORDER BY length(entries) LIMIT 1)",
}


@pytest.mark.parametrize("change, is_foreign", HOSTILE.values(), ids=HOSTILE)
def test_a_damaged_or_foreign_state_file_ends_no_run(
        change: Callable[[pathlib.Path], object], is_foreign: bool, program: str, room: pathlib.Path) -> None:
    """fill reads files instead, prints at most one line, and fills the source correctly. A foreign file stays."""
    with remembered(program, room) as (server, path):
        change(path)
        before = path.lstat()
        written("folder", {"d/07.txt": b"1" * 60})
        status, printed, messages, names = filled(server.url)
        assert (status, put(printed)) == (0, "1 put"), messages
        assert messages.count("\n") <= 1 and "\x1b" not in messages
        if is_foreign:
            assert "every file is read" in messages
            assert len(set(names)) == COUNT
            assert (path.lstat().st_ino, path.lstat().st_mode) == (before.st_ino, before.st_mode)
        server.holds("folder")
        assert not os.path.exists("/dev/shm/ropepeach-none")


@pytest.mark.parametrize("words", DOCUMENTS.values(), ids=DOCUMENTS)
def test_changed_documents_in_the_state_file_are_not_used(words: str, program: str, room: pathlib.Path) -> None:
    """Changed entries of documents do not count as resources of the source."""
    with remembered(program, room) as (server, path):
        assert put(filled(server.url)[1]) == "0 put"
        change_and_compare(path, words)
        status, printed, messages, _ = filled(server.url)
        same = f"0 put (0 bytes), 0 deleted, {COUNT} the same, 0 left out; published before\n"
        assert (status, printed) == (0, same), messages
        server.holds("folder")


@pytest.mark.root
def test_a_state_file_of_another_user_is_not_used(program: str, room: pathlib.Path) -> None:
    """A state file below a folder of another user is not used either."""
    with remembered(program, room) as (server, path):
        for own in (path, path.parent, path.parent.parent):
            os.chown(own, pwd.getpwnam("nobody").pw_uid, -1)
            status, _, messages, names = filled(server.url)
            assert (status, len(names)) == (0, COUNT), f"{own}"
            assert "it belongs to another user: every file is read" in messages, f"{own}"
            os.chown(own, 0, -1)


def test_a_state_folder_of_other_users_is_not_used(program: str, room: pathlib.Path) -> None:
    """A state folder that cannot be made is not used either."""
    with remembered(program, room) as (server, path):
        path.parent.chmod(0o777)
        assert "other users may write it" in filled(server.url)[2]
        for place in ("folder/d/00.txt", "/dev/null/none"):
            with mock.patch.dict(os.environ, XDG_STATE_HOME=os.path.abspath(place)):
                status, _, messages, names = filled(server.url)
            assert (status, len(names), messages.count("\n")) == (0, COUNT, 1), f"{place}: {messages}"


def test_a_second_run_at_the_same_time_reads_every_file(program: str, room: pathlib.Path) -> None:
    """The second run reports this, and writes no state."""
    with remembered(program, room) as (server, path):
        database = sqlite3.connect(path, isolation_level=None)
        database.execute("BEGIN EXCLUSIVE")
        status, _, messages, names = filled(server.url)
        assert (status, len(names), messages.count("\n")) == (0, COUNT, 1)
        assert "another run has it: every file is read" in messages
        database.close()
        assert filled(server.url)[3] == []


def compared(url: str, *words: str) -> tuple[str, bool]:
    """Run fill; return the number of puts, and whether it compared files with resources."""
    with mock.patch.object(plan.FillPlan, "compare_file", autospec=True,
                           side_effect=plan.FillPlan.compare_file) as compare:
        status, printed, messages, _ = filled(url, *words)
    assert (status, messages) == (0, ""), f"status and messages, {messages}"
    return put(printed), compare.called


def asked(url: str, method: str, path: str, body: bytes | None = None) -> int:
    """Send a request as another client; return the status."""
    request = urllib.request.Request(url + path, body, {"Content-Type": "text/plain"}, method=method)
    with urllib.request.build_opener(urllib.request.ProxyHandler({})).open(request, timeout=10) as answer:
        return int(answer.status)


# Changes of the row about a run without work.
SETTLED = {
    "no lines": "UPDATE about SET value = x'' WHERE word = 'settled'",
    "other documents": "UPDATE about SET value = CAST(replace(CAST(value AS TEXT), 'list', 'lost') AS BLOB) "
                       "WHERE word = 'settled'",
    "no documents": "UPDATE about SET value = substr(value, 1, 64) WHERE word = 'settled'",
    "other digests": "UPDATE about SET value = CAST(replace(CAST(value AS TEXT), '1', '2') AS BLOB) "
                     "WHERE word = 'settled'",
    "text": "UPDATE about SET value = 'text' WHERE word = 'settled'",
    "a number": "UPDATE about SET value = 7 WHERE word = 'settled'",
    "other bytes": "UPDATE about SET value = x'ff00ff0a20' WHERE word = 'settled'",
}


def test_nothing_is_compared_where_nothing_changed(program: str, room: pathlib.Path) -> None:
    """The run compares files again if a file or the source has changed since a run without work."""
    with remembered(program, room) as (server, _):
        assert compared(server.url) == ("0 put", True)
        assert compared(server.url) == ("0 put", False)
        changes: dict[str, Callable[[], object]] = {
            "a file has other bytes": lambda: written("folder", {"d/01.txt": b"y" * len(FILES["d/01.txt"])}),
            "a file is new": lambda: written("folder", {"e": b"e"}),
            "somebody put a resource": lambda: asked(server.url, "PUT", "/resource/d/02.txt", b"z"),
            "somebody put it, and published": lambda: (asked(server.url, "PUT", "/resource/d/03.txt", b"z"),
                                                       asked(server.url, "POST", "/publish", b"")),
            "somebody deleted a resource": lambda: asked(server.url, "DELETE", "/resource/d/04.txt"),
        }
        for what, change in changes.items():
            change()
            assert compared(server.url) == ("1 put", True), what
            assert compared(server.url) == ("0 put", True), f"{what}, again"
            assert compared(server.url) == ("0 put", False), f"{what}, once more"
        os.remove("folder/e")
        assert compared(server.url) == ("0 put", True)
        server.holds("folder")


@pytest.mark.parametrize("words", [["--check"], ["--exclude", "d/0*"], ["--links"], ["--again", "d/05.txt"]], ids=str)
def test_files_are_compared_where_an_option_changed(words: list[str], program: str, room: pathlib.Path) -> None:
    """Three runs without the option come first."""
    with remembered(program, room) as (server, _):
        for _ in range(3):
            filled(server.url)
        assert compared(server.url, *words)[1]


@pytest.mark.parametrize("second", [-20_000_000_000, 20_000_000_000])
def test_a_file_whose_time_has_no_64_bits_is_filled(second: int, program: str, room: pathlib.Path) -> None:
    """Every run reads this file."""
    with remembered(program, room) as (server, _):
        try:
            os.utime("folder/d/00.txt", (second, second))
        except OSError:
            pytest.skip("this file system has no such times")
        for _ in range(3):
            status, printed, messages, names = filled(server.url)
            assert (status, put(printed), names) == (0, "0 put", ["d/00.txt"]), messages


@pytest.mark.parametrize("words", SETTLED.values(), ids=SETTLED)
def test_a_changed_row_about_the_last_run_is_not_trusted(words: str, program: str, room: pathlib.Path) -> None:
    """Files are compared if the row is malformed or names other documents."""
    with remembered(program, room) as (server, path):
        filled(server.url)
        assert compared(server.url) == ("0 put", False)
        change_and_compare(path, words)
        status, printed, messages, _ = filled(server.url)
        assert (status, put(printed), messages.count("\n") <= 1) == (0, "0 put", True), messages
        server.holds("folder")
