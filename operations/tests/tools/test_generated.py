"""Test that a command ends without a traceback for any bytes in documents, responses, files, names and arguments.

The exit status is on the command's manual page, and output is printable text. hypothesis generates the same bytes in
every run of the tests; the commands run in this process.
"""
from __future__ import annotations

import contextlib
import gzip
import io
import json
import os
import pathlib
import shutil
import tempfile
from collections.abc import Iterator
from typing import Any
from unittest import mock

import pytest

from operations.tests.tools.generating import st, tried
from operations.tests.tools.hostile_source import Liar, answered, changed, collected, entry, gone
from operations.tests.tools.taking_source import Taking
from ropepeach.admin import takeover, takeover_store
from ropepeach.cli import command
from ropepeach.cli.subcommands import SUBCOMMANDS
from tests.disks import disks

pytestmark = [pytest.mark.skipif(st is None, reason="there is no python3-hypothesis here"), pytest.mark.timeout(600)]
# Bytes that replace others, in addition to random bytes.
PIECES = [b"", b"\0", b"\n", b"\x1b[2J", b"\xff", b"<", b">", b'"', b"&#10;", b"&a;", b"]]>", b"\xe2\x80\xae", b"-1",
          b"9" * 400, b"[" * 3_000, b"{}", b"1e999", b"9999-12-31T23:59:59.999Z", b"2000-02-30T00:00:00.000Z", b"../",
          b"%2e", b"#", b"http://", b"null", b"until=\"\"", b"\r\n\r\n", b"HTTP/1.1 999 "]
# The exit statuses on the manual pages.
STATUSES = {0, 1, 2, 3, 4, 5}


@pytest.fixture(autouse=True)
def no_proxy(monkeypatch: pytest.MonkeyPatch) -> None:
    """Contact sources of this machine without a proxy."""
    monkeypatch.setenv("no_proxy", "127.0.0.1")


def run_command(*words: str) -> int:
    """Run the command in this process; return its exit status."""
    printed = io.BytesIO()
    stream = io.TextIOWrapper(printed, encoding="utf-8", write_through=True)
    with contextlib.redirect_stdout(stream), contextlib.redirect_stderr(stream):
        try:
            status: Any = command.main(words)
        except SystemExit as end:
            status = end.code
    text = printed.getvalue().decode("utf-8", "surrogateescape")
    assert status in STATUSES, words
    assert text.replace("\n", "").isprintable(), words
    assert "Traceback" not in text and (not status or text.strip()), words
    return int(status)


def bytes_near(text: bytes) -> Any:
    """Return a strategy: the text with one to three places changed, or any bytes."""
    piece = st.sampled_from(PIECES) | st.binary(max_size=12)
    change = st.tuples(st.integers(0, max(0, len(text))), st.integers(0, 30), piece)

    def changed_by(changes: list[tuple[int, int, bytes]]) -> bytes:
        found = text
        for at, length, new in changes:
            found = found[:at] + new + found[at + length :]
        return found

    return st.lists(change, min_size=1, max_size=3).map(changed_by) | st.binary(max_size=300)


@contextlib.contextmanager
def fresh() -> Iterator[None]:
    """Yield a new folder for a run."""
    with tempfile.TemporaryDirectory(dir=".") as room, contextlib.chdir(room):
        yield


def test_any_document_of_a_source_ends_in_a_line(room: pathlib.Path) -> None:
    """mirror, health, fill and a second mirror read any bytes instead of a document, a body or a whole response."""
    with Liar() as liar:
        liar.documents({"/resource/b": b"b"})
        changed(liar, [entry(f"{liar.base}/resource/b", b"b", moment="2000-02-29T00:00:00.002Z")],
                [gone(f"{liar.base}/resource/a", "2000-02-29T00:00:00.003Z")],
                bounds=[(f"2000-02-29T00:00:00.00{number}Z", f"2000-02-29T00:00:00.00{number + 1}Z")
                        for number in (1, 2)])
        well = dict(liar.answers)
        pathlib.Path("folder").mkdir()
        pathlib.Path("folder/a").write_bytes(b"a")
        limits = ["--patience", "0", "--max-time", "2"]

        def look(path: str, answer: bytes) -> None:
            liar.answers = well | {path: answer}
            with fresh():
                run_command("mirror", liar.base, "m", "--yes", *limits)
                run_command("health", liar.base, *limits)
                run_command("fill", "../folder", liar.base, "--dry-run", *limits)
                liar.answers = well
                run_command("mirror", liar.base, "m", "--yes", "--baseline")

        for path in well:
            tried({"path": st.just(path), "answer": bytes_near(well[path].partition(b"\r\n\r\n")[2]).map(answered)},
                  look, 25)
            tried({"path": st.just(path), "answer": bytes_near(well[path])}, look, 8)


def test_any_document_of_a_source_of_any_software_ends_in_a_line(room: pathlib.Path) -> None:
    """Two runs of mirror read any bytes instead of a document, page, robots.txt or response of any software."""
    page = b'<html><head><link rel="resourcesync" href="/capabilitylist.xml"></head></html>'
    with Liar() as liar:
        created = entry(f"{liar.base}/resource/b", b"b", moment="2000-02-29T00:00:00.002Z").replace(
            "<rs:md ", '<rs:md change="created" ')
        changed(liar, [created], [gone(f"{liar.base}/resource/a", "2000-02-29T00:00:00.003Z")],
                bounds=[(f"2000-02-29T00:00:00.00{number}Z", f"2000-02-29T00:00:00.00{number + 1}Z")
                        for number in (1, 2)])
        liar.documents({"/resource/b": b"b", "/page": page,
                        "/robots.txt": f"Sitemap: {liar.base}/resourcelist.xml".encode()})
        well = dict(liar.answers)
        packed = {path: gzip.compress(response.partition(b"\r\n\r\n")[2]) for path, response in well.items()}
        limits = ["--patience", "0", "--max-time", "2", "--yes"]

        def look(path: str, answer: bytes) -> None:
            liar.answers = well | {path: answer}
            if path == "/robots.txt":
                del liar.answers["/.well-known/resourcesync"]
            with fresh():
                for start in ("/page", "") if path == "/page" else ("",):
                    run_command("mirror", liar.base + start, "m", *limits)
                liar.answers = well
                run_command("mirror", liar.base, "m", "--baseline", *limits)

        for path in well:
            body = well[path].partition(b"\r\n\r\n")[2]
            tried({"path": st.just(path), "answer": bytes_near(body).map(answered)}, look, 15)
            tried({"path": st.just(path), "answer": bytes_near(packed[path]).map(answered) | bytes_near(well[path])},
                  look, 6)


def test_any_state_of_a_mirror_of_any_source_ends_in_a_line(room: pathlib.Path) -> None:
    """mirror reads any bytes instead of `#known` and of `#state`, of a mirror of any source."""
    with Liar() as liar:
        assert run_command("mirror", liar.base, "m") == 0
        for name in ("#known", "#state"):
            well = pathlib.Path("m", name).read_bytes()

            def look(name: str, text: bytes) -> None:
                pathlib.Path("m", name).write_bytes(text)
                run_command("mirror", "--list", liar.base, "m")
                run_command("mirror", liar.base, "m", "--yes")

            # (SQLite's message about this schema is not text)
            look(name, well.replace(b"CREATE ", b"CREATE\xff"))
            tried({"name": st.just(name), "text": bytes_near(well)}, look)
            pathlib.Path("m", name).write_bytes(well)


def test_any_document_of_a_collection_ends_in_a_line(room: pathlib.Path) -> None:
    """mirror reads any bytes instead of a collection's Source Description, and of a source's list."""
    with Liar() as liar:
        collected(liar, ["s1", "s2"])
        well = dict(liar.answers)

        def look(path: str, text: bytes) -> None:
            liar.answers = well | {path: answered(text)}
            with fresh():
                run_command("mirror", liar.base, "m", "--patience", "0", "--max-time", "2", "--dry-run")

        for path in ("/.well-known/resourcesync", "/s1/changelist.xml"):
            tried({"path": st.just(path), "text": bytes_near(well[path].partition(b"\r\n\r\n")[2])}, look, 30)


def test_any_state_of_a_mirror_ends_in_a_line(room: pathlib.Path) -> None:
    """mirror reads any bytes instead of `#state` and of `#collection`."""
    with Liar() as liar:
        assert run_command("mirror", liar.base, "m") == 0
        well = pathlib.Path("m/#state").read_bytes()

        def look(text: bytes) -> None:
            pathlib.Path("m/#state").write_bytes(text)
            run_command("mirror", liar.base, "m", "--yes")

        tried({"text": bytes_near(well)}, look)

        def look_at_whole(text: bytes) -> None:
            pathlib.Path("w").mkdir(exist_ok=True)
            pathlib.Path("w/#collection").write_bytes(text)
            run_command("mirror", liar.base, "w", "--yes")

        tried({"text": bytes_near(json.dumps({"collection": liar.base}).encode())}, look_at_whole)


def test_any_response_to_a_publication_ends_in_a_line(room: pathlib.Path) -> None:
    """fill reads any bytes instead of the response to a publication, or of the list that it then requests."""
    pathlib.Path("folder").mkdir()
    pathlib.Path("folder/a").write_bytes(b"a")
    os.utime("folder/a", (1, 1))
    with Taking() as liar:
        well = liar.published

        def look(text: bytes) -> None:
            liar.published = text
            run_command("fill", "folder", liar.base, "--patience", "0", "--max-time", "2")

        tried({"text": bytes_near(well)}, look)


def test_any_file_of_a_source_ends_in_a_line(room: pathlib.Path) -> None:
    """look, also with --json, and why read any bytes instead of a source's file."""
    disks.disk(room, "empty", "a.disk")
    well = pathlib.Path("a.disk").read_bytes()

    def look(text: bytes) -> None:
        pathlib.Path("b.disk").write_bytes(text)
        run_command("look", "b.disk", "--put", "1000", "--picture", "b.svg")
        run_command("look", "b.disk", "--json")
        run_command("why", "b.disk")

    tried({"text": bytes_near(well)}, look)
    tried({"text": bytes_near(well[:2_048]).map(lambda head: head + well[len(head) :])}, look)


TOML = b"""address = "https://archive.example.org"
near = ["127.0.0.0/8"]
[source.s1]
address = "http://127.0.0.1:1"
base = "https://archive.example.org/s1"
file = "/var/lib/ropepeach/s1.disk"
"""


def test_any_file_of_settings_ends_in_a_line(room: pathlib.Path) -> None:
    """Commands read any bytes instead of a collection's file, of media types and of names."""
    pathlib.Path("folder").mkdir()

    def look(text: bytes) -> None:
        pathlib.Path("collection.toml").write_bytes(text)
        with contextlib.suppress(FileNotFoundError):
            shutil.rmtree("into")
        run_command("collection", "collection.toml", "--into", "into")
        run_command("grow", "collection.toml", "--patience", "0", "--max-time", "1")

    tried({"text": bytes_near(TOML)}, look)
    pathlib.Path("good.toml").write_bytes(TOML)

    def look_at_lines(text: bytes) -> None:
        pathlib.Path("lines").write_bytes(text)
        run_command("collection", "good.toml", "--names", "lines")
        run_command("size", "folder", "--types", "lines")

    tried({"text": bytes_near(b"# types\ndata/* text/csv\n*.x a/b; c=d\n")}, look_at_lines)


def test_any_name_of_a_file_ends_in_a_line(room: pathlib.Path) -> None:
    """size, and fill with and without --links, read a folder with any names, and links to any path."""
    plain = st.binary(min_size=1, max_size=40).map(lambda name: name.replace(b"/", b"").replace(b"\0", b""))
    segment = plain.filter(lambda name: name not in (b"", b".", b".."))
    path = st.lists(segment, min_size=1, max_size=4).map(b"/".join)
    with Taking() as liar:

        def look(paths: list[bytes], links: list[tuple[bytes, bytes]]) -> None:
            with fresh():
                os.mkdir("folder")
                for path in paths:
                    with contextlib.suppress(OSError):
                        os.makedirs(os.path.dirname(b"folder/" + path), exist_ok=True)
                        pathlib.Path(os.fsdecode(b"folder/" + path)).write_bytes(path)
                for path, to in links:
                    with contextlib.suppress(OSError):
                        os.symlink(to, b"folder/" + path)
                run_command("size", "folder")
                run_command("size", "folder", "--links")
                run_command("fill", "folder", liar.base, "--dry-run")
                run_command("fill", "folder", liar.base, "--dry-run", "--links")

        tried({"paths": st.lists(path, max_size=6), "links": st.lists(st.tuples(segment, path), max_size=3)}, look, 40)


def test_any_answer_of_a_store_ends_in_a_line(room: pathlib.Path) -> None:
    """takeover reads any text, or any JSON, as an answer."""
    pathlib.Path("a.disk").write_bytes(b"")
    leaf = st.none() | st.booleans() | st.integers() | st.text(max_size=8)
    keys = st.sampled_from(["filesystems", "target", "fstype", "options", "health", "status", "checks", "mgrmap",
                            "blocklist", "pools", "pg_stats"])
    value = st.recursive(leaf, lambda values: st.lists(values, max_size=3)
                         | st.dictionaries(keys | st.text(max_size=4), values, max_size=4), max_leaves=12)
    mount = {"filesystems": [{"target": "/", "fstype": "ceph", "options": "rw,fs=fs"}]}

    def look(texts: list[str]) -> None:
        turns = iter(texts)
        answers = lambda *words: next(turns, "{}")
        with mock.patch.object(takeover_store, "output", answers), \
                mock.patch.object(takeover, "run_program", lambda *_: ("resources 0", "")):
            run_command("takeover", "a.disk", "10.0.0.1", "--wait", "0")

    text = value.map(json.dumps) | st.text(max_size=60)
    tried({"texts": st.lists(text, max_size=8)}, look, 100)
    tried({"texts": st.lists(text, max_size=8).map(lambda texts: [json.dumps(mount), *texts])}, look, 100)


def test_any_arguments_end_in_a_line(room: pathlib.Path) -> None:
    """The message is printable text."""
    options = ["--baseline", "--dry-run", "--max-delete", "--max-bytes", "--max-duration", "--jobs", "--patience",
               "--max-time", "--certificate", "--types", "--room", "--put", "--json", "--wait", "--base", "--changes",
               "--change-age", "--links", "--yes", "--user"]
    numbers = ["-1", "0", "1", "inf", "nan", "1e9", "\u0663", "9" * 5_000, "0x1", "1_000", "1KiB", "99999999999GiB"]
    characters = st.characters(blacklist_characters="\0/", blacklist_categories=[])
    word = st.sampled_from(options) | st.sampled_from(numbers) | st.text(characters, max_size=12)

    def look(name: str, given_words: list[str]) -> None:
        with fresh():
            run_command(name, *given_words)

    tried({"name": st.sampled_from(list(SUBCOMMANDS)), "given_words": st.lists(word, max_size=5)}, look, 300)
