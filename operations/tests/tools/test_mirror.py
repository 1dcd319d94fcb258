"""Test `ropepeach mirror` against the program: addresses, waits, stops and exit statuses."""
from __future__ import annotations

import contextlib
import fcntl
import itertools
import json
import os
import pathlib
import pty
import re
import shutil
import signal
import struct
import termios
from collections.abc import Iterator, Mapping
from typing import Any

import pytest

from operations.tests.tools.hostile_source import Liar, answered, entry, in_parts
from operations.tests.tools.running import (
    SECONDS, Run, Server, begun, ended, files_of, ropepeach, wait_until, written,
)
from operations.tests.tools.taken import little, most_memory, small_files

pytestmark = pytest.mark.usefixtures("room")

FILES = {f"d{number % 7}/{number}.txt": b"%d" % number * 50 for number in range(150)}


def filled(program: str, files: Mapping[str, bytes] | None = None, **settings: Any) -> Server:
    """Return a source with some files, which is not served."""
    server = Server(program, "a.disk", **settings)
    puts = [f"put {name} {body.hex() or '-'} text/plain" for name, body in (files or FILES).items()]
    groups = [puts[at : at + 16] for at in range(0, len(puts), 16)]
    server.answers(*(line for lines in groups for line in [f"group {len(lines)}", *lines]), "publish")
    return server


@pytest.fixture
def server(program: str, room: pathlib.Path) -> Iterator[Server]:
    """Serve a source that holds FILES."""
    with filled(program) as running:
        yield running


def test_a_source_that_is_away_is_asked_again_for_30_seconds(liar: Liar) -> None:
    """The mirror retries after 502, 503 and 504; one line reports this."""
    well = liar.answers["/changelist.xml"]
    away = [answered(b"<html>", status, length=6)
            for status in ("502 Bad Gateway", "504 Gateway Timeout", "503 Service Unavailable")]
    turns = itertools.chain(away * 2, itertools.repeat(well))
    liar.answers["/changelist.xml"] = lambda: [next(turns)]
    status, output, messages = ropepeach("mirror", liar.base, "m")
    assert (status, output.split(":")[0], messages.count("\n")) == (0, "baseline", 1)
    assert "; waiting up to 30 s" in messages
    assert files_of("m") == {"a": b"body"}


def test_a_source_that_stays_away_ends_the_run_and_keeps_the_folder(liar: Liar) -> None:
    assert ropepeach("mirror", liar.base, "m")[0] == 0
    liar.answers["/changelist.xml"] = answered(b"<html>", "502 Bad Gateway", length=6)
    status, output, messages = ropepeach("mirror", liar.base, "m", "--patience", "1")
    assert (status, output) == (1, "")
    assert "no answer for 1 seconds: 502 Bad Gateway" in messages
    assert files_of("m") == {"a": b"body"}


@pytest.mark.plain
def test_another_host_than_that_of_the_base_is_refused_and_leaves_nothing(server: Server) -> None:
    """The message names the base."""
    pathlib.Path("empty").mkdir()
    for folder in ("m", "empty"):
        status, output, messages = ropepeach("mirror", server.url.replace("127.0.0.1", "localhost"), folder)
        assert (status, output) == (1, "")
        assert f"the source calls itself {server.url}; use that address, its base" in messages
    assert [str(path) for path in [*pathlib.Path("empty").iterdir(), pathlib.Path("m")] if path.exists()] == []


@pytest.mark.plain
@pytest.mark.parametrize("path", ["none", "resourcelist.xml", "resource/d0/0.txt"])
def test_a_path_below_the_base_leads_to_the_lists(server: Server, path: str) -> None:
    status, _, messages = ropepeach("mirror", f"{server.url}/{path}", "m")
    assert status == 0, messages
    front = f"http+{server.url.removeprefix('http://')}/resource"
    assert files_of("m") == {f"{front}/{name}": body for name, body in FILES.items()}


@pytest.mark.plain
def test_a_folder_that_only_has_the_state_of_a_wrong_address_becomes_a_mirror(server: Server) -> None:
    """An earlier version left this state."""
    wrong = server.url.replace("127.0.0.1", "localhost")
    written("m", {"#state": json.dumps({"source": wrong, "until": None, "newest": None}).encode()})
    assert ropepeach("mirror", server.url, "m")[0] == 0
    assert files_of("m") == FILES
    status, _, messages = ropepeach("mirror", wrong, "m")
    assert status == 3
    assert f"m: is a mirror of {server.url}" in messages


@pytest.mark.plain
def test_a_mirror_follows_its_source(program: str) -> None:
    """After every run the folder equals the source: names below names, deletions, new bytes, more than a batch."""
    resources = FILES | {"a": b"1", "b%20c": b"2", "e": b""}
    server = filled(program, resources, limit=20)
    steps: list[tuple[tuple[str, ...], dict[str, bytes | None]]] = [
        ((), {}),
        (("put a/b 33 text/plain", "put e 34 a/b", "delete b%20c"),
         {"a": None, "a#": b"1", "a/b": b"3", "e": b"4", "b%20c": None}),
        (("delete a/b", "delete d0/0.txt", "publish"), {"a": b"1", "a#": None, "a/b": None, "d0/0.txt": None}),
        (("put d0 35 a/b",), {"d0": None, "d0#": b"5"})]
    try:
        for lines, wanted in steps:
            server.answers(*lines, "status")
            server.start()
            resources = {name: body for name, body in (resources | wanted).items() if body is not None}
            assert ropepeach("mirror", server.url, "m")[::2] == (0, "")
            assert files_of("m") == resources
        assert "fetched 0 (0 bytes" in ropepeach("mirror", server.url, "m", "--baseline")[1]
        assert ropepeach("mirror", server.url, "n", "--incremental")[0] == 1
    finally:
        server.kill()


def fetching(server: Server, least: int) -> Run:
    """Start a run, and return it once it has more files than this, complete or in progress."""
    run, folder = begun("mirror", server.url, "m"), pathlib.Path("m")
    wait_until(lambda: run.poll() is not None or len([*folder.glob("*"), *folder.glob("#incoming/*")]) > least, "files")
    return run


def whole(files: Mapping[str, bytes]) -> None:
    """Check that every file of the mirror is complete."""
    found = {name: body for name, body in files_of("m").items() if not name.startswith("#")}
    assert found.items() <= files.items()


@pytest.mark.plain
def test_ctrl_c_ends_a_run_that_waits_for_its_source_by_status_130_and_one_line(program: str) -> None:
    run = begun("mirror", filled(program).url, "m")
    assert run.stderr
    run.stderr.readline()
    run.send_signal(signal.SIGINT)
    assert ended(run) == (130, "", "ropepeach mirror: stopped; the next run goes on\n")


@pytest.mark.plain
def test_ctrl_c_while_a_run_fetches_leaves_whole_files_and_the_next_run_continues(program: str) -> None:
    files, stopped = {f"{number}": b"%05d" % number * 200 for number in range(600)}, 0
    with filled(program, files) as server:
        for least in itertools.islice(itertools.cycle((1, 100, 200, 300)), 20):
            shutil.rmtree("m", ignore_errors=True)
            run = fetching(server, least)
            run.send_signal(signal.SIGINT)
            status, output, messages = ended(run)
            # (on a busy machine a run may have ended by then)
            assert status == 0 or (status, output, messages.count("\n")) == (130, "", 1)
            stopped += status == 130
            whole(files)
            if stopped > 2:
                break
        assert stopped > 2
        assert ropepeach("mirror", server.url, "m")[0] == 0
        assert files_of("m") == files


@pytest.mark.plain
def test_a_killed_run_leaves_whole_files_and_the_next_run_removes_incomplete_ones(program: str) -> None:
    files = {f"{number}": b"%05d" % number * 400 for number in range(500)}
    with filled(program, files) as server:
        for least in (1, 130, 260):
            run = fetching(server, least)
            run.kill()
            assert ended(run)[0] == -signal.SIGKILL
            whole(files)
        assert ropepeach("mirror", server.url, "m")[0] == 0
        assert sorted(os.listdir("m")) == sorted([*files, "#state", "#known"])
        assert files_of("m") == files


@pytest.mark.plain
@pytest.mark.parametrize("columns", [100, 0])
def test_a_terminal_shows_a_bar_with_share_rate_and_time_left(server: Server, columns: int) -> None:
    """A terminal of 0 columns has no known width."""
    ours, its = pty.openpty()
    fcntl.ioctl(its, termios.TIOCSWINSZ, struct.pack("HHHH", 24, columns, 0, 0))
    run, shown = begun("mirror", server.url, "m", stderr=its), b""
    os.close(its)
    with contextlib.suppress(OSError):
        while piece := os.read(ours, 65_536):
            shown += piece
    assert run.wait(SECONDS) == 0
    assert re.search(rb"fetching 100% \|.*\| \d\d:\d\d left, 150 of 150, [\d.]+[kM]?B/s", shown)
    assert b"it/s" not in shown


@pytest.mark.plain
def test_a_run_without_a_terminal_shows_no_bar(server: Server) -> None:
    assert ropepeach("mirror", server.url, "m")[2] == ""


def memory_of_a_baseline(count: int) -> int:
    """Return the peak memory, in bytes, of a baseline of this many files that the folder already has."""
    folder = small_files(f"{count}", count)
    with Liar() as liar:
        entries = [entry(f"{liar.base}/resource/{path.name}", path.read_bytes()) for path in sorted(folder.iterdir())]
        in_parts(liar, entries)
        (folder / "#state").write_text(json.dumps({"source": liar.base, "until": None, "newest": None}))
        taken = most_memory("mirror", liar.base, folder)
        assert liar.paths("/resource/") == []
    return taken


@pytest.mark.alone
def test_a_file_takes_at_most_300_bytes_of_memory() -> None:
    little("mirror", memory_of_a_baseline)
