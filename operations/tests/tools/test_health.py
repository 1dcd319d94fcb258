"""Test the line, the exit status and the figures of `ropepeach health` for healthy and unhealthy sources."""
from __future__ import annotations

import os
import re
import signal
import socket
import subprocess
import time
from pathlib import Path

import pytest

from operations.tests.tools.lists_server import after, always, documents_of, serving, slow
from operations.tests.tools.command_runs import lines_of, run_command, status_of
from tests.program import ask, interposed
from tests.reading.crash_model import State, moment_text
from tests.served_source import free_port
from tests.served_source import serving as serving_program
from tests.system.edge_runs import SYSTEM

DAY = 86_400_000
LINE = re.compile(r"(OK|WARNING|CRITICAL): (http://\S+): (.*?)(?: \| (.*))?")
BASE = "https://source.example.org"
BOMB = (b'<!DOCTYPE a [<!ENTITY b "bbbb"><!ENTITY c "&b;&b;&b;&b;">]><urlset '
        b'xmlns="http://www.sitemaps.org/schemas/sitemap/0.9">&c;</urlset>')
GATEWAY = b"<html><head><title>502 Bad Gateway</title></head></html>"


def now() -> int:
    """Return this machine's time, in milliseconds since 1970."""
    return time.time_ns() // 1_000_000


def health_of(url: str, *words: str) -> tuple[int, str, dict[str, str]]:
    """Run the command; return the exit status, the text of its line, and its figures by name."""
    process = run_command("health", url, *words)
    assert len(lines_of(process)) == 1, f"{process.stdout!r} {process.stderr!r}"
    found = LINE.fullmatch(lines_of(process)[0])
    assert found and found[2] == url, process.stdout
    assert ["OK", "WARNING", "CRITICAL"].index(found[1]) == process.returncode
    figures = {name: value for name, value in (figure.split("=") for figure in (found[4] or "").split())}
    return process.returncode, found[3], figures


def source(changes: int, limit: int = 1_000, age: int = 0, published: int | None = None, base: str = BASE) -> State:
    """Return a source with this many changes, the last of this age in milliseconds, and a publication at a moment."""
    moment = now() - age
    lines = [(moment - changes + number + 1, f"put n{number} 6161 text/plain") for number in range(changes)]
    if published is not None:
        lines = sorted([*lines, (now() - published, "publish")], key=lambda line: line[0])
    return after(State(base, limit), lines)


def test_a_healthy_source_has_status_0_and_figures() -> None:
    """The figures follow the text of the line."""
    with serving(documents_of(source(5, age=3 * 3_600_000, published=2 * DAY))) as server:
        status, words, figures = health_of(server.url)
    assert (status, words) == (0, "5 changes kept of 50,000, 0 resources published of 50,000, last change 3 hours ago, "
                                "last publication 2 days ago")
    assert (figures["changes"], figures["resources"]) == ("5;45000;49000;0;50000", "0;45000;49000;0;50000"), figures
    ages = [int(figures[name].rstrip("s")) for name in ("change_age", "publication_age")]
    assert abs(ages[0] - 10_800) < 60 and abs(ages[1] - 172_800) < 60, ages


def test_a_new_source_has_status_0() -> None:
    """A new source has no change and no publication."""
    with serving(documents_of(State(BASE, 10))) as server:
        status, words, _ = health_of(server.url)
    assert (status, words) == (0, "0 changes kept of 50,000, 0 resources published of 50,000, last change never, "
                                "last publication never")


@pytest.mark.parametrize("limit, changes", [*((2, changes) for changes in range(8)),
                                            *((3, changes) for changes in (2, 3, 4, 6, 7))])
def test_changes_are_counted(limit: int, changes: int) -> None:
    """The changes are in one list or in parts, of which at most two are read."""
    with serving(documents_of(source(changes, limit))) as server:
        figures = health_of(server.url)[2]
        parts = server.paths("/changelist/")
    assert figures["changes"].split(";")[0] == str(changes)
    assert len(parts) <= 2, parts


def test_dropped_changes_are_not_counted() -> None:
    """A publication dropped parts of the Change List."""
    dropped = source(7, 2, published=-1)
    dropped = after(dropped, [(now() + 2, "publish"), (now() + 3, "put a - text/plain")])
    with serving(documents_of(dropped)) as server:
        assert health_of(server.url)[2]["changes"].split(";")[0] == str(len(dropped.changes))


@pytest.mark.parametrize("changes, status, phrase", [
    (3, 0, "3 changes"), (4, 1, "TooManyChanges comes closer"), (5, 1, "comes closer"),
    (6, 2, "TooManyChanges is near")])
def test_a_nearly_full_history_is_reported(changes: int, status: int, phrase: str) -> None:
    """From 4 changes on it is a warning, from 6 changes on critical."""
    with serving(documents_of(source(changes, 3))) as server:
        found = health_of(server.url, "--changes-warning", "4", "--changes-critical", "6")
    assert found[0] == status and phrase in found[1], found
    assert found[2]["changes"] == f"{changes};4;6;0;50000"


def test_old_changes_and_publications_are_reported() -> None:
    """Options limit the ages of the last change and of the last publication."""
    with serving(documents_of(source(2, age=3 * DAY, published=2 * DAY))) as server:
        rows = [(["--change-age", "4", "--publication-age", "3"], 0, "3 days ago"),
                (["--change-age", "2.9"], 1, "no change within 69.6 hours"),
                (["--publication-age", "1.5"], 1, "no publication within 36 hours"),
                (["--change-age", "3.1", "--publication-age", "2.1"], 0, "2 days ago")]
        for words, status, phrase in rows:
            found = health_of(server.url, *words)
            assert found[0] == status and phrase in found[1], f"{words}: {found}"
        assert health_of(server.url, "--change-age", "4")[2]["change_age"].endswith("s;345600")


def test_a_new_source_is_too_old_without_changes_and_publications() -> None:
    """The source has never had a change or a publication."""
    with serving(documents_of(source(0))) as server:
        for words, phrase in ((["--publication-age", "1"], "no publication within 24 hours"),
                              (["--change-age", "1"], "no change within 24 hours")):
            found = health_of(server.url, *words)
            assert found[0] == 1 and phrase in found[1], found


@pytest.mark.parametrize("milliseconds, status", [(30_000, 0), (3_600_000, 1), (30 * DAY, 1)])
def test_changes_in_the_future_are_reported(milliseconds: int, status: int) -> None:
    """The source's clock may be up to half a minute fast. The line says until when mirrors refuse the source."""
    state = source(2, age=-milliseconds)
    with serving(documents_of(state)) as server:
        found = health_of(server.url)
    assert found[0] == status
    assert ("in the future" in found[1]) == (status == 1), found
    refused = f"mirrors refuse the source until {moment_text(state.last - DAY)}"
    assert (refused in found[1]) == (milliseconds > DAY) == ("refuse" in found[1]), found


HTML = "text/html"


@pytest.mark.parametrize("words, phrase", [
    ((503, b"Closed\n"), "Closed until the program is restarted"), ((503, b"NoMemory\n"), "503 NoMemory"),
    ((503, b"<html/>", HTML), "503"), ((502, GATEWAY, HTML), "502"), ((504, GATEWAY, HTML), "504"),
    ((404, b"NoSuchDocument\n"), "404 NoSuchDocument"), ((200, b"<urlset"), "no document"), ((200, BOMB), "refused"),
    ((403, b"<html/>", HTML), "403"), ((301, b"", HTML), "redirects are not followed")], ids=str)
def test_a_wrong_response_is_critical(words: tuple[int, bytes], phrase: str) -> None:
    """The line has the reason, and no figures."""
    with serving(always(*words)) as server:
        found = health_of(server.url)
    assert found[0] == 2 and phrase in found[1] and not found[2], found


def test_a_closed_change_list_is_critical() -> None:
    """The other documents are as usual."""
    with serving(documents_of(source(3))) as server:
        good = server.answer
        server.answer = lambda path: (503, "text/plain", b"Closed\n") if path == "/changelist.xml" else good(path)
        assert health_of(server.url)[1] == "Closed until the program is restarted"


def test_a_source_that_is_down_is_critical() -> None:
    """The connection is refused."""
    found = health_of(f"http://127.0.0.1:{free_port()}")
    assert found[0] == 2 and found[1].endswith("no answer: Connection refused"), found


def test_a_silent_source_is_critical_in_time() -> None:
    """The source accepts a connection, and sends no response."""
    with socket.socket() as silent:
        silent.bind(("127.0.0.1", 0))
        silent.listen()
        begun = time.monotonic()
        found = health_of(f"http://127.0.0.1:{silent.getsockname()[1]}", "--max-time", "1")
        seconds = time.monotonic() - begun
    assert found[0] == 2 and seconds < 20, f"{found} after {seconds:.0f} seconds"


def test_a_late_response_is_critical() -> None:
    """The response arrives after --max-time."""
    with serving(slow(3)) as server:
        assert health_of(server.url, "--max-time", "0.5")[0] == 2


def test_a_list_whose_part_is_dropped_meanwhile_is_read_again() -> None:
    """A publication drops a part after the read of the Change List's head: the list is read again."""
    before = source(7, 2, age=20_000, published=10_000)
    later = after(before, [(now(), "publish"), (now() + 1, "put z - text/plain")])
    assert later.first > 0, "nothing was dropped"
    with serving(documents_of(before)) as server:
        old, new = server.answer, documents_of(later)
        server.answer = lambda path: (old if "/changelist/3.xml" not in server.paths() else new)(path)
        found = health_of(server.url)
    assert found[0] == 0 and found[2]["changes"].split(";")[0] == str(len(later.changes)), found


def metrics(path: Path) -> dict[str, float]:
    """Return the figures of a file by name, and the label."""
    lines = [line for line in path.read_text().splitlines() if not line.startswith("#")]
    found = [re.findall(r'^ropepeach_(\w+)\{source="[^"]*"\} (\S+)$', line)[0] for line in lines]
    return {name: float(value) for name, value in found}


def test_the_file_for_prometheus_is_replaced_whole(room: Path) -> None:
    """Other users may read the file, and it is written even if the source is down."""
    path = room / "ropepeach.prom"
    state = source(5, age=DAY, published=2 * DAY)
    with serving(documents_of(state)) as server:
        health_of(server.url, "--prometheus", str(path))
        found, url = metrics(path), server.url
        figures = [found[name] for name in ("up", "closed", "status", "changes_kept", "changes_most")]
        assert figures == [1, 0, 0, 5, 50_000]
        assert found["last_change_timestamp_seconds"] == state.last / 1_000, found
        assert found["last_publication_timestamp_seconds"] == state.at / 1_000, found
        assert abs(found["check_timestamp_seconds"] - time.time()) < 60 and path.stat().st_mode & 0o777 == 0o644, found
        with open(path) as open_before:
            number, text = path.stat().st_ino, path.read_text()
            assert health_of(server.url, "--prometheus", str(path), "--changes-warning", "5")[0] == 1, "a warning"
            assert open_before.read() == text
            assert path.stat().st_ino != number
        assert metrics(path)["status"] == 1, "the status of a warning"
        server.answer = always(503, b"Closed\n")
        health_of(server.url, "--prometheus", str(path))
        found = metrics(path)
        assert (found["up"], found["closed"], found["status"]) == (0, 1, 2) and "changes_kept" not in found, found
    health_of(url, "--prometheus", str(path))
    assert (metrics(path)["up"], metrics(path)["closed"]) == (0, 0), metrics(path)
    assert path.read_text().count("# TYPE") == len(metrics(path)), "a line without its type"
    assert os.listdir(room) == [path.name], "a file is left beside it"
    status_of(run_command("health", url, "--prometheus", str(room / "none" / "a.prom")), 3, "No such file")


@pytest.mark.parametrize("words", [[], ["ftp://a"], ["http://127.0.0.1:1", "--change-age", "0"],
                                   ["http://127.0.0.1:1", "--changes-warning", "x"]], ids=str)
def test_wrong_arguments_have_status_3(words: list[str]) -> None:
    """Monitoring plugins call this status UNKNOWN."""
    assert run_command("health", *words).returncode == 3


def formatted(program: str) -> None:
    """Make the file of a source."""
    subprocess.run([program, "format", "a.disk", "1048576", BASE, "2"], check=True, capture_output=True, timeout=60)


def test_a_stopped_or_killed_program_is_critical(program: str, room: Path) -> None:
    """The program is healthy before the stop and after it."""
    formatted(program)
    with serving_program(program, room) as (url, server):
        port = int(url.rpartition(":")[2])
        for name in "abc":
            ask(port, f"PUT /resource/{name} HTTP/1.1\r\nHost: a\r\nContent-Length: 1\r\n\r\nx".encode())
        ask(port, b"POST /publish HTTP/1.1\r\nHost: a\r\n\r\n")
        status, words, figures = health_of(url, "--change-age", "1", "--publication-age", "1")
        assert status == 0 and figures["changes"].startswith("3;") and words.count(" second") == 2, (status, words)
        server.send_signal(signal.SIGSTOP)
        assert health_of(url, "--max-time", "1")[0] == 2, "a program that is held still"
        server.send_signal(signal.SIGCONT)
        assert health_of(url)[0] == 0, "a program that goes on"
    assert health_of(url)[0] == 2, "a program that is killed"


@pytest.mark.needs("cc")
def test_a_closed_program_is_critical(program: str, room: Path) -> None:
    """A call on its file failed."""
    formatted(program)
    system = interposed(room, "system", SYSTEM)
    first = next(number for number in range(1, 1_000) if not opening_fails(program, room, system, number))
    with serving_program(program, room, env=system | {"FILE_FAILS_AT": str(first)}) as (url, _):
        ask(int(url.rpartition(":")[2]), b"POST /publish HTTP/1.1\r\nHost: a\r\n\r\n")
        status, words, _ = health_of(url)
    assert (status, words) == (2, "Closed until the program is restarted"), (status, words)


def opening_fails(program: str, room: Path, system: dict[str, str], number: int) -> bool:
    """Return whether opening fails if the N-th call on the file fails."""
    process = subprocess.run([program, "run", "a.disk"], cwd=room, input=b"", capture_output=True, timeout=60,
                             env=system | {"FILE_FAILS_AT": str(number)})
    return process.returncode != 0
