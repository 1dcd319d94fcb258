"""Test the limits of a run of `ropepeach mirror`: bytes, seconds, processes. The next run resumes."""
from __future__ import annotations

import contextlib
import os
import pathlib
import re
import signal
import time
from collections.abc import Iterator

import pytest

from operations.tests.tools.hostile_source import MOMENT, Liar, answered, collected, dripping, listed
from operations.tests.tools.mirrored import hold_files, mirrored, state
from operations.tests.tools.running import Run, begun, ended, files_of

pytestmark = pytest.mark.usefixtures("room")

SIZE = 100_000
FILES = {f"{number:02}": b"%02d" % number * (SIZE // 2) for number in range(30)}


def test_a_run_takes_no_more_bytes_than_are_allowed(liar: Liar) -> None:
    """A run that reaches --max-bytes exits 1; fetched files stay, and the next run fetches only the rest."""
    hold_files(liar, FILES)
    mirrored("a limit", liar, "--max-bytes", "1MiB", status=1,
             says="more than 1,048,576 bytes, as --max-bytes allows; the next run goes on")
    found = files_of("m")
    assert found.items() <= FILES.items() and 8 <= len(found) <= 10
    assert state()["until"] is None
    assert len(liar.paths("/resource/")) <= len(found) + 2
    mirrored("the next run", liar, says=f"fetched {len(FILES) - len(found)} ")
    assert files_of("m") == FILES
    documents = sum(len(response.partition(b"\r\n\r\n")[2]) for path, response in liar.answers.items()
                    if not path.startswith("/resource/"))
    mirrored("lists count too", liar, "--baseline", "--max-bytes", str(documents - 1), status=1, says="--max-bytes")
    mirrored("no more than that is taken", liar, "--baseline", "--max-bytes", str(documents), says="fetched 0 ")


def test_sources_of_a_collection_share_the_bytes(liar: Liar) -> None:
    """--max-bytes limits all sources together."""
    collected(liar, {"s1": FILES, "s2": FILES})
    mirrored("a limit", liar, "--max-bytes", "1MiB", status=1, says="--max-bytes")
    assert 6 <= len(files_of("m/s1")) + len(files_of("m/s2")) <= 10
    mirrored("the next run", liar)
    assert (files_of("m/s1"), files_of("m/s2")) == (FILES, FILES)


def slow_parts(liar: Liar, front: str = "") -> None:
    """Serve a Resource List in 2,000 parts, all delayed by 0.2 seconds."""

    def part() -> Iterator[bytes]:
        time.sleep(0.2)
        yield answered(listed("resourcelist", [], attributes=f' at="{MOMENT}"'))

    names = [f"{front}/resourcelist/1/{number}.xml" for number in range(2_000)]
    pointers = [f'<sitemap><loc>{liar.base}{name}</loc><rs:md at="{MOMENT}"/></sitemap>\n' for name in names]
    liar.documents({f"{front}/resourcelist.xml": listed("resourcelist", pointers, "sitemapindex", f' at="{MOMENT}"')})
    liar.answers |= dict.fromkeys(names, part)


@pytest.mark.parametrize(("what", "seconds"), [("many parts", "1.5"), ("a slow response", "1.5"), ("away", "1.5"),
                                               ("no time", "0")])
def test_a_run_takes_no_longer_than_is_allowed(liar: Liar, what: str, seconds: str) -> None:
    """A run that reaches --max-duration exits 1, even if every response is quick."""
    if what == "many parts":
        slow_parts(liar)
    elif what == "a slow response":
        liar.answers["/changelist.xml"] = dripping(answered(b"", length=9_000), b"x")
    elif what == "away":
        liar.answers["/changelist.xml"] = answered(b"", "503 Service Unavailable")
    started = time.monotonic()
    mirrored(what, liar, "--max-duration", seconds, status=1,
             says="took longer than --max-duration allows; the next run goes on")
    assert time.monotonic() - started < 8


def test_sources_of_a_collection_share_the_time(liar: Liar) -> None:
    """A source with a slow list ends with the run, and the others are mirrored."""
    collected(liar, ["s1", "s2"])
    slow_parts(liar, "/s1")
    started = time.monotonic()
    _, messages = mirrored("two sources", liar, "--max-duration", "4", status=1,
                           says="s1: the run took longer than --max-duration")
    assert time.monotonic() - started < 12
    assert files_of("m/s2") == {"a": b"body"}


def children(process: Run) -> list[int]:
    """Return the running child processes of a process."""
    with contextlib.suppress(OSError):
        path = pathlib.Path(f"/proc/{process.pid}/task/{process.pid}/children")
        return [int(word) for word in path.read_text().split()]
    return []


@pytest.mark.parametrize(("jobs", "words"), [(3, ["--jobs", "3"]), (1, ["--jobs", "1"]), (32, [])])
def test_jobs_limits_the_processes_and_a_source_that_fails_holds_up_no_other(liar: Liar, jobs: int, words: list[str]
                                                                             ) -> None:
    """A run mirrors 60 sources in --jobs processes, by default 32."""
    names = [f"s{number}" for number in range(60)]
    collected(liar, names)
    liar.answers["/s7/changelist.xml"] = answered(b"<html>")
    run, greatest = begun("mirror", liar.base, "m", *words), 0
    while run.poll() is None:
        greatest = max(greatest, len(children(run)))
        time.sleep(0.005)
    status, output, messages = ended(run)
    assert status == 1, messages
    assert 1 <= greatest <= jobs
    assert "s7: http" in messages
    assert messages.count("\n") == 1
    assert {name: files_of(f"m/{name}") for name in names} == {
        name: {} if name == "s7" else {"a": b"body"} for name in names}
    assert re.findall(r"(?m)^(s\d+): ", output) == [name for name in names if name != "s7"]


def test_a_collection_of_more_than_1000_sources_is_refused(liar: Liar) -> None:
    collected(liar, [f"s{number}" for number in range(1_001)])
    mirrored("a first run", liar, status=1, says="names 1,001 sources, more than 1,000")
    assert not pathlib.Path("m").exists()


def test_a_slow_source_holds_up_no_other(liar: Liar) -> None:
    """One of two jobs has a slow source, and the other job mirrors all other sources."""
    names = [f"s{number}" for number in range(12)]
    collected(liar, names)
    slow = liar.answers["/s0/resource/a"]

    def late() -> Iterator[bytes]:
        time.sleep(6)
        yield slow

    liar.answers["/s0/resource/a"] = late
    run = begun("mirror", liar.base, "m", "--jobs", "2")
    try:
        until = time.monotonic() + 5
        while time.monotonic() < until and sum(path.name == "a" for path in pathlib.Path("m").glob("*/a")) < 11:
            time.sleep(0.05)
        assert sum(path.name == "a" for path in pathlib.Path("m").glob("*/a")) == 11
    finally:
        status, _, messages = ended(run)
    assert status == 0, messages


def test_a_killed_process_of_the_pool_fails_its_own_sources_only(liar: Liar) -> None:
    """A message names the sources of the killed process, and the others are mirrored."""
    names = [f"s{number}" for number in range(6)]
    collected(liar, names)
    liar.answers["/s0/resource/a"] = dripping(answered(b"", length=4), b"")
    run = begun("mirror", liar.base, "m", "--jobs", "2", "--max-time", "20")
    until = time.monotonic() + 20
    while "/s0/resource/a" not in liar.paths() or len(list(pathlib.Path("m").glob("*/a"))) < 5:
        if time.monotonic() > until:
            pytest.fail(f"others are not mirrored: {sorted(map(str, pathlib.Path('m').glob('*/a')))}")
        time.sleep(0.02)
    slow = [child for child in children(run) if is_waiting(child, liar)]
    assert len(slow) == 1
    os.kill(slow[0], signal.SIGKILL)
    status, output, messages = ended(run)
    assert status == 1, messages
    assert "s0: its process has ended" in messages
    assert "Traceback" not in messages
    assert len(files_of("m/s3")) == 1


def is_waiting(number: int, liar: Liar) -> bool:
    """Return whether a process has a connection to the source."""
    sockets = {link.readlink() for link in pathlib.Path(f"/proc/{number}/fd").iterdir()
               if link.is_symlink() and "socket:" in str(link.readlink())}
    port = f"{int(liar.base.rpartition(':')[2]):04X}"
    lines = [line.split() for line in pathlib.Path(f"/proc/{number}/net/tcp").read_text().splitlines()[1:]]
    inodes = {fields[9] for fields in lines if fields[2].endswith(f":{port}") and fields[3] == "01"}
    return any(f"socket:[{inode}]" in map(str, sockets) for inode in inodes)
