"""Ctrl-C and SIGTERM at any point of a run: it ends with their status in one line, and keeps fetched files."""
from __future__ import annotations

import os
import pathlib
import random
import signal
import subprocess
import time
from collections.abc import Iterator

import pytest

from operations.tests.harness.signalled import Runs, runs_in
from operations.tests.tools import COMMAND
from operations.tests.tools.hostile_source import Liar, collected
from operations.tests.tools.mirrored import hold_files
from ropepeach.mirror import catalogue
from ropepeach.mirror.folder import Folder

SIGNALS = [signal.SIGINT, signal.SIGTERM]
STOPPED = "ropepeach mirror: stopped; the next run goes on\n"
FILES = {f"{at % 3}/{at:02}": b"body %d" % at for at in range(30)}
# The number of lines with a signal.
POINTS = 15
LONGEST = 30


@pytest.fixture
def runs(tmp_path: pathlib.Path) -> Iterator[Runs]:
    """Return a process that executes runs."""
    with runs_in(tmp_path) as running:
        yield running


def files_in(folder: pathlib.Path) -> dict[str, bytes]:
    """Return the files of a mirror, except its own."""
    return {str(path.relative_to(folder)): path.read_bytes() for path in folder.rglob("*")
            if path.is_file() and "#" not in str(path.relative_to(folder))}


def known_in(folder: pathlib.Path) -> set[str]:
    """Return the names in the records of the mirror."""
    opened = Folder(str(folder))
    try:
        known = catalogue.whole(opened.tree) if opened.is_open else None
        if known is None:
            return set()
        names = {row.place for row in known.rows()}
        known.close()
        return names
    finally:
        opened.close()


@pytest.mark.parametrize("number", SIGNALS)
def test_signal_at_any_line_ends_a_run_cleanly(number: signal.Signals, runs: Runs, tmp_path: pathlib.Path) -> None:
    """Files in place are whole and known, and the next run completes the mirror."""
    with Liar() as liar:
        hold_files(liar, FILES)
        total = runs.run("mirror", liar.base, "whole", "--connections", 4).lines
        assert files_in(tmp_path / "whole") == FILES and total > 3_000
        seed = random.randrange(1 << 30)
        for line in sorted(random.Random(seed).sample(range(1, total * 9 // 10), POINTS)):
            where, folder = f"seed {seed}, line {line} of {total}", tmp_path / f"at-{line}"
            end = runs.run("mirror", liar.base, folder, "--connections", 4, line=line, number=number)
            assert (end.status, end.messages) == (128 + number, STOPPED), where
            held = files_in(folder)
            assert held.items() <= FILES.items(), where
            assert not held or held.keys() == known_in(folder), where
            end = runs.run("mirror", liar.base, folder)
            assert (end.status, end.messages, files_in(folder)) == (0, "", FILES), where


def hear_keys() -> None:
    """Let Ctrl-C end a process, even if the tests run in the background."""
    signal.signal(signal.SIGINT, signal.SIG_DFL)


def started(liar: Liar, folder: pathlib.Path, *options: str) -> subprocess.Popen[str]:
    """Start a run in its own session, and return it."""
    return subprocess.Popen([*COMMAND, "mirror", liar.base, str(folder), *options], text=True, stdout=subprocess.PIPE,
                            stderr=subprocess.PIPE, env=os.environ | {"no_proxy": "127.0.0.1"}, preexec_fn=hear_keys,
                            start_new_session=True)


def slowed(liar: Liar, path: str) -> None:
    """Let a source delay the answers for one path."""
    slow = liar.answers[path]

    def late() -> list[bytes]:
        """Answer late."""
        time.sleep(LONGEST)
        return [slow]

    liar.answers[path] = late


def wait_for(liar: Liar, *paths: str) -> None:
    """Wait until the source has received requests for these paths."""
    end = time.monotonic() + LONGEST
    while not set(paths) <= set(liar.paths()):
        assert time.monotonic() < end, "the run does not ask"
        time.sleep(0.02)
    time.sleep(0.3)


@pytest.mark.parametrize("number", SIGNALS)
@pytest.mark.parametrize("connections", ["1", "4"])
def test_signal_while_bodies_are_in_flight_keeps_the_others(number: signal.Signals, connections: str,
                                                            tmp_path: pathlib.Path) -> None:
    with Liar() as liar:
        hold_files(liar, FILES)
        slow = sorted(FILES)[-int(connections):]
        for name in slow:
            slowed(liar, f"/resource/{name}")
        with started(liar, tmp_path / "m", "--connections", connections) as run:
            wait_for(liar, *(f"/resource/{name}" for name in FILES))
            moment = time.monotonic()
            run.send_signal(number)
            output, messages = run.communicate(timeout=LONGEST)
            assert time.monotonic() - moment < 5
        assert (run.returncode, output, messages) == (128 + number, "", STOPPED)
        assert files_in(tmp_path / "m").keys() == FILES.keys() - set(slow) == known_in(tmp_path / "m")


@pytest.mark.parametrize("numbers", [[2], [15], [2, 15], [15, 2], [2, 2, 2, 15, 15]])
def test_many_signals_up_to_the_end_of_the_process_are_as_one(numbers: list[int], tmp_path: pathlib.Path) -> None:
    """Signals keep coming, even while Python ends; the exit status is that of one of them."""
    with Liar() as liar:
        hold_files(liar, FILES)
        for turn in range(3):
            liar.requests.clear()
            with started(liar, tmp_path / f"m{turn}") as run:
                end, at = time.monotonic() + LONGEST, 0
                while f"/resource/{sorted(FILES)[turn * 10]}" not in liar.paths() and time.monotonic() < end:
                    time.sleep(0.001)
                while run.poll() is None and time.monotonic() < end:
                    run.send_signal(numbers[at % len(numbers)])
                    at += 1
                    time.sleep(0.0005)
                output, messages = run.communicate(timeout=LONGEST)
            assert run.returncode - 128 in numbers
            assert (output, messages) == ("", STOPPED)
            assert files_in(tmp_path / f"m{turn}").items() <= FILES.items()


@pytest.mark.parametrize("number", SIGNALS)
@pytest.mark.parametrize("is_for_all", [False, True])
def test_signal_ends_the_run_of_a_collection_and_keeps_what_it_fetched(number: signal.Signals, is_for_all: bool,
                                                                       tmp_path: pathlib.Path) -> None:
    """The signal goes to the first process, or to all processes, as from a terminal."""
    with Liar() as liar:
        names = [f"s{at}" for at in range(5)]
        collected(liar, {name: FILES for name in names})
        last = sorted(FILES)[-1]
        for name in names:
            slowed(liar, f"/{name}/resource/{last}")
        with started(liar, tmp_path / "m", "--jobs", "3") as run:
            wait_for(liar, *(f"/{name}/resource/{last}" for name in names[:3]))
            os.killpg(run.pid, number) if is_for_all else run.send_signal(number)
            output, messages = run.communicate(timeout=LONGEST)
        assert (run.returncode, output, messages) == (128 + number, "", STOPPED)
        for name in names[:3]:
            assert files_in(tmp_path / "m" / name).keys() == FILES.keys() - {last}
            assert known_in(tmp_path / "m" / name) == FILES.keys() - {last}


def test_process_that_ignores_ctrl_c_is_not_stopped_by_it(tmp_path: pathlib.Path) -> None:
    """Shells start background processes this way."""
    with Liar() as liar:
        hold_files(liar, FILES)
        run = subprocess.Popen([*COMMAND, "mirror", liar.base, str(tmp_path / "m")], text=True, stdout=subprocess.PIPE,
                               stderr=subprocess.PIPE, env=os.environ | {"no_proxy": "127.0.0.1"},
                               preexec_fn=lambda: signal.signal(signal.SIGINT, signal.SIG_IGN))
        with run:
            while run.poll() is None:
                run.send_signal(signal.SIGINT)
                time.sleep(0.01)
            _, messages = run.communicate(timeout=LONGEST)
        assert (run.returncode, messages, files_in(tmp_path / "m")) == (0, "", FILES)
