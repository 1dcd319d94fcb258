"""Test --dry-run, --max-delete and --jobs of commands that change, delete or work on several sources."""
from __future__ import annotations

import multiprocessing
import os
import time
from collections.abc import Callable
from pathlib import Path
from typing import Any
from unittest import mock

from operations.tests.tools.line_runs import collection_of_two, here
from operations.tests.tools.command_runs import run_command, status_of
from operations.tests.tools.running import within, written
from ropepeach.admin import machine
from ropepeach.cli.parser import parser_of
from ropepeach.cli.subcommands import SUBCOMMANDS
from ropepeach.collection import grow
from ropepeach.collection.workers import ENDED, Workers

# Commands that change files, commands that delete (`check` when it repairs), and commands for several sources.
CHANGING = {"fill", "mirror", "new", "remove", "backup", "restore", "collection", "grow", "takeover",
            "publish"}
DELETING, OF_SEVERAL = {"fill", "mirror", "grow", "check"}, {"fill", "mirror", "grow", "collection"}
# The bytes of a response, more than a pipe holds, and the timeout of all processes in seconds.
LONG_ANSWER, ENDING = 300_000, 60


def test_commands_have_the_options_of_careful_runs() -> None:
    """These commands have --dry-run, --max-delete and --jobs."""
    for option, names in (("--dry-run", CHANGING), ("--max-delete", DELETING), ("--jobs", OF_SEVERAL)):
        found = {name for name, one in SUBCOMMANDS.items() if option in parser_of(one)._option_string_actions}
        assert found == names, f"{option}: {sorted(found ^ names)}"


def test_at_most_jobs_processes_work_at_once() -> None:
    """A process that dies stops no other process."""
    context = multiprocessing.get_context("fork")
    working: Any = context.Value("i", 0)
    greatest: Any = context.Value("i", 0)

    def begin(name: int) -> Callable[[object], str]:
        def answer(_: object) -> str:
            with working.get_lock():
                working.value += 1
                greatest.value = max(greatest.value, working.value)
            time.sleep(0.05)
            if name == 3:
                working.value -= 1
                os._exit(1)
            with working.get_lock():
                working.value -= 1
            return str(name) * LONG_ANSWER

        return answer

    names = range(6)
    for jobs, limit in ((1, 1), (2, 2), (50, 6)):
        greatest.value = working.value = 0
        with within(ENDING, "the processes do not end"), Workers(names, begin, jobs) as some:
            for answers in (some.answers_to(), some.answers_to(dict.fromkeys(names, "go on"))):
                for name in names:
                    answer = ENDED if name == 3 else str(name) * LONG_ANSWER
                    assert answers[name] == answer, f"{jobs} jobs: the answer of {name}"
        assert greatest.value == limit or limit == 6 and greatest.value > 2


def test_commands_do_the_same_with_one_job(program: str, room: Path) -> None:
    """`fill`, `grow` and `collection` have the same results with one job."""
    with collection_of_two(program, room):
        folder = written(room / "f", {f"{number}": b"1" for number in range(30)})
        status_of(run_command("fill", str(folder), "collection.toml", "--jobs", "1"), 0, "s0: ", "s1: ")
        status_of(run_command("collection", "collection.toml", "--jobs", "1"), 0, "s0: ", "s1: ")
        for name, words in (("fill", ["f", "c.toml"]), ("grow", ["c.toml"]), ("collection", ["c.toml"])):
            for text in ("0", "-1", "x", ""):
                status_of(run_command(name, *words, "--jobs", text), 2, "--jobs")


def test_a_dry_run_writes_no_file(program: str, room: Path) -> None:
    """`collection --into --dry-run` names the files that a run writes."""
    with collection_of_two(program, room):
        output = status_of(run_command("collection", "collection.toml", "--into", "into", "--dry-run"), 0)
        assert not os.path.lexists("into"), "a folder"
        status_of(run_command("collection", "collection.toml", "--into", "into"), 0)
        names_made = ("s0.env", "s1.env", "resourcesync.xml", "collection.nginx")
        assert output.splitlines() == [f"write into/{name}" for name in names_made], output
        assert sorted(os.listdir("into")) == sorted(line.rpartition("/")[2] for line in output.splitlines()), output
        status_of(run_command("collection", "collection.toml", "--dry-run"), 2, "--into")


def test_grow_moves_at_most_max_delete_resources(program: str, room: Path) -> None:
    """If more resources would move, grow moves no resource."""
    with collection_of_two(program, room) as servers:
        folder = written(room / "f", {f"{number}": b"1" for number in range(30)})
        status_of(run_command("fill", str(folder), servers[0].url), 0, "30 put")
        (room / "names").write_text("".join(f"{number}\n" for number in range(30)))
        homes = run_command("collection", "collection.toml", "--names", "names").stdout.splitlines()
        moves = sum(line.startswith("s1 ") for line in homes)
        with mock.patch.object(grow, "check_description", lambda *_: None):
            for words in (["--max-delete", "0"], ["--max-delete", str(moves - 1)], ["--max-delete", "0", "--dry-run"]):
                status_of(here("grow", "collection.toml", *words), 1, f"{moves} resources would be moved")
            assert servers[1].counts()[0] == 0, "something was moved"
            servers[1].start()
            status_of(here("grow", "collection.toml", "--max-delete", str(moves)), 0, f"s1: {moves} put")
        assert servers[1].counts()[0] == moves, "not all were moved"


def test_a_dry_run_of_backup_makes_nothing(room: Path) -> None:
    """A dry run prints the copy that backup would make, or the reason why it cannot make one."""
    disk = room / "a.disk"
    disk.write_bytes(b"x" * 1_234)
    known = mock.patch.object(machine.Place, "known", lambda _: machine.Settings(disk, 8080))
    with known, mock.patch.object(machine, "wants", lambda *_: None):
        status_of(here("backup", "s", "copy.disk", "--dry-run"), 0, f"copy {disk} to copy.disk, 1,234 bytes")
        assert os.listdir(room) == ["a.disk"], os.listdir(room)
        status_of(here("backup", "s", str(disk), "--dry-run"), 3, "is there already")
        status_of(here("backup", "s", "none/copy.disk", "--dry-run"), 3, "there is no such folder")
