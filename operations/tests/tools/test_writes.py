"""Test the ways in which commands write files: by strace, and against links that another user of a folder makes."""
from __future__ import annotations

import os
import re
import stat
import subprocess
import tempfile
from collections.abc import Callable, Iterator
from pathlib import Path

import pytest

from operations.tests.tools import COMMAND
from operations.tests.tools.command_runs import run_command, status_of
from operations.tests.tools.line_runs import here, surroundings
from operations.tests.tools.one_machine import machine
from ropepeach.cli.files import file_at, write_file

CALLS = "open,openat,openat2,creat,rename,renameat,renameat2,link,linkat,symlink,symlinkat,truncate,mknod,mknodat"
NAMING = ("rename", "renameat", "renameat2", "link", "linkat")
SAFE_FLAGS = {"O_CREAT", "O_EXCL", "O_NOFOLLOW"}
# The databases of SQLite lie in a folder of the user's state, and in new folders of TMPDIR.
OF_SQLITE = re.compile(r"/ropepeach/fill/[^/]*\.sqlite(-journal)?$|/ropepeach-[a-z0-9_]{8}/base(-journal)?$")


def is_safe(call: str, words: str) -> bool:
    """Return whether a call opens no file for writing, or a new file of an open folder; a name is one of such."""
    place = words.partition(",")[0]
    if call in NAMING:
        return place.isdecimal() or re.match(r'AT_FDCWD, "/proc/self/fd/\d+", \d+, ', words) is not None
    flags = set(re.findall(r"O_[A-Z]+", words))
    path = next(iter(re.findall(r'"([^"]*)"', words)), "")
    if not flags & {"O_WRONLY", "O_RDWR", "O_CREAT", "O_TRUNC"} and call.startswith("open"):
        return True
    if "O_TMPFILE" in flags or path in ("/dev/null", "/dev/tty") or OF_SQLITE.search(path):
        return True
    # (files without a name have a random one for a moment, on file systems that have no O_TMPFILE)
    is_within = place.isdecimal() and "/" not in path or os.path.dirname(path) == tempfile.gettempdir()
    return is_within and SAFE_FLAGS <= flags


def calls_of(path: Path) -> Iterator[tuple[str, str]]:
    """Yield the successful calls of a trace, with their arguments."""
    for line in path.read_text().splitlines():
        if found := re.match(r"(?:\d+ +)?(\w+)\((.*)\) += \d+", line):
            yield found[1], found[2]


def unsafe_calls(trace: Path) -> list[tuple[str, str]]:
    """Return the calls of a trace that could write through a link, or over another file."""
    return [(call, words) for call, words in calls_of(trace) if not is_safe(call, words)]


def traced(path: Path, *more: str) -> tuple[str, ...]:
    """Return the words that trace a program to a file."""
    return ("strace", "-qq", "-o", str(path), "-e", f"trace={CALLS}", *more)


@pytest.mark.needs("strace")
def test_every_file_that_a_command_writes_is_a_new_file_of_an_open_folder(
        program: str, room: Path, monkeypatch: pytest.MonkeyPatch) -> None:
    """`why` opens the source's file as the program does, and writes no byte."""
    monkeypatch.setenv("PYTHONDONTWRITEBYTECODE", "1")
    with surroundings(room, program) as words:
        Path("one.toml").write_text(Path("collection.toml").read_text().replace(f'base = "{words["health"][0]}',
                                                                                f'base = "{words["health"][0]}/s1'))
        words = dict(words) | {"look": ["a.disk", "--picture", "map.svg"], "check": ["m", "--repair"],
                               "health": [*words["health"], "--prometheus", "health.prom"],
                               "collection": ["one.toml", "--into", "into"]}
        for name in ("fill", "mirror", "look", "check", "size", "health", "site", "collection"):
            trace = room / f"{name}.trace"
            for more in ((), ("--json",)):
                if name == "check":
                    os.remove("m/b/c")
                status_of(run_command(name, *words[name], *more, behind=traced(trace, "-f")), 0)
                assert unsafe_calls(trace) == [], name
        assert all(Path(name).exists() for name in ("map.svg", "m/b/c", "health.prom", "into/s1.env"))


@pytest.mark.root
@pytest.mark.needs("strace", "nginx", "unshare")
@pytest.mark.xdist_group("new")
def test_root_writes_only_new_files_of_open_folders(program: str, room: Path) -> None:
    """Programs of the steps of `new` and `restore` run as the user of the units; `backup` starts programs as root."""
    with machine(room / "m", program) as made:
        for number, (is_whole, words) in enumerate([
                (False, ("new", "one", "--base", "http://try.example.org:8091", "--http", "--size", "1MiB")),
                (True, ("backup", "one", "/var/cache/b.disk")), (False, ("restore", "one", "/var/cache/b.disk")),
                (False, ("remove", "one"))]):
            trace = made.room / f"{number}"
            status_of(made.run(*traced(trace, *["-f"] * is_whole), *COMMAND, *words,
                               PYTHONDONTWRITEBYTECODE="1"), 0)
            # (programs open the copy by its descriptor; the simulated machine notes its programs)
            others = [line for _, line in unsafe_calls(trace)
                      if not re.search(r'"/proc/self/fd/|"/var/cache/(count|calls)"', line)]
            assert others == [], words[0]


SWAP = """#!/bin/sh
for file in /var/cache/open/b.disk*; do ln -sfn /var/cache/victim $file; done
exec /bin/cp "$@"
"""


@pytest.mark.root
@pytest.mark.needs("nginx", "unshare")
@pytest.mark.xdist_group("new")
def test_a_backup_in_the_folder_of_another_user_writes_through_no_link(program: str, room: Path) -> None:
    """The user puts a link at the name of the copy while root makes it, and a file of a likely name before."""
    with machine(room / "m", program) as made:
        status_of(made.command("new", "one", "--base", "http://try.example.org:8091", "--http", "--size", "1MiB"), 0)
        cache = made.room / "cache"
        (cache / "open").mkdir()
        (cache / "victim").write_text("root's")
        (cache / "open/a.disk.new").write_text("theirs")
        status_of(made.command("backup", "one", "/var/cache/open/a.disk"), 0, "verified 0")
        assert (cache / "open/a.disk.new").read_text() == "theirs"
        (made.room / "bin/cp").write_text(SWAP)
        (made.room / "bin/cp").chmod(0o755)
        status_of(made.command("backup", "one", "/var/cache/open/b.disk"), 3, "another program changes the folder")
        assert (cache / "victim").read_text() == "root's"
        assert sorted(os.listdir(cache / "open")) == ["a.disk", "a.disk.new"]


def test_the_judge_finds_an_unsafe_write(room: Path) -> None:
    """Its trace has a file that is opened by its path, a truncated one, and a rename by paths."""
    for number, script in enumerate(("echo > x", "echo >> x", "mv x y")):
        trace = room / f"{number}"
        subprocess.run([*traced(trace, "-f"), "sh", "-c", script], check=True)
        assert len(unsafe_calls(trace)) >= 1, script


def test_a_picture_replaces_a_planted_link(program: str, room: Path) -> None:
    """Links at the picture's name, and at a name that a new file might have, lead to a file of root."""
    with surroundings(room, program):
        Path("victim").write_text("root's")
        for name in ("map.svg", "map.svg.new"):
            os.symlink("victim", name)
        status_of(here("look", "a.disk", "--picture", "map.svg"), 0)
        assert Path("victim").read_text() == "root's"
        assert (Path("map.svg").is_symlink(), Path("map.svg.new").is_symlink()) == (False, True)


@pytest.mark.parametrize("make", [os.mkfifo, os.mkdir])
def test_a_pipe_or_a_folder_is_not_replaced(program: str, room: Path, make: Callable[[str], None]) -> None:
    """Nor is a device, such as /dev/null."""
    with surroundings(room, program):
        make("map.svg")
        before = os.stat("map.svg")
        done = here("look", "a.disk", "--picture", "map.svg")
        assert (done.returncode, done.stderr.count("\n")) == (3, 1), done
        assert os.path.samestat(before, os.stat("map.svg"))


def test_a_failed_write_leaves_the_old_file_and_no_other(room: Path) -> None:
    """A file is written as a whole, or not at all."""
    write_file("a", "old")
    with pytest.raises(ValueError, match="halfway"), file_at("a") as file:
        file.write(b"ne")
        raise ValueError("halfway")
    with pytest.raises(FileExistsError), file_at("a", is_new=True) as file:
        file.write(b"new")
    assert (os.listdir(room), Path("a").read_text(), stat.S_IMODE(os.stat("a").st_mode)) == (["a"], "old", 0o644)


@pytest.mark.needs("strace")
@pytest.mark.parametrize("is_new", [False, True])
def test_a_file_is_synced_before_it_gets_its_name_and_its_folder_after_it(room: Path, is_new: bool) -> None:
    """The calls of one write are in this order."""
    script = f"from ropepeach.cli.files import file_at\nwith file_at('a', {is_new}) as file:\n    file.write(b'1')"
    calls = "openat,write,fsync,renameat,linkat,unlinkat"
    subprocess.run(["strace", "-qq", "-o", "trace", "-e", f"trace={calls}", COMMAND[0], "-c", script], check=True,
                   env=os.environ | {"PYTHONPATH": str(Path(COMMAND[1]).parent)})
    found = [call for call, _ in calls_of(Path("trace"))]
    naming = ["linkat", "unlinkat"] if is_new else ["renameat"]
    assert found[found.index("write"):] == ["write", "fsync", *naming, "fsync"]
