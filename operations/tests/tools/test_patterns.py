"""Test that --include and --exclude of `ropepeach fill`, `mirror` and `check` select the same files as rsync."""
from __future__ import annotations

import contextlib
import os
import random
import shutil
import subprocess
from pathlib import Path
from typing import Any, NamedTuple

import pytest
from hypothesis import HealthCheck, given, settings
from hypothesis import strategies as st

from operations.tests.tools.line_runs import collection_of_two
from operations.tests.tools.pattern_trees import made, rules_for
from operations.tests.tools.command_runs import run_command, status_of
from operations.tests.tools.running import SECONDS, Server, files_of, within, written
from operations.tests.tools.static_source import STYLES, Static
from ropepeach.cli.statuses import Status
from ropepeach.resync.filters import Filters, Rule

TREES = 150
# Rules of rsync's manual, and edge cases of them.
KNOWN = ["a/***/", "/y/***/", "/y?a", "/y*c", "a", "/a", "a/", "a/b", "/a/b", "b/c", "*", "/*", "*/", "a*", "a**", "**",
         "**/c", "a/**", "/a/**/c", "a/***", "/a/***", "?", "[ab]", "[!a]", "[^a]", "[]a]", "[a-b]", "[[:alpha:]]",
         "[[:none:]]", "[a", "a\\", "\\a", "\\[a]", "[\\]]", "a/[b/]", "//a", "/", "***", "a***", "**a", "b**c", "*[",
         "*/b/*", "a/b/c", ".*", "[.]x", "é", "[é]", "a b", "-", "[a-", "[-a]", "[a\\-c]"]
NAMES = ["a", "b", "c", ".x", "é", "a b", "-", "[a]", "\\a", "]", "a\\"]
# A name that makes a search long, and a pattern of this kind.
LONG_NAME, STARS = "a" * 240, "*a" * 20 + "b"
# The number of attempts of rsync, which may hang.
ATTEMPTS = 3
# The timeout of a search in seconds.
SEARCHING = 10


def taken_by_rsync(source: Path, to: Path, rules: list[Rule]) -> set[str]:
    """Return the files that rsync copies."""
    words = [f"--{'include' if rule.is_taking else 'exclude'}={rule.pattern}" for rule in rules]
    for _ in range(ATTEMPTS):
        # (among some thousands of runs on a busy machine rsync hung once, so it is run again)
        with contextlib.suppress(subprocess.TimeoutExpired):
            subprocess.run(["rsync", "-r", *words, f"{source}/", f"{to}/"], check=True, timeout=SECONDS / ATTEMPTS,
                           capture_output=True)
            return paths_of(to)
        shutil.rmtree(to, ignore_errors=True)
    pytest.fail(f"rsync hangs {ATTEMPTS} times: {words}")


def paths_of(folder: Path) -> set[str]:
    """Return the paths of a folder's files."""
    return {os.path.relpath(os.path.join(above, name), folder) for above, _, names in os.walk(folder) for name in names}


def compare(room: Path, rules: list[Rule], source: Path) -> None:
    """Compare the files of a folder that rsync selects with ours."""
    to = room / "to"
    taken, ours = taken_by_rsync(source, to, rules), Filters(rules).of(paths_of(source))
    shutil.rmtree(to)
    assert ours == taken, [f"{'+' if rule.is_taking else '-'} {rule.pattern}" for rule in rules]


@pytest.mark.needs("rsync")
@pytest.mark.timeout(600)
@settings(max_examples=TREES, deadline=None, suppress_health_check=[HealthCheck.function_scoped_fixture])
@given(draws=st.randoms(use_true_random=True))
def test_random_patterns_take_the_files_that_rsync_takes(room: Path, draws: random.Random) -> None:
    """The trees are random too."""
    shutil.rmtree(room / "from", ignore_errors=True)
    source = made(room / "from", draws)
    compare(room, rules_for(paths_of(source), draws), source)


@pytest.mark.needs("rsync")
def test_known_patterns_take_the_files_that_rsync_takes(room: Path) -> None:
    """The patterns are those of the manual, alone and before another one."""
    source = written(room / "from",
                     {f"{above}{name}": b"" for above in ("", "d/", "d/e/", "a#/", "x/a#/b#/") for name in NAMES})
    for above in ("a/b", "b/a", "x/a/b"):
        written(source, {f"y/{above}/c": b"", f"z/{above}/{above}/c": b""})
    for pattern in KNOWN:
        compare(room, [Rule(pattern, False)], source)
        compare(room, [Rule("*/", True), Rule(pattern, True), Rule("*", False)], source)


def test_fill_neither_puts_nor_deletes_excluded_files(program: str, room: Path) -> None:
    """fill does not read excluded folders, and --again does not accept their names."""
    files = {name: name.encode()
             for name in ("a", "b.tmp", "c/d", "c/e.tmp", "c/keep.tmp", "é.tmp", f"deep/{'n' * 241}")}
    words = ["--exclude", "deep/", "--include", "keep.*", "--exclude", "*.tmp"]
    with Server(program, room / "a.disk") as server:
        folder = written(room / "f", files)
        output = status_of(run_command("fill", str(folder), server.url, *words), 0, "3 put")
        assert "left out" not in output.replace("0 left out", ""), output
        status_of(run_command("fill", str(folder), server.url, "--skip-unlawful"), 0, "3 put")
        shutil.rmtree(folder / "c")
        for name in ("a", "b.tmp", "é.tmp"):
            (folder / name).unlink()
        # (two of the three included files are gone, more than half)
        written(folder, {"a": b"a"})
        output = status_of(run_command("fill", str(folder), server.url, *words, "--dry-run", "--yes"), 0, "2 to delete")
        assert ".tmp" not in output.replace("keep.tmp", ""), output
        status_of(run_command("fill", str(folder), server.url, *words), 1,
                  "2 of 3 resources would be deleted, more than half")
        status_of(run_command("fill", str(folder), server.url, *words, "--yes"), 0, "2 deleted")
        status_of(run_command("fill", str(folder), server.url, *words, "--again", "b.tmp"), 1,
                  "--exclude leaves it out")
        words_of_status = server.answers("status").split()[:2]
    assert words_of_status == [b"resources", b"4"], f"{words_of_status}"


def test_fill_of_a_collection_neither_puts_nor_deletes_excluded_files(program: str, room: Path) -> None:
    """fill of a collection handles excluded files in the same way."""
    with collection_of_two(program, room) as servers:
        folder = written(room / "f", {f"{name}.{end}": b"1" for name in "abcdefgh" for end in ("txt", "tmp")})
        status_of(run_command("fill", str(folder), "collection.toml"), 0)
        shutil.rmtree(folder)
        written(folder, {f"{name}.txt": b"1" for name in "abcdefg"})
        status_of(run_command("fill", str(folder), "collection.toml", "--exclude", "*.tmp"), 0)
        counts = [int(server.answers("status").split()[1]) for server in servers]
    assert sum(counts) == 15, f"{counts} are held"


def mirrored(server: Any, status: int, phrase: str, *words: str) -> dict[str, bytes]:
    """Run the mirror; return its files."""
    status_of(run_command("mirror", server.url, "m", *words), status, phrase)
    found: dict[str, bytes] = files_of("m")
    return found


def test_a_mirror_has_the_included_files(program: str, room: Path) -> None:
    """A run with other patterns is a baseline, even after it was stopped."""
    files = {name: name.encode() for name in ("a", "b.tmp", "c/d", "c/e.tmp")}
    few = {name: body for name, body in files.items() if not name.endswith(".tmp")}
    with Server(program, room / "a.disk") as server:
        folder = written(room / "f", files)
        status_of(run_command("fill", str(folder), server.url), 0)
        pattern = ["--exclude", "*.tmp"]
        assert mirrored(server, 0, "baseline: fetched 2 ", *pattern) == few, "a baseline"
        written(folder, {"x.tmp": b"x", "c/x": b"x"})
        status_of(run_command("fill", str(folder), server.url), 0)
        assert mirrored(server, 0, "incremental: fetched 1 ", *pattern) == few | {"c/x": b"x"}, "an increment"
        # Other patterns: --incremental is refused, a dry run makes no change, a limit stops the run.
        mirrored(server, 1, "no earlier run", "--incremental")
        mirrored(server, 0, "3 to fetch", "--dry-run")
        mirrored(server, 1, "--max-bytes", "--max-bytes", "2000")
        # (it stopped before the first change)
        assert mirrored(server, 0, "incremental: fetched 0 ", *pattern) == few | {"c/x": b"x"}, "after a stop"
        assert mirrored(server, 0, "baseline: fetched 3 ") == files | {"c/x": b"x", "x.tmp": b"x"}, "no patterns"
        assert mirrored(server, 0, "incremental: fetched 0 ") == files | {"c/x": b"x", "x.tmp": b"x"}, "once more"
        # Fewer are included: the others are removed if --max-delete allows it.
        mirrored(server, 1, "--max-delete", "--exclude", "c/", "--max-delete", "2")
        assert mirrored(server, 0, "removed 3", "--exclude", "c/", "--yes").keys() == {"a", "b.tmp", "x.tmp"}, "fewer"
        # All are excluded: the next run does not continue from an empty folder.
        assert mirrored(server, 0, "removed 3", "--exclude", "*", "--yes") == {}, "none"
        assert mirrored(server, 0, "baseline: fetched 6 ") == files | {"c/x": b"x", "x.tmp": b"x"}, "all again"


class Address(NamedTuple):
    """A source by its address."""

    url: str


def places_of(files: dict[str, bytes]) -> set[str]:
    """Return the last segments of a mirror's files, without the mirror's own."""
    return {name.rpartition("/")[2] for name in files if not name.startswith("#")}


def test_a_mirror_of_any_source_has_the_included_files(room: Path) -> None:
    """Patterns are compared with the paths of files in the mirror."""
    with Static() as server:
        server.hold(STYLES["resync"], {"a": b"1", "b.tmp": b"2", "c/d.tmp": b"3"})
        server_of = Address(server.base)
        first = mirrored(server_of, 0, "fetched 1 ", "--exclude", "*.tmp")
        assert places_of(first) == {"a"}, first
        mirrored(server_of, 1, "no earlier run", "--incremental")
        second = mirrored(server_of, 0, "baseline: fetched 2 ")
        assert places_of(second) == {"a", "b.tmp", "d.tmp"}, second
        mirrored(server_of, 0, "incremental: fetched 0 ")


def test_check_takes_the_patterns_of_the_mirror(program: str, room: Path) -> None:
    """check checks and repairs only the included files."""
    files = {name: name.encode() for name in ("a", "b.tmp", "c/d", "c/e.tmp")}
    pattern = ["--exclude", "*.tmp"]
    with Server(program, room / "a.disk") as server:
        status_of(run_command("fill", str(written(room / "f", files)), server.url), 0)
        few = mirrored(server, 0, "baseline: fetched 2 ", *pattern)
        for words in ((), (*pattern,), (server.url, *pattern)):
            status_of(run_command("check", "m", *words), 0, "2 files")
        Path("m/a").write_bytes(b"rotten")
        for words in ((server.url,), ("--repair",), ("--repair", "--exclude", "c/")):
            status_of(run_command("check", "m", *words), int(Status.UNUSABLE), "its last run had other patterns")
        status_of(run_command("check", "m", "--repair", *pattern), 0, "after the repair 2 files")
        assert files_of("m") == few, "a repair"
        mirrored(server, 0, "incremental: fetched 0 ", *pattern)


@pytest.mark.parametrize("name", ["fill", "mirror", "check"])
@pytest.mark.parametrize("option", ["--include", "--exclude"])
@pytest.mark.parametrize("text", ["", "!", "- a", "+ a"])
def test_rules_of_rsync_of_other_kinds_are_refused(name: str, option: str, text: str) -> None:
    """rsync does not read these rules as patterns."""
    done = run_command(name, "a", "b", option, text)
    status_of(done, 2, option)
    assert "Traceback" not in done.stderr, done.stderr


def test_no_name_makes_a_search_slow() -> None:
    """A hostile source chose the name."""
    with within(SEARCHING, f"a search took longer than {SEARCHING} seconds"):
        for pattern in (STARS, f"**{STARS}", f"{'**a' * 8}b", f"/{STARS}", f"{'**a*' * 6}b"):
            Filters([Rule(pattern, False)]).has(f"{LONG_NAME[:120]}/{LONG_NAME}")
