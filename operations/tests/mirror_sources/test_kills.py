"""A run killed at any moment loses no change and no report, and the next run resumes."""
from __future__ import annotations

import pathlib
import queue
import re
import signal
import subprocess

import pytest

from operations.tests.harness.command import ANY_SOURCE, DEADLINE, FOLDER, Ropepeach
from operations.tests.harness.folder import Mirror
from operations.tests.harness.server import Response, Server
from operations.tests.harness.source import SECOND, THIRD, FakeSource, OwnSource, Style

FILES = {name: f"body of {name}".encode() for name in ("a", "b", "c", "d", "e", "f")}
RENAMES = "rename,renameat,renameat2"


def killed_at(ropepeach: Ropepeach, server: Server, path: str, *options: object, url: str = "") -> None:
    """Mirror, and kill the run at its first request of a path."""
    runs = queue.SimpleQueue[subprocess.Popen[str]]()
    server.at_path(path, lambda: runs.get(timeout=DEADLINE).kill())
    run = ropepeach.started("mirror", *ANY_SOURCE, url or server.base, FOLDER, *options)
    runs.put(run)
    run.communicate(timeout=DEADLINE)
    assert run.returncode == -signal.SIGKILL, f"the run was not killed: it did not ask for {path}"


def test_a_killed_baseline_is_followed_by_a_baseline(
        ropepeach: Ropepeach, source: FakeSource, mirror: Mirror, server: Server) -> None:
    """The next run repairs damage that a killed `--baseline` had not reached, without an option."""
    source.hold(FILES)
    ropepeach.mirror(server.base).succeeded()
    for name in ("b", "e"):
        mirror.damage(mirror.place(source, name))
    killed_at(ropepeach, server, "/data/b", "--baseline")
    assert ropepeach.mirror(server.base).succeeded().way() == "baseline"
    assert mirror.held(source) == FILES


def test_a_killed_first_run_goes_on(
        ropepeach: Ropepeach, source: FakeSource, mirror: Mirror, server: Server) -> None:
    source.hold(FILES)
    killed_at(ropepeach, server, "/data/d")
    ropepeach.mirror(server.base).succeeded()
    assert mirror.held(source) == FILES


def test_a_killed_increment_loses_no_change_that_a_later_list_drops(
        ropepeach: Ropepeach, source: FakeSource, mirror: Mirror, server: Server) -> None:
    """The run is killed between two changes; then the source goes back to lists without them."""
    source.hold(FILES)
    ropepeach.mirror(server.base).succeeded()
    later = FILES | {"a": b"newer a", "b": b"newer b"}
    source.later(later, [source.change(name, "updated", SECOND, later[name]) for name in "ab"])
    killed_at(ropepeach, server, "/data/b")
    source.later(FILES, [])
    ropepeach.mirror(server.base).succeeded()
    assert mirror.held(source) == FILES


def test_a_killed_run_with_other_patterns_is_followed_by_a_baseline(
        ropepeach: Ropepeach, source: FakeSource, mirror: Mirror, server: Server) -> None:
    source.hold(FILES)
    ropepeach.mirror(server.base, "--exclude", "[bcd]").succeeded()
    killed_at(ropepeach, server, "/data/c")
    ropepeach.mirror(server.base).succeeded()
    assert mirror.held(source) == FILES


@pytest.mark.needs("strace")
def test_a_kill_at_any_rename_loses_no_report(
        ropepeach: Ropepeach, source: FakeSource, mirror: Mirror) -> None:
    """Kill a run before its first, second, ... rename: the next run succeeds, and all changes are reported."""
    source.hold(FILES)
    ropepeach.mirror(source.base).succeeded()
    held, changes = dict(FILES), list[str]()
    for number in range(1, 30):
        moment = f"2013-01-{10 + number // 6:02}T0{number % 6}:00:00Z"
        gone, name, new = f"new-{number - 1}", sorted(FILES)[number % 6], f"new-{number}"
        held |= {name: f"{name} of turn {number}".encode(), new: b"new"}
        changes += [source.change(name, "updated", moment, held[name]), source.change(new, "created", moment, b"new")]
        expected = {("updated", name), ("created", new)}
        if gone in held:
            del held[gone]
            changes.append(source.change(gone, "deleted", moment))
            expected.add(("deleted", gone))
        source.later(held, changes)
        mirror.lines.unlink(missing_ok=True)
        inject = f"inject={RENAMES}:signal=KILL:when={number}"
        strace = ("strace", "-f", "-qq", "-o", "/dev/null", "-e", f"trace={RENAMES}", "-e", inject)
        first = ropepeach.mirror(source.base, *mirror.on_change, before=strace)
        ropepeach.mirror(source.base, *mirror.on_change).succeeded()
        assert mirror.held(source) == held
        assert expected <= set(mirror.changes(source)), f"killed before rename {number}"
        if first.status == 0:
            assert number > 3, "a run makes hardly a rename"
            return
    raise AssertionError("a run makes more than 29 renames")


@pytest.mark.needs("strace")
def test_reports_are_synced_before_they_get_their_name(
        ropepeach: Ropepeach, source: FakeSource, mirror: Mirror, tmp_path: pathlib.Path) -> None:
    """A power cut must not leave `#changes` without the lines that the run wrote to it.

    The system calls of a run show that the file that becomes `#changes` was synced after its last write, by itself or
    with its file system.
    """
    source.hold(FILES)
    log = tmp_path / "calls"
    strace = ("strace", "-f", "-y", "-qq", "-s", "0", "-o", str(log), "-e",
              f"trace=openat,write,pwrite64,fsync,fdatasync,syncfs,{RENAMES}")
    ropepeach.mirror(source.base, *mirror.on_change, before=strace).succeeded()
    waiting, named = set[str](), 0
    for line in log.read_text().splitlines():
        words = re.match(r"\d+ +(\w+)\((?:AT_FDCWD|\d+)?<?([^>]*)>?(.*)", line)
        if words is None:
            continue
        call, path, rest = words.groups()
        if call in ("write", "pwrite64"):
            waiting.add(path)
        elif call in ("fsync", "fdatasync"):
            waiting.discard(path)
        elif call == "syncfs":
            waiting.clear()
        elif call.startswith("rename") and '"#changes"' in line.rpartition(",")[2] + rest:
            named += 1
            moved = [path for path in waiting if pathlib.Path(path).name in line]
            assert not moved, f"{moved} got the name #changes before its lines were synced"
    assert named, "no rename to #changes was seen"


def test_a_response_that_is_cut_or_reset_is_asked_for_again(
        ropepeach: Ropepeach, source: FakeSource, mirror: Mirror, server: Server) -> None:
    source.hold(FILES)
    server.put("/data/a", [Response(FILES["a"], cut=3), Response(FILES["a"])])
    server.put("/data/b", [Response(is_reset=True), Response(FILES["b"])])
    server.put("/data/c", [Response(status=503), Response(FILES["c"])])
    ropepeach.mirror(server.base).succeeded()
    assert mirror.held(source) == FILES


def test_changes_between_two_kills_all_arrive(
        ropepeach: Ropepeach, source: FakeSource, mirror: Mirror, server: Server) -> None:
    source.hold(FILES)
    ropepeach.mirror(server.base, *mirror.on_change).succeeded()
    first = [source.change("a", "updated", SECOND, b"second a"), source.change("b", "deleted", SECOND)]
    held = {name: body for name, body in FILES.items() if name != "b"} | {"a": b"second a"}
    source.later(held, first)
    killed_at(ropepeach, server, "/data/a", *mirror.on_change)
    held |= {"c": b"third c"}
    source.later(held, [*first, source.change("c", "updated", THIRD, b"third c")])
    killed_at(ropepeach, server, "/data/c", *mirror.on_change)
    ropepeach.mirror(server.base, *mirror.on_change).succeeded()
    assert mirror.held(source) == held
    assert {("updated", "a"), ("updated", "c"), ("deleted", "b")} <= set(mirror.changes(source))


def deletion_by_a_killed_baseline(ropepeach: Ropepeach, server: Server, mirror: Mirror) -> FakeSource:
    """Let a killed baseline remove `c`, and a later baseline succeed; return the source."""
    source = FakeSource(server, Style(has_changes=False))
    source.hold(FILES)
    ropepeach.mirror(server.base, *mirror.on_change).succeeded()
    source.hold({name: body for name, body in FILES.items() if name != "c"} | {"a": b"newer a"})
    killed_at(ropepeach, server, "/data/a", *mirror.on_change)
    assert not mirror.place(source, "c").exists()
    ropepeach.mirror(server.base, *mirror.on_change).succeeded()
    return source


def test_a_deletion_by_a_killed_baseline_is_reported(
        ropepeach: Ropepeach, mirror: Mirror, server: Server) -> None:
    source = deletion_by_a_killed_baseline(ropepeach, server, mirror)
    assert {("deleted", "c"), ("updated", "a")} <= set(mirror.changes(source))


def test_a_file_that_a_killed_baseline_removed_is_not_missing(
        ropepeach: Ropepeach, mirror: Mirror, server: Server) -> None:
    deletion_by_a_killed_baseline(ropepeach, server, mirror)
    ropepeach("check", FOLDER).succeeded()


def test_a_kill_in_a_later_pass_loses_nothing_where_the_source_goes_back(
        ropepeach: Ropepeach, own: OwnSource, mirror: Mirror, server: Server) -> None:
    """The second pass removes `d`, and is killed; before the next run the source is restored to an earlier state."""
    own.put(FILES)
    ropepeach.mirror_own(own.base).succeeded()
    own.put({"a": b"second a"})
    files, changes, clock = dict(own.files), list(own.changes), own.clock

    def publish() -> None:
        """Publish the changes for the second pass."""
        own.delete("d")
        own.put({"a": b"third a", "c": b"second c"})

    server.at_path("/resource/a", publish)
    killed_at(ropepeach, server, "/resource/c")
    assert "d" not in mirror.held(own)
    own.files, own.changes, own.clock = files, changes, clock
    own.write()
    ropepeach.mirror_own(own.base).succeeded()
    assert mirror.held(own) == files
