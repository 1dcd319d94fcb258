"""--dry-run ends as the run would, without changes; a run without room fetches no file."""
from __future__ import annotations

import pathlib
import subprocess
from collections.abc import Callable, Iterator

import pytest

from operations.tests.harness.command import Result, Ropepeach
from operations.tests.harness.folder import Mirror, files_in
from operations.tests.harness.server import Server
from operations.tests.harness.source import SECOND, FakeSource, OwnSource, Style

FILES = {name: f"body of {name}".encode() for name in ("a", "b", "c", "d")}


def deletions(source: FakeSource) -> None:
    """Delete three of four resources."""
    source.later({"d": FILES["d"]}, [source.change(name, "deleted", SECOND) for name in "abc"])


def test_a_dry_run_of_a_refused_removal_has_the_status_of_the_run(
        ropepeach: Ropepeach, source: FakeSource, mirror: Mirror) -> None:
    source.hold(FILES)
    ropepeach.mirror(source.base).succeeded()
    deletions(source)
    assert "3 of 4" in ropepeach.mirror(source.base, "--dry-run").failed().errors
    ropepeach.mirror(source.base).failed("3 of 4")
    assert mirror.held(source) == FILES
    ropepeach.mirror(source.base, "--max-delete", 2, "--dry-run").failed("--max-delete 2")
    ropepeach.mirror(source.base, "--max-delete", 3, "--dry-run").succeeded()
    ropepeach.mirror(source.base, "--yes", "--dry-run").succeeded()
    assert mirror.held(source) == FILES
    ropepeach.mirror(source.base, "--yes").succeeded()
    assert mirror.held(source) == {"d": FILES["d"]}


def test_a_dry_run_of_a_baseline_has_the_status_of_the_run(
        ropepeach: Ropepeach, server: Server, mirror: Mirror) -> None:
    source = FakeSource(server, Style(has_changes=False))
    source.hold(FILES)
    ropepeach.mirror(server.base).succeeded()
    source.hold({"d": FILES["d"]})
    ropepeach.mirror(server.base, "--dry-run").failed("3 of 4")
    ropepeach.mirror(server.base).failed("3 of 4")


def test_a_dry_run_of_an_own_source_has_the_status_of_the_run(
        ropepeach: Ropepeach, own: OwnSource, mirror: Mirror) -> None:
    own.put(FILES)
    ropepeach.mirror_own(own.base).succeeded()
    own.delete("a", "b", "c")
    ropepeach.mirror_own(own.base, "--dry-run").failed("3 of 4")
    ropepeach.mirror_own(own.base).failed("3 of 4")


def test_a_dry_run_names_each_file_and_changes_nothing(
        ropepeach: Ropepeach, source: FakeSource, mirror: Mirror, tmp_path: pathlib.Path) -> None:
    source.hold(FILES)
    first = ropepeach.mirror(source.base, "--dry-run").succeeded()
    assert not mirror.path.exists()
    assert [line.rpartition("/")[2] for line in first.output.splitlines()[:-1]] == list("abcd")
    ropepeach.mirror(source.base).succeeded()
    before = {path.name: path.read_bytes() for path in mirror.path.iterdir() if path.is_file()}
    source.later(FILES | {"a": b"newer a"}, [source.change("a", "updated", SECOND, b"newer a"),
                                             source.change("b", "deleted", SECOND)])
    lines = ropepeach.mirror(source.base, "--dry-run", *mirror.on_change).succeeded().output.splitlines()
    assert {(line.split()[0], line.rpartition("/")[2]) for line in lines[:-1]} == {("fetch", "a"), ("remove", "b")}
    assert before == {path.name: path.read_bytes() for path in mirror.path.iterdir() if path.is_file()}
    assert mirror.held(source) == FILES
    assert mirror.reported() == []


@pytest.fixture
def small_disk(tmp_path: pathlib.Path) -> Iterator[pathlib.Path]:
    """Mount a file system of 1 MiB in memory."""
    place = tmp_path / "small"
    place.mkdir()
    done = subprocess.run(["mount", "-t", "tmpfs", "-o", "size=1m", "tmpfs", str(place)], capture_output=True,
                          text=True, check=False)
    if done.returncode:
        pytest.skip(f"it needs a file system in memory: {done.stderr.strip()}")
    try:
        yield place
    finally:
        subprocess.run(["umount", str(place)], check=True)


@pytest.mark.root
@pytest.mark.needs("mount")
def test_a_run_without_room_fetches_nothing(
        ropepeach: Ropepeach, source: FakeSource, server: Server, small_disk: pathlib.Path) -> None:
    """Twenty files of 100 kB do not fit into 1 MiB: the run ends before its first request for a file."""
    source.hold({f"{number:02}": bytes([number]) * 100_000 for number in range(20)})
    ropepeach.mirror(server.base, folder=str(small_disk / "m")).failed(status=3)
    assert server.paths("/data/") == []
    assert files_in(small_disk / "m") == {}


@pytest.mark.root
@pytest.mark.needs("mount")
def test_an_increment_without_room_fetches_nothing_and_keeps_the_folder(
        ropepeach: Ropepeach, source: FakeSource, server: Server, small_disk: pathlib.Path) -> None:
    source.hold(FILES)
    mirror = Mirror(small_disk)
    ropepeach.mirror(server.base, folder=str(mirror.path)).succeeded()
    large = {f"{number:02}": bytes([number]) * 100_000 for number in range(20)}
    server.requests.clear()
    source.later(FILES | large, [source.change(name, "created", SECOND, body) for name, body in large.items()])
    ropepeach.mirror(server.base, folder=str(mirror.path)).failed(status=3)
    assert server.paths("/data/") == []
    assert mirror.held(source) == FILES


@pytest.mark.parametrize("is_own", [False, True])
def test_a_dry_run_with_other_patterns_leaves_the_position(
        ropepeach: Ropepeach, source: FakeSource, own: OwnSource, is_own: bool) -> None:
    """The next run with the earlier patterns continues from the last one."""
    run: Callable[..., Result] = ropepeach.mirror
    if is_own:
        run = ropepeach.mirror_own
        own.put(FILES)
    else:
        source.hold(FILES)
    base = source.base
    run(base).succeeded()
    run(base, "--dry-run", "--exclude", "a").succeeded()
    run(base, "--incremental").succeeded()
