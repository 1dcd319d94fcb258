"""`ropepeach check` names every damaged, missing and unknown file, and no right one."""
from __future__ import annotations

import re

import pytest

from operations.tests.harness.command import FOLDER, Ropepeach
from operations.tests.harness.folder import Mirror
from operations.tests.harness.server import Server
from operations.tests.harness.source import BARE, SECOND, WELL_KNOWN, FakeSource, OwnSource, Style

FILES = {name: f"body of {name}".encode() for name in ("a", "b", "c", "d")}
STYLES = [Style(digests=()), BARE, Style(), Style(digests=("md5",))]
# The exit status for a mirror with a damaged, missing or unknown file.
DAMAGED = 4


def findings(output: str) -> dict[str, str]:
    """Return the findings of `check` by the last segment of the path."""
    lines = re.findall(r"(?m)^(missing|rotten|strange|behind) (\S+)$", output)
    return {path.rpartition("/")[2]: word for word, path in lines}


@pytest.mark.parametrize("style", STYLES)
@pytest.mark.parametrize("with_lists", [True, False])
def test_damage_that_keeps_the_length_is_named(
        ropepeach: Ropepeach, server: Server, mirror: Mirror, style: Style, with_lists: bool) -> None:
    """The mirror knows its files' digests, even if the source lists only lengths or addresses."""
    source = FakeSource(server, style)
    source.hold(FILES)
    ropepeach.mirror(server.base).succeeded()
    url = [server.base] if with_lists else []
    ropepeach("check", FOLDER, *url).succeeded()
    mirror.damage(mirror.place(source, "b"))
    result = ropepeach("check", FOLDER, *url).ended(DAMAGED)
    assert findings(result.output) == {"b": "rotten"}


@pytest.mark.parametrize("has_damage", [True, False])
def test_damage_of_a_file_that_the_lists_dropped_is_named(
        ropepeach: Ropepeach, server: Server, mirror: Mirror, has_damage: bool) -> None:
    """A right file that the next run removes is "behind"; a damaged one is wrong."""
    source = FakeSource(server, Style(has_changes=False))
    source.hold(FILES)
    ropepeach.mirror(server.base).succeeded()
    source.hold({name: body for name, body in FILES.items() if name != "b"})
    if has_damage:
        mirror.damage(mirror.place(source, "b"))
    result = ropepeach("check", FOLDER, server.base).ended(DAMAGED if has_damage else 0)
    found = findings(result.output)
    assert set(found) == {"b"}
    assert (found["b"] == "behind") is not has_damage


@pytest.mark.parametrize("style", STYLES[2:])
def test_a_file_that_changed_at_the_source_is_behind(ropepeach: Ropepeach, server: Server, style: Style) -> None:
    source = FakeSource(server, style)
    source.hold(FILES)
    ropepeach.mirror(server.base).succeeded()
    source.later(FILES | {"a": b"newer a"}, [source.change("a", "updated", SECOND, b"newer a")])
    assert findings(ropepeach("check", FOLDER, server.base).succeeded().output) == {"a": "behind"}


@pytest.mark.parametrize("style", STYLES)
def test_missing_and_unknown_files_are_named(
        ropepeach: Ropepeach, server: Server, mirror: Mirror, style: Style) -> None:
    source = FakeSource(server, style)
    source.hold(FILES)
    ropepeach.mirror(source.base).succeeded()
    mirror.place(source, "a").unlink()
    mirror.place(source, "new").write_bytes(b"somebody's")
    for url in (list[str](), [source.base]):
        result = ropepeach("check", FOLDER, *url).ended(DAMAGED)
        assert findings(result.output) == {"a": "missing", "new": "strange"}


@pytest.mark.parametrize("style", STYLES)
def test_repair_restores_each_file(ropepeach: Ropepeach, server: Server, mirror: Mirror, style: Style) -> None:
    source = FakeSource(server, style)
    source.hold(FILES)
    ropepeach.mirror(source.base).succeeded()
    mirror.place(source, "a").unlink()
    mirror.place(source, "new").write_bytes(b"somebody's")
    mirror.damage(mirror.place(source, "b"))
    result = ropepeach("check", FOLDER, "--repair").succeeded()
    assert findings(result.output) == {"a": "missing", "new": "strange", "b": "rotten"}
    assert "after the repair 4 files (36 bytes): 4 well" in result.output
    assert mirror.held(source) == FILES


@pytest.mark.parametrize("end", ["", "/", WELL_KNOWN])
def test_a_source_may_be_named_by_its_description(
        ropepeach: Ropepeach, own: OwnSource, mirror: Mirror, end: str) -> None:
    """`check` accepts the same addresses of a source as `mirror`."""
    own.put(FILES)
    ropepeach.mirror_own(own.base + end).succeeded()
    ropepeach("check", FOLDER, own.base + end).succeeded()
    mirror.path.joinpath("b").write_bytes(b"Body of b")
    assert findings(ropepeach("check", FOLDER, own.base + end).ended(DAMAGED).output) == {"b": "rotten"}


def test_another_source_is_refused(ropepeach: Ropepeach, own: OwnSource, server: Server) -> None:
    own.put(FILES)
    ropepeach.mirror_own(own.base).succeeded()
    ropepeach("check", FOLDER, f"{server.base}/other").failed("is a mirror of", server.base, status=3)


@pytest.mark.parametrize("damage", [b"no database at all", b""])
def test_right_files_are_not_called_damaged_when_notes_are_lost(
        ropepeach: Ropepeach, own: OwnSource, mirror: Mirror, damage: bytes) -> None:
    """`#known-later` is damaged, and an increment follows: `check` must not judge by the remaining rows."""
    own.put(FILES)
    ropepeach.mirror_own(own.base).succeeded()
    own.put({"a": b"newer a", "e": b"created"})
    ropepeach.mirror_own(own.base).succeeded()
    (mirror.path / "#known-later").write_bytes(damage)
    own.put({"b": b"newer b"})
    ropepeach.mirror_own(own.base).succeeded()
    result = ropepeach("check", FOLDER)
    assert findings(result.output) == {}
    assert result.status in (0, 3)
    ropepeach.mirror_own(own.base, "--baseline").succeeded()
    ropepeach("check", FOLDER).succeeded()


@pytest.mark.parametrize("name", ["#known", "#known-later"])
def test_a_baseline_restores_lost_notes(
        ropepeach: Ropepeach, own: OwnSource, mirror: Mirror, name: str) -> None:
    own.put(FILES)
    ropepeach.mirror_own(own.base).succeeded()
    own.put({"a": b"newer a"})
    ropepeach.mirror_own(own.base).succeeded()
    (mirror.path / name).write_bytes(b"no database at all")
    ropepeach("check", FOLDER).failed(status=3)
    ropepeach.mirror_own(own.base, "--baseline").succeeded()
    ropepeach("check", FOLDER).succeeded()


def test_a_file_that_went_here_and_at_the_source_is_not_missing(
        ropepeach: Ropepeach, server: Server, mirror: Mirror) -> None:
    """A baseline forgets it, even without other changes."""
    source = FakeSource(server, Style(has_changes=False))
    source.hold(FILES)
    ropepeach.mirror(server.base).succeeded()
    mirror.place(source, "b").unlink()
    source.hold({name: body for name, body in FILES.items() if name != "b"})
    ropepeach.mirror(server.base).succeeded()
    ropepeach("check", FOLDER).succeeded()


def test_a_run_with_lost_notes_of_another_source_is_a_baseline(
        ropepeach: Ropepeach, source: FakeSource, mirror: Mirror) -> None:
    source.hold(FILES)
    ropepeach.mirror(source.base).succeeded()
    (mirror.path / "#known").write_bytes(b"no database at all")
    assert ropepeach.mirror(source.base).succeeded().way() == "baseline"
    ropepeach("check", FOLDER).succeeded()


def test_notes_have_the_digest_of_a_file_that_a_stopped_run_had_renamed(
        ropepeach: Ropepeach, server: Server, mirror: Mirror) -> None:
    """The run stopped before it noted the newer file, whose length is the same; a baseline keeps that file."""
    source = FakeSource(server, Style(digests=("md5",)))
    source.hold(FILES)
    ropepeach.mirror(source.base).succeeded()
    later = FILES | {"a": b"BODY OF A"}
    source.hold(later)
    source.put_resource_list([source.resource(name, body, SECOND) for name, body in later.items()], SECOND)
    mirror.place(source, "a").write_bytes(later["a"])
    assert "fetched 0 " in ropepeach.mirror(source.base, "--baseline").succeeded().output
    ropepeach("check", FOLDER).succeeded()
