"""--on-change and --json report every change of a file at least once, with its new facts."""
from __future__ import annotations

import pathlib

import pytest

from operations.tests.harness.command import Ropepeach
from operations.tests.harness.folder import Mirror
from operations.tests.harness.server import Server
from operations.tests.harness.source import FIRST, SECOND, THIRD, FakeSource, OwnSource, Style, sha256

FILES = {"a": b"first a", "b": b"first b", "c": b"first c", "d": b"first d"}
LATER = {"a": b"a second a", "b": b"first b", "d": b"first d", "e": b"first e"}


def changed(source: FakeSource) -> list[str]:
    """Return the changes from FILES to LATER."""
    return [source.change("a", "updated", SECOND, LATER["a"]), source.change("c", "deleted", SECOND),
            source.change("e", "created", THIRD, LATER["e"])]


def test_a_first_run_reports_all_files_as_created(
        ropepeach: Ropepeach, source: FakeSource, mirror: Mirror) -> None:
    source.hold(FILES)
    ropepeach.mirror(source.base, *mirror.on_change).succeeded()
    assert sorted(mirror.changes(source)) == [("created", name) for name in sorted(FILES)]


def test_updates_deletions_and_new_files_are_reported(
        ropepeach: Ropepeach, source: FakeSource, mirror: Mirror) -> None:
    """An increment reports exactly the changes, including deletions; a run without changes reports none."""
    source.hold(FILES)
    ropepeach.mirror(source.base).succeeded()
    source.later(LATER, changed(source))
    ropepeach.mirror(source.base, *mirror.on_change).succeeded()
    expected = [("created", "e"), ("deleted", "c"), ("updated", "a")]
    assert sorted(mirror.changes(source)) == expected
    ropepeach.mirror(source.base, *mirror.on_change).succeeded()
    assert sorted(mirror.changes(source)) == expected


def test_a_report_has_the_facts_of_the_new_file(
        ropepeach: Ropepeach, source: FakeSource, mirror: Mirror) -> None:
    source.hold(FILES)
    ropepeach.mirror(source.base).succeeded()
    source.later(LATER, changed(source))
    ropepeach.mirror(source.base, *mirror.on_change).succeeded()
    by_name = {line["address"].rpartition("/")[2]: line for line in mirror.reported()}
    for name, moment in (("a", SECOND), ("e", THIRD)):
        line = by_name[name]
        facts = (line["length"], line["sha256"], line["moment"], line["type"])
        assert facts == (len(LATER[name]), sha256(LATER[name]), moment, "text/plain")
        assert (mirror.path / line["path"]).read_bytes() == LATER[name]


def test_json_reports_the_same_changes(ropepeach: Ropepeach, source: FakeSource) -> None:
    source.hold(FILES)
    ropepeach.mirror(source.base).succeeded()
    source.later(LATER, changed(source))
    results = ropepeach.mirror(source.base, "--json").succeeded().results()
    found = {(line["change"], line["address"].rpartition("/")[2], line.get("sha256")) for line in results[:-1]}
    assert found == {("updated", "a", sha256(LATER["a"])), ("created", "e", sha256(LATER["e"])),
                     ("deleted", "c", None)}


@pytest.mark.parametrize("has_digests", [True, False])
def test_a_body_of_equal_length_without_a_moment_is_reported(
        ropepeach: Ropepeach, server: Server, mirror: Mirror, has_digests: bool) -> None:
    """Without moments in the lists, only the bytes show that a resource changed."""
    source = FakeSource(server, Style(digests=("sha-256",) if has_digests else (), is_dated=False,
                                      has_changes=False))
    source.hold(FILES)
    ropepeach.mirror(server.base).succeeded()
    source.hold(FILES | {"b": b"other b"})
    ropepeach.mirror(server.base, *mirror.on_change).succeeded()
    assert mirror.changes(source) == [("updated", "b")]
    assert mirror.reported()[0]["sha256"] == sha256(b"other b")


def test_a_baseline_reports_unlisted_files_as_deleted(
        ropepeach: Ropepeach, server: Server, mirror: Mirror) -> None:
    source = FakeSource(server, Style(has_changes=False))
    source.hold(FILES)
    ropepeach.mirror(server.base).succeeded()
    source.hold({name: body for name, body in FILES.items() if name != "c"})
    ropepeach.mirror(server.base, *mirror.on_change).succeeded()
    assert mirror.changes(source) == [("deleted", "c")]


def test_changes_that_a_failing_command_left_come_again_before_newer_ones(
        ropepeach: Ropepeach, source: FakeSource, mirror: Mirror) -> None:
    source.hold(FILES)
    ropepeach.mirror(source.base).succeeded()
    source.later(LATER, changed(source))
    ropepeach.mirror(source.base, "--on-change", "exit 7").failed("7")
    last = FILES | LATER | {"f": b"f"}
    source.later(last, [*changed(source), source.change("f", "created", "2013-01-03T12:00:00Z", b"f")])
    ropepeach.mirror(source.base, *mirror.on_change).succeeded()
    assert sorted(mirror.changes(source)) == [("created", "e"), ("created", "f"), ("deleted", "c"), ("updated", "a")]
    assert mirror.changes(source)[-1] == ("created", "f")


def test_changes_that_a_failing_command_left_come_again_in_a_run_with_nothing_new(
        ropepeach: Ropepeach, source: FakeSource, mirror: Mirror) -> None:
    source.hold(FILES)
    ropepeach.mirror(source.base, "--on-change", "false").failed()
    ropepeach.mirror(source.base, *mirror.on_change).succeeded()
    assert sorted(mirror.changes(source)) == [("created", name) for name in sorted(FILES)]


def test_changes_of_a_run_that_fails_are_handed_over(
        ropepeach: Ropepeach, source: FakeSource, mirror: Mirror) -> None:
    """Fetched files are reported, although another one could not be fetched."""
    source.hold(FILES)
    source.put_resource("b", b"other b")
    ropepeach.mirror(source.base, *mirror.on_change).failed("/data/b")
    assert sorted(mirror.changes(source)) == [("created", name) for name in "acd"]


def test_changes_that_could_not_be_noted_are_reported_by_the_next_run(
        ropepeach: Ropepeach, source: FakeSource, mirror: Mirror) -> None:
    """A folder blocks the file of reports: the run must not remember the files as reported."""
    source.hold(FILES)
    ropepeach.mirror(source.base).succeeded()
    source.later(LATER, changed(source))
    (mirror.path / "#changes").mkdir()
    ropepeach.mirror(source.base, *mirror.on_change).failed(status=3)
    (mirror.path / "#changes").rmdir()
    ropepeach.mirror(source.base, *mirror.on_change).succeeded()
    assert mirror.held(source) == LATER
    assert {("created", "e"), ("updated", "a")} <= set(mirror.changes(source))


def test_a_file_that_was_damaged_and_fetched_again_is_no_change(
        ropepeach: Ropepeach, source: FakeSource, mirror: Mirror) -> None:
    source.hold(FILES)
    ropepeach.mirror(source.base).succeeded()
    mirror.damage(mirror.place(source, "a"))
    ropepeach.mirror(source.base, "--baseline", *mirror.on_change).succeeded()
    assert mirror.held(source) == FILES
    assert mirror.changes(source) == []


def test_the_command_runs_in_no_run_without_a_change(
        ropepeach: Ropepeach, source: FakeSource, mirror: Mirror, tmp_path: pathlib.Path) -> None:
    source.hold(FILES)
    ropepeach.mirror(source.base).succeeded()
    ropepeach.mirror(source.base, "--on-change", "touch ran").succeeded()
    assert not (tmp_path / "ran").exists()


def test_an_own_source_reports_changes_too(ropepeach: Ropepeach, own: OwnSource, mirror: Mirror) -> None:
    own.put(FILES)
    ropepeach.mirror_own(own.base, *mirror.on_change).succeeded()
    own.put({"a": LATER["a"]})
    own.delete("c")
    ropepeach.mirror_own(own.base, *mirror.on_change).succeeded()
    assert sorted(mirror.changes(own)[:4]) == [("created", name) for name in sorted(FILES)]
    assert sorted(mirror.changes(own)[4:]) == [("deleted", "c"), ("updated", "a")]


def test_moments_of_an_own_source_are_reported(ropepeach: Ropepeach, own: OwnSource, mirror: Mirror) -> None:
    own.put({"a": b"a"})
    ropepeach.mirror_own(own.base, *mirror.on_change).succeeded()
    assert [line["moment"] for line in mirror.reported()] == ["2013-01-03T09:00:01.000Z"]
    assert FIRST < mirror.reported()[0]["moment"]


def test_a_deletion_is_reported_although_notes_are_lost(
        ropepeach: Ropepeach, source: FakeSource, mirror: Mirror) -> None:
    source.hold(FILES)
    ropepeach.mirror(source.base).succeeded()
    (mirror.path / "#known").write_bytes(b"no database")
    source.later(LATER, changed(source))
    ropepeach.mirror(source.base, *mirror.on_change).succeeded()
    assert "c" not in mirror.held(source)
    assert ("deleted", "c") in mirror.changes(source)


def test_an_own_source_reports_a_deletion_although_notes_are_lost(
        ropepeach: Ropepeach, own: OwnSource, mirror: Mirror) -> None:
    own.put(FILES)
    ropepeach.mirror_own(own.base).succeeded()
    (mirror.path / "#known").write_bytes(b"no database")
    own.delete("c")
    ropepeach.mirror_own(own.base, "--baseline", *mirror.on_change).succeeded()
    assert ("deleted", "c") in mirror.changes(own)
