"""A run notices every fault, change and limit although the source publishes meanwhile."""
from __future__ import annotations

import pytest

from operations.tests.harness.command import Ropepeach
from operations.tests.harness.folder import Mirror
from operations.tests.harness.server import Response, Server
from operations.tests.harness.source import (
    BARE, FIRST, FOURTH, SECOND, THIRD, FakeSource, Style, describe)

FILES = {name: f"body of {name}".encode() for name in ("a", "b", "c", "d", "e", "f")}


def test_a_fault_of_the_first_pass_outlasts_a_pass_that_mends_another(
        ropepeach: Ropepeach, source: FakeSource, mirror: Mirror, server: Server) -> None:
    """`a` always has wrong bytes; `b` is missing at first, and listed with other bytes for the second pass."""
    source.hold(FILES)
    source.put_resource("a", b"bytes which no list has")
    later = FILES | {"b": b"published during the run"}
    server.put("/data/b", [Response(status=404), Response(later["b"])])
    change = source.change("b", "updated", SECOND, later["b"])
    server.at_path("/data/b", lambda: source.put_change_list([change]))

    ropepeach.mirror(server.base).failed("/data/a")
    kept = mirror.held(source)
    assert kept == {name: body for name, body in later.items() if name != "a"}


def test_an_increment_does_not_end_well_while_a_listed_change_is_missing(
        ropepeach: Ropepeach, source: FakeSource, mirror: Mirror, server: Server) -> None:
    """An increment would leave an old file and call the folder exact."""
    source.hold(FILES)
    ropepeach.mirror(server.base).succeeded()
    later = FILES | {"a": b"newer a", "b": b"newer b"}
    first = [source.change("a", "updated", SECOND, later["a"]), source.change("b", "updated", SECOND, b"lost b")]
    source.later(FILES, first)
    server.put("/data/b", [Response(status=404), Response(later["b"])])
    server.at_path("/data/b", lambda: source.put_change_list(
        [*first, source.change("b", "updated", THIRD, later["b"])]))
    ropepeach.mirror(server.base).failed("/data/a")

    source.put_resource("a", later["a"])
    ropepeach.mirror(server.base).succeeded()
    assert mirror.held(source) == later


def two_passes_with_deletions(source: FakeSource, server: Server) -> None:
    """Publish two deletions and an unfetchable change; when it is requested, publish two more deletions."""
    first = [source.change("a", "deleted", SECOND), source.change("b", "deleted", SECOND),
             source.change("c", "updated", SECOND, b"lost c")]
    source.later({name: FILES[name] for name in "cdef"}, first)
    server.put("/data/c", [Response(status=404), Response(b"newer c")])
    server.at_path("/data/c", lambda: source.put_change_list(
        [*first, source.change("d", "deleted", THIRD), source.change("e", "deleted", THIRD),
         source.change("c", "updated", THIRD, b"newer c")]))


def test_removals_of_all_passes_count_together_against_the_limit(
        ropepeach: Ropepeach, source: FakeSource, mirror: Mirror, server: Server) -> None:
    """Two passes with two deletions are more than half of six files."""
    source.hold(FILES)
    ropepeach.mirror(server.base).succeeded()
    two_passes_with_deletions(source, server)
    ropepeach.mirror(server.base).failed("4 of 6")
    assert {"d", "e", "f"} <= set(mirror.held(source))


def test_removals_of_all_passes_count_together_against_max_delete(
        ropepeach: Ropepeach, source: FakeSource, mirror: Mirror, server: Server) -> None:
    source.hold(FILES)
    ropepeach.mirror(server.base).succeeded()
    two_passes_with_deletions(source, server)
    ropepeach.mirror(server.base, "--max-delete", 3).failed("--max-delete 3")
    assert {"d", "e", "f"} <= set(mirror.held(source))


def test_a_refusal_in_a_second_pass_does_not_say_that_nothing_was_removed(
        ropepeach: Ropepeach, source: FakeSource, mirror: Mirror, server: Server) -> None:
    source.hold(FILES)
    ropepeach.mirror(server.base).succeeded()
    two_passes_with_deletions(source, server)
    errors = ropepeach.mirror(server.base).failed().errors
    assert set(FILES) - set(mirror.held(source)) == {"a", "b"}
    assert "none was" not in errors


def test_lists_that_do_not_meet_are_read_again(
        ropepeach: Ropepeach, source: FakeSource, mirror: Mirror, server: Server) -> None:
    """The Change List begins after the `at` of the first Resource List, and at that of the second one."""
    later = FILES | {"a": b"newer a"}
    source.hold(later, at=SECOND, start=SECOND)
    newest = server.responses["/rs/resourcelist.xml"]
    assert isinstance(newest, Response)
    source.put_resource_list([source.resource(name, body) for name, body in FILES.items()], FIRST)
    oldest = server.responses["/rs/resourcelist.xml"]
    assert isinstance(oldest, Response)
    server.put("/rs/resourcelist.xml", [oldest, newest])

    result = ropepeach.mirror(server.base).succeeded()
    assert "goes by the Resource List" not in result.errors
    assert mirror.held(source) == later
    assert ropepeach.mirror(server.base).succeeded().way() == "incremental"


def test_the_third_reading_may_meet(
        ropepeach: Ropepeach, source: FakeSource, mirror: Mirror, server: Server) -> None:
    source.hold(FILES, at=THIRD, start=THIRD)
    newest = server.responses["/rs/resourcelist.xml"]
    assert isinstance(newest, Response)
    older = []
    for at in (FIRST, SECOND):
        source.put_resource_list([source.resource(name, body) for name, body in FILES.items()], at)
        found = server.responses["/rs/resourcelist.xml"]
        assert isinstance(found, Response)
        older.append(found)
    server.put("/rs/resourcelist.xml", [*older, newest])
    assert "goes by the Resource List" not in ropepeach.mirror(server.base).succeeded().errors
    assert ropepeach.mirror(server.base).succeeded().way() == "incremental"


def test_a_set_that_is_named_no_more_is_removed(ropepeach: Ropepeach, mirror: Mirror, server: Server) -> None:
    """The Source Description drops one of two sets: the next runs succeed, and keep only the other set."""
    first, second = (FakeSource(server, Style(f"/{name}/", f"/{name}-data/")) for name in ("one", "two"))
    first.hold(FILES)
    second.hold({"x": b"of the second set"})
    describe(first, second)
    ropepeach.mirror(server.base).succeeded()
    assert mirror.place(second, "x").read_bytes() == b"of the second set"

    describe(first)
    ropepeach.mirror(server.base).succeeded()
    assert mirror.held(first) == FILES
    assert ropepeach.mirror(server.base).succeeded().way() == "incremental"


def test_a_set_that_is_named_later_is_mirrored_too(ropepeach: Ropepeach, mirror: Mirror, server: Server) -> None:
    first, second = (FakeSource(server, Style(f"/{name}/", f"/{name}-data/")) for name in ("one", "two"))
    second.hold({"x": b"of the second set"})
    first.hold(FILES)
    ropepeach.mirror(server.base).succeeded()
    assert mirror.held(first) == FILES
    describe(first, second)
    ropepeach.mirror(server.base).succeeded()
    assert mirror.place(second, "x").read_bytes() == b"of the second set"
    assert ropepeach.mirror(server.base).succeeded().way() == "incremental"


def test_a_folder_of_several_moments_is_as_of_the_earliest(ropepeach: Ropepeach, server: Server) -> None:
    """Two sets without Change Lists have different `at`."""
    for at, other in ((FIRST, THIRD), (THIRD, FIRST)):
        sets = [FakeSource(server, Style(f"/{name}/", f"/{name}-data/", has_changes=False)) for name in ("one", "two")]
        sets[0].hold({"a": b"a"}, at=at)
        sets[1].hold({"b": b"b"}, at=other)
        describe(*sets)
        summary = ropepeach.mirror(server.base, "--json", folder=f"m-{at[12]}").succeeded().summary()
        assert summary["moment"] == FIRST
        assert summary["exact"] is True


def test_a_folder_with_one_set_that_changes_is_as_of_the_earliest(ropepeach: Ropepeach, server: Server) -> None:
    """One set has changes up to FOURTH, the other has a Resource List of SECOND only."""
    first = FakeSource(server, Style("/one/", "/one-data/"))
    second = FakeSource(server, Style("/two/", "/two-data/", has_changes=False))
    first.hold({"a": b"newer"}, changes=[first.change("a", "updated", FOURTH, b"newer")], listed={"a": b"older"})
    second.hold({"b": b"b"}, at=SECOND)
    describe(first, second)
    assert ropepeach.mirror(server.base, "--json").succeeded().summary()["moment"] == SECOND


def test_a_folder_without_digests_is_not_exact(ropepeach: Ropepeach, server: Server) -> None:
    """Without a digest the line and the JSON of a run do not call the folder exact."""
    source = FakeSource(server, BARE)
    source.hold(FILES)
    result = ropepeach.mirror(server.base, "--json").succeeded()
    assert result.summary()["exact"] is False
    assert "not exact" in result.summary()["text"]


def test_a_folder_with_lengths_only_is_not_exact(ropepeach: Ropepeach, server: Server) -> None:
    source = FakeSource(server, Style(digests=()))
    source.hold(FILES)
    assert ropepeach.mirror(server.base, "--json").succeeded().summary()["exact"] is False


def test_a_folder_without_a_moment_is_not_exact(ropepeach: Ropepeach, server: Server) -> None:
    source = FakeSource(server, Style(has_at=False, has_changes=False))
    source.hold(FILES)
    assert ropepeach.mirror(server.base, "--json").succeeded().summary()["exact"] is False


def test_a_folder_with_digests_and_a_moment_is_exact(ropepeach: Ropepeach, source: FakeSource) -> None:
    source.hold(FILES)
    summary = ropepeach.mirror(source.base, "--json").succeeded().summary()
    assert (summary["exact"], summary["moment"]) == (True, FIRST)


def test_a_part_of_a_later_change_list_loses_no_change(
        ropepeach: Ropepeach, mirror: Mirror, server: Server) -> None:
    """The index is of the list of FIRST; its part is read once it belongs to a list that begins at THIRD."""
    source = FakeSource(server, Style(change_part=2))
    later = FILES | {"x": b"created at SECOND"}
    source.hold(later, changes=[source.change("x", "created", SECOND, later["x"])], listed=FILES)
    server.at_path("/rs/changelist-0.xml", lambda: source.hold(later, at=THIRD, start=THIRD))
    result = ropepeach.mirror(server.base)
    if result.status == 0:
        assert mirror.held(source) == later
    ropepeach.mirror(server.base).succeeded()
    assert mirror.held(source) == later


def test_removals_of_resources_that_turn_out_to_be_gone_count_against_the_limit(
        ropepeach: Ropepeach, source: FakeSource, mirror: Mirror) -> None:
    """All resources were updated and deleted within one moment, so the run requests them, and gets 404."""
    source.hold(FILES)
    ropepeach.mirror(source.base).succeeded()
    source.later({}, [change for name in FILES for change in (
        source.change(name, "updated", SECOND, b"newer"), source.change(name, "deleted", SECOND))])
    ropepeach.mirror(source.base, "--max-delete", 1).failed()
    assert len(mirror.held(source)) >= len(FILES) - 1


def test_a_resource_that_goes_during_a_baseline_is_no_fault(
        ropepeach: Ropepeach, server: Server, mirror: Mirror) -> None:
    source = FakeSource(server, Style(has_changes=False))
    source.hold(FILES)
    left = {name: body for name, body in FILES.items() if name != "b"}
    server.at_path("/data/b", lambda: source.hold(left))
    ropepeach.mirror(server.base).succeeded()
    assert mirror.held(source) == left


def test_a_refused_baseline_leaves_the_position(
        ropepeach: Ropepeach, source: FakeSource, mirror: Mirror) -> None:
    source.hold(FILES)
    ropepeach.mirror(source.base).succeeded()
    state = mirror.path.joinpath("#state").read_bytes()
    source.hold({"a": FILES["a"]})
    ropepeach.mirror(source.base, "--baseline").failed("would be removed")
    assert mirror.path.joinpath("#state").read_bytes() == state
    assert mirror.held(source) == FILES


@pytest.mark.parametrize("is_turned", [False, True])
def test_of_two_sets_the_newer_entry_of_a_resource_counts(
        ropepeach: Ropepeach, server: Server, mirror: Mirror, is_turned: bool) -> None:
    older, newer = (FakeSource(server, Style(lists=lists, has_changes=False)) for lists in ("/older/", "/newer/"))
    for source, moment, body in ((older, FIRST, b"older"), (newer, SECOND, b"newer")):
        source.hold({"a": body})
        source.put_resource_list([source.resource("a", body, moment)])
    describe(*(newer, older) if is_turned else (older, newer))
    ropepeach.mirror(server.base).succeeded()
    assert mirror.held(newer) == {"a": b"newer"}
