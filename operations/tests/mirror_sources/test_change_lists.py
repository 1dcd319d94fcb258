"""The mirror loses no change and accepts right bytes, whatever the moments and the order of the lists."""
from __future__ import annotations

import pytest

from operations.tests.harness.command import Ropepeach
from operations.tests.harness.folder import Mirror
from operations.tests.harness.server import Server
from operations.tests.harness.source import FIRST, FOURTH, SECOND, THIRD, FakeSource, Style

FILES = {name: f"body of {name}".encode() for name in ("a", "b", "c", "d")}


def test_right_bytes_are_taken_whichever_of_three_changes_of_one_moment_lists_them(
        ropepeach: Ropepeach, source: FakeSource, mirror: Mirror) -> None:
    """Three resources have three changes of one moment; the source holds the first, second or third body."""
    source.hold(FILES)
    ropepeach.mirror(source.base).succeeded()
    bodies = [b"bytes of the first", b"bytes of the second", b"bytes of the third"]
    changes = [source.change(name, "updated", SECOND, body) for name in "abc" for body in bodies]
    later = FILES | dict(zip("abc", bodies))
    source.later(later, changes)
    ropepeach.mirror(source.base).succeeded()
    assert mirror.held(source) == later


def test_a_resource_that_was_deleted_and_made_in_one_moment_is_asked_for(
        ropepeach: Ropepeach, source: FakeSource, mirror: Mirror) -> None:
    source.hold(FILES)
    ropepeach.mirror(source.base).succeeded()
    changes = [source.change("a", "deleted", SECOND), source.change("a", "created", SECOND, b"made again"),
               source.change("b", "updated", SECOND, b"not any more"), source.change("b", "deleted", SECOND)]
    later = {"a": b"made again", "c": FILES["c"], "d": FILES["d"]}
    source.later(later, changes)
    ropepeach.mirror(source.base).succeeded()
    assert mirror.held(source) == later


def test_changes_of_the_moment_of_the_last_one_are_not_missed(
        ropepeach: Ropepeach, source: FakeSource, mirror: Mirror) -> None:
    source.hold(FILES)
    first = source.change("a", "updated", SECOND, b"newer a")
    source.later(FILES | {"a": b"newer a"}, [first])
    ropepeach.mirror(source.base).succeeded()
    later = FILES | {"a": b"newer a", "b": b"newer b"}
    source.later(later, [source.change("b", "updated", SECOND, b"newer b"), first])
    assert ropepeach.mirror(source.base).succeeded().way() == "incremental"
    assert mirror.held(source) == later


def test_an_index_with_a_later_moment_than_its_parts_loses_no_change(
        ropepeach: Ropepeach, server: Server, mirror: Mirror) -> None:
    """The parts are of FIRST, the index of THIRD, and a change of SECOND lies between them."""
    source = FakeSource(server, Style(part=2))
    later = FILES | {"a": b"newer a"}
    source.hold(later, changes=[source.change("a", "updated", SECOND, later["a"])], listed=FILES)
    entries = [source.resource(name, body) for name, body in FILES.items()]
    source.list_in_parts("resourcelist.xml", entries, 2, {"at": THIRD}, [{"at": FIRST}, {"at": SECOND}])
    ropepeach.mirror(server.base).succeeded()
    assert mirror.held(source) == later


def test_an_index_with_an_earlier_moment_than_its_parts_loses_no_change(
        ropepeach: Ropepeach, server: Server, mirror: Mirror) -> None:
    source = FakeSource(server, Style(part=2))
    later = FILES | {"a": b"newer a"}
    source.hold(later, changes=[source.change("a", "updated", SECOND, later["a"])], listed=FILES)
    entries = [source.resource(name, body) for name, body in FILES.items()]
    source.list_in_parts("resourcelist.xml", entries, 2, {"at": FIRST}, [{"at": THIRD}, {"at": THIRD}])
    ropepeach.mirror(server.base).succeeded()
    assert mirror.held(source) == later


def unsorted(source: FakeSource) -> tuple[dict[str, bytes], list[str]]:
    """Return files, and an unsorted Change List to them: its newest change comes first."""
    later = FILES | {"a": b"third a", "b": b"second b"}
    return later, [source.change("a", "updated", THIRD, later["a"]), source.change("b", "updated", SECOND, later["b"]),
                   source.change("a", "updated", SECOND, b"second a")]


def test_an_unsorted_change_list_is_taken_in_the_order_of_its_moments(
        ropepeach: Ropepeach, source: FakeSource, mirror: Mirror) -> None:
    source.hold(FILES)
    ropepeach.mirror(source.base).succeeded()
    later, changes = unsorted(source)
    source.later(later, changes)
    summary = ropepeach.mirror(source.base, "--json").succeeded().summary()
    assert mirror.held(source) == later
    assert (summary["way"], summary["moment"]) == ("incremental", THIRD)


def test_an_unsorted_change_list_is_followed_from_its_newest_moment(
        ropepeach: Ropepeach, source: FakeSource, mirror: Mirror, server: Server) -> None:
    """A later list without the older changes has every change that the next increment needs."""
    source.hold(FILES)
    later, changes = unsorted(source)
    source.later(later, changes)
    ropepeach.mirror(source.base).succeeded()
    later |= {"c": b"fourth c"}
    source.later(later, [source.change("c", "updated", FOURTH, b"fourth c"), changes[0]])
    source.put_change_list([source.change("c", "updated", FOURTH, b"fourth c"), changes[0]], start=THIRD)
    assert ropepeach.mirror(source.base).succeeded().way() == "incremental"
    assert mirror.held(source) == later


def test_a_vague_moment_does_not_take_the_folder_back(
        ropepeach: Ropepeach, source: FakeSource, mirror: Mirror) -> None:
    """A change of `2013-01-03` may be older or newer than SECOND: the folder keeps the moment SECOND."""
    source.hold(FILES)
    source.later(FILES | {"a": b"second a"}, [source.change("a", "updated", SECOND, b"second a")])
    ropepeach.mirror(source.base).succeeded()
    later = FILES | {"a": b"second a", "b": b"some time b"}
    source.put_resource("b", later["b"])
    source.put_change_list([source.change("b", "updated", "2013-01-03", later["b"])], start=SECOND)
    summary = ropepeach.mirror(source.base, "--json").succeeded().summary()
    assert (summary["way"], summary["moment"]) == ("incremental", SECOND)
    assert mirror.held(source) == later


@pytest.mark.parametrize("moment", ["2013-01-03T11:00:00+01:00", "2013-01-03T10:00Z", "2013-01-03T10:00:00.000Z"])
def test_moments_of_each_form_are_compared_as_instants(
        ropepeach: Ropepeach, source: FakeSource, mirror: Mirror, moment: str) -> None:
    source.hold(FILES)
    ropepeach.mirror(source.base).succeeded()
    later = FILES | {"a": b"second a"}
    source.later(later, [source.change("a", "updated", moment, b"second a")])
    assert ropepeach.mirror(source.base).succeeded().way() == "incremental"
    assert mirror.held(source) == later


def test_a_second_update_within_a_moment_is_fetched(
        ropepeach: Ropepeach, source: FakeSource, mirror: Mirror) -> None:
    """The mirror has the first body of SECOND; the source may have either one, so the run asks for it."""
    source.hold(FILES)
    first = source.change("a", "updated", SECOND, b"earlier a")
    source.later(FILES | {"a": b"earlier a"}, [first])
    ropepeach.mirror(source.base).succeeded()
    later = FILES | {"a": b"later a"}
    source.later(later, [first, source.change("a", "updated", SECOND, b"later a")])
    ropepeach.mirror(source.base).succeeded()
    assert mirror.held(source) == later
