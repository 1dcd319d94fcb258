"""Dumps: large archives, archives of several moments, and archives other than the listed ones."""
from __future__ import annotations

import pytest

from operations.tests.harness.command import Ropepeach
from operations.tests.harness.folder import Mirror
from operations.tests.harness.server import Server
from operations.tests.harness.source import FIRST, SECOND, THIRD, FakeSource, Style, describe

FILES = {name: f"body of {name}".encode() for name in ("a", "b", "c")}
ALONE = Style(dump="alone")
BESIDE = Style(dump="beside")


@pytest.mark.parametrize("style", [ALONE, BESIDE])
def test_an_archive_of_9_mib_is_taken(ropepeach: Ropepeach, server: Server, mirror: Mirror, style: Style) -> None:
    """Its directory is short, and begins after more than 8 MiB."""
    source = FakeSource(server, style)
    files = FILES | {"large": b"\0" * (9 << 20)}
    source.hold(files)
    result = ropepeach.mirror(server.base, "--dumps").succeeded()
    assert mirror.held(source) == files
    assert server.paths("/data/") == [], result.errors


def test_archives_of_two_moments_lose_no_change(ropepeach: Ropepeach, server: Server, mirror: Mirror) -> None:
    """`a` comes from an archive of FIRST, and changed at SECOND; the other archive and the dump are of THIRD."""
    source = FakeSource(server, ALONE)
    later = FILES | {"a": b"newer a"}
    source.hold(later, changes=[source.change("a", "updated", SECOND, later["a"])], listed=FILES)
    source.put_dump({"1.zip": source.archive({"a": FILES["a"]}, FIRST),
                     "2.zip": source.archive({"b": FILES["b"], "c": FILES["c"]}, THIRD)}, THIRD)
    summary = ropepeach.mirror(server.base, "--json").succeeded().summary()
    assert mirror.held(source) == later
    assert summary["moment"] in (FIRST, SECOND)


def test_archives_of_two_moments_in_the_other_order_lose_no_change(
        ropepeach: Ropepeach, server: Server, mirror: Mirror) -> None:
    source = FakeSource(server, ALONE)
    later = FILES | {"a": b"newer a"}
    source.hold(later, changes=[source.change("a", "updated", SECOND, later["a"])], listed=FILES)
    source.put_dump({"2.zip": source.archive({"b": FILES["b"], "c": FILES["c"]}, THIRD),
                     "1.zip": source.archive({"a": FILES["a"]}, FIRST)}, FIRST)
    ropepeach.mirror(server.base).succeeded()
    assert mirror.held(source) == later


@pytest.mark.parametrize("digests", [(), ("sha-256",)])
def test_an_archive_of_another_day_than_listed_is_not_taken(
        ropepeach: Ropepeach, server: Server, mirror: Mirror, digests: tuple[str, ...]) -> None:
    """The archive has the listed length and a valid form, but not the listed digest."""
    source = FakeSource(server, Style(dump="alone", digests=digests, has_changes=False))
    source.hold(FILES)
    source.put_list("dump.zip", source.archive({name: body.replace(b"body", b"BODY") for name, body in FILES.items()}))
    ropepeach.mirror(server.base).failed("dump.zip")
    assert mirror.held(source) == {}
    source.hold(FILES)
    ropepeach.mirror(server.base).succeeded()
    assert mirror.held(source) == FILES


def test_a_wrong_dump_beside_the_lists_is_passed_over(
        ropepeach: Ropepeach, server: Server, mirror: Mirror) -> None:
    """The lists have digests: the run reports the dump, and fetches the resources one by one."""
    source = FakeSource(server, BESIDE)
    source.hold(FILES)
    source.put_list("dump.zip", b"no archive")
    assert "dump.zip" in ropepeach.mirror(server.base, "--dumps").succeeded().errors
    assert mirror.held(source) == FILES
    assert sorted(server.paths("/data/")) == ["/data/a", "/data/b", "/data/c"]


def test_a_dump_whose_bodies_differ_from_the_lists_brings_nothing_wrong(
        ropepeach: Ropepeach, server: Server, mirror: Mirror) -> None:
    source = FakeSource(server, BESIDE)
    source.hold(FILES)
    source.put_dump({"dump.zip": source.archive(FILES | {"b": b"older b!!"})})
    ropepeach.mirror(server.base, "--dumps").succeeded()
    assert mirror.held(source) == FILES
    assert server.paths("/data/") == ["/data/b"]


def test_a_dump_alone_is_followed_by_its_change_list(
        ropepeach: Ropepeach, server: Server, mirror: Mirror) -> None:
    source = FakeSource(server, ALONE)
    source.hold(FILES)
    ropepeach.mirror(server.base).succeeded()
    assert server.paths("/data/") == []
    later = FILES | {"a": b"newer a"}
    source.later(later, [source.change("a", "updated", SECOND, later["a"])])
    assert ropepeach.mirror(server.base).succeeded().way() == "incremental"
    assert mirror.held(source) == later


def test_one_of_two_sets_may_be_a_dump(ropepeach: Ropepeach, server: Server, mirror: Mirror) -> None:
    first = FakeSource(server, Style("/one/", "/one-data/"))
    second = FakeSource(server, Style("/two/", "/two-data/", dump="alone"))
    first.hold(FILES)
    second.hold({"x": b"of a dump"})
    describe(first, second)
    ropepeach.mirror(server.base).succeeded()
    assert mirror.place(second, "x").read_bytes() == b"of a dump"
    assert ropepeach.mirror(server.base).succeeded().way() == "incremental"
