"""A run keeps its limits of bytes, time and digests; fetched files stay, and the next run resumes."""
from __future__ import annotations

import time

import pytest

from operations.tests.harness.command import FOLDER, Ropepeach
from operations.tests.harness.folder import Mirror
from operations.tests.harness.documents import entry
from operations.tests.harness.server import Response, Server, serving
from operations.tests.harness.source import FIRST, SECOND, FakeSource, Style

FILES = {f"{number:02}": bytes([number]) * 100_000 for number in range(15)}


def test_max_bytes_stops_a_run_and_the_next_run_fetches_only_the_rest(
        ropepeach: Ropepeach, source: FakeSource, mirror: Mirror, server: Server) -> None:
    source.hold(FILES)
    ropepeach.mirror(server.base, "--max-bytes", "512KiB").failed("--max-bytes")
    kept = mirror.held(source)
    assert kept.items() <= FILES.items()
    assert 3 <= len(kept) <= 5
    server.requests.clear()
    ropepeach.mirror(server.base).succeeded()
    assert mirror.held(source) == FILES
    assert sorted(server.paths("/data/")) == sorted(f"/data/{name}" for name in FILES if name not in kept)


def test_max_duration_stops_a_run_against_a_slow_source(
        ropepeach: Ropepeach, source: FakeSource, mirror: Mirror, server: Server) -> None:
    source.hold(FILES)
    for name, body in FILES.items():
        server.put(f"/data/{name}", Response(body, delay=0.2))
    ropepeach.mirror(server.base, "--max-duration", "1").failed("--max-duration")
    source.hold(FILES)
    ropepeach.mirror(server.base).succeeded()
    assert mirror.held(source) == FILES


def test_a_second_run_without_changes_fetches_no_resource(
        ropepeach: Ropepeach, source: FakeSource, server: Server) -> None:
    source.hold(FILES)
    ropepeach.mirror(server.base).succeeded()
    server.requests.clear()
    ropepeach.mirror(server.base).succeeded()
    assert server.paths("/data/") == []


@pytest.mark.parametrize("has_changes", [True, False])
def test_a_source_without_digests_is_asked_by_conditions(
        ropepeach: Ropepeach, server: Server, mirror: Mirror, has_changes: bool) -> None:
    """A baseline sends conditional requests, and fetches the changed file only."""
    source = FakeSource(server, Style(digests=(), is_dated=False, has_changes=has_changes))
    source.hold(FILES)
    ropepeach.mirror(server.base).succeeded()
    server.requests.clear()
    later = FILES | {"03": b"other" * 20_000}
    source.hold(later)
    ropepeach.mirror(server.base, "--baseline").succeeded()
    statuses = {request.path: request.status for request in server.requests if request.path.startswith("/data/")}
    assert statuses == {f"/data/{name}": 200 if name == "03" else 304 for name in FILES}
    assert mirror.held(source) == later


@pytest.mark.parametrize("error", [404, 410, 403, 500])
def test_a_failing_resource_is_named_and_the_rest_arrives(
        ropepeach: Ropepeach, source: FakeSource, mirror: Mirror, server: Server, error: int) -> None:
    source.hold({"good": b"1", "bad": b"2"})
    server.put("/data/bad", Response(b"", error))
    ropepeach.mirror(server.base).failed("/data/bad", str(error))
    assert mirror.held(source) == {"good": b"1"}


def test_several_connections_bring_the_same_folder(
        ropepeach: Ropepeach, source: FakeSource, mirror: Mirror) -> None:
    source.hold(FILES)
    ropepeach.mirror(source.base, "--connections", 3, *mirror.on_change).succeeded()
    assert mirror.held(source) == FILES
    assert sorted(mirror.changes(source)) == [("created", name) for name in FILES]


def test_required_digests_refuse_lists_with_less_before_anything_is_fetched(
        ropepeach: Ropepeach, server: Server, mirror: Mirror) -> None:
    source = FakeSource(server, Style(digests=("md5",)))
    source.hold(FILES)
    ropepeach.mirror(server.base, "--require", "sha-256").failed("--require sha-256")
    assert server.paths("/data/") == []
    ropepeach.mirror(server.base, "--require", "md5").succeeded()
    assert mirror.held(source) == FILES


def test_a_condition_goes_to_its_own_address_only(
        ropepeach: Ropepeach, server: Server, mirror: Mirror) -> None:
    """The request for a new file has no condition, even after files with a known `Last-Modified`."""
    server.has_tags = False
    source = FakeSource(server, Style(digests=(), is_dated=False, has_changes=False))
    source.hold({"a": b"one", "b": b"two"})
    ropepeach.mirror(server.base).succeeded()
    server.requests.clear()
    source.hold({"a": b"one", "b": b"two", "c": b"three"})
    ropepeach.mirror(server.base).succeeded()
    conditions = {request.path: "if-modified-since" in request.fields for request in server.requests
                  if request.path.startswith("/data/")}
    assert conditions == {"/data/a": True, "/data/b": True, "/data/c": False}
    assert mirror.held(source) == {"a": b"one", "b": b"two", "c": b"three"}


def test_the_source_says_when_to_ask_again(ropepeach: Ropepeach, source: FakeSource, server: Server) -> None:
    source.hold({"a": b"one"})
    server.put("/data/a", [Response(status=503, fields={"Retry-After": "2"}), Response(b"one")])
    started = time.monotonic()
    ropepeach.mirror(server.base).succeeded()
    assert time.monotonic() - started >= 2


@pytest.mark.parametrize("path", ["/rs/resourcelist.xml", "/data/a"])
def test_an_answer_takes_no_longer_than_max_time(
        ropepeach: Ropepeach, source: FakeSource, server: Server, path: str) -> None:
    source.hold({"a": b"one"})
    found = server.responses[path]
    assert isinstance(found, Response)
    server.put(path, Response(found.body, delay=4))
    ropepeach.mirror(server.base, "--max-time", "1").failed(path, "longer than 1 seconds")


def test_a_body_in_many_pieces_is_counted_once(ropepeach: Ropepeach, source: FakeSource, mirror: Mirror) -> None:
    """A body of 8 MB is within --max-bytes of 9 MB."""
    files = {"large": bytes(range(250)) * 32_000}
    source.hold(files)
    ropepeach.mirror(source.base, "--max-bytes", 9_000_000).succeeded()
    assert mirror.held(source) == files


def test_an_increment_does_not_forget_that_entries_were_passed_over(
        ropepeach: Ropepeach, source: FakeSource) -> None:
    source.hold({"a": b"one"})
    source.put_resource_list([source.resource("a", b"one"),
                              entry("http://elsewhere.example.org/x", FIRST, **source.facts(b"x"))])
    first = ropepeach.mirror(source.base, "--json").succeeded().summary()
    source.later({"a": b"two"}, [source.change("a", "updated", SECOND, b"two")])
    later = ropepeach.mirror(source.base, "--json").succeeded().summary()
    assert (first["way"], later["way"]) == ("baseline", "incremental")
    for summary in (first, later):
        assert (summary["exact"], summary["passed"]) == (False, {"of other hosts": 1})


def test_a_file_that_stays_is_still_known(ropepeach: Ropepeach, source: FakeSource) -> None:
    """A file from a host that is no longer allowed stays, and `check` knows it."""
    with serving() as other:
        other.put("/x", b"x")
        source.hold({"a": b"one"})
        source.put_resource_list([source.resource("a", b"one"), entry(f"{other.base}/x", FIRST, **source.facts(b"x"))])
        ropepeach.mirror(source.base, "--host", other.base.removeprefix("http://")).succeeded()
        ropepeach.mirror(source.base, "--baseline").ended(1)
    ropepeach("check", FOLDER).succeeded()


def test_a_file_that_is_not_as_it_came_is_asked_for_without_a_condition(
        ropepeach: Ropepeach, server: Server, mirror: Mirror) -> None:
    """A 304 would leave `a` damaged, and `b` missing."""
    source = FakeSource(server, Style(digests=(), is_dated=False, has_changes=False))
    files = {"a": b"one", "b": b"two", "c": b"three"}
    source.hold(files)
    ropepeach.mirror(server.base).succeeded()
    mirror.damage(mirror.place(source, "a"))
    mirror.place(source, "b").unlink()
    ropepeach.mirror(server.base).succeeded()
    assert mirror.held(source) == files
