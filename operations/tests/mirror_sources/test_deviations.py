"""What a source cannot give now is no deletion: unread entries, moved resources, dead resources and dead lists."""
from __future__ import annotations

import json

import pytest

from operations.tests.harness.command import FOLDER, Ropepeach
from operations.tests.harness.documents import document, entry
from operations.tests.harness.folder import Mirror
from operations.tests.harness.server import Response, Server, serving
from operations.tests.harness.source import FIRST, SECOND, WELL_KNOWN, FakeSource, OwnSource, Style, describe, only

FILES = {name: f"body of {name}".encode() for name in ("a", "b", "c", "d")}
NO_CHANGES = Style(has_changes=False)


@pytest.mark.parametrize("address", ["http://elsewhere.example/data/c", "http://elsewhere.example/new/c", "urn:c", ""])
def test_an_entry_that_is_passed_over_deletes_nothing(
        ropepeach: Ropepeach, server: Server, mirror: Mirror, address: str) -> None:
    source = FakeSource(server, NO_CHANGES)
    source.hold(FILES)
    ropepeach.mirror(server.base).succeeded()
    listed = [source.resource(name, body) for name, body in only("abd", FILES).items()]
    source.put_resource_list([*listed, entry(address, FIRST, **source.facts(FILES["c"]))], SECOND)
    ropepeach.mirror(server.base).failed("1 files stay", "/data/c")
    assert mirror.held(source) == FILES
    ropepeach("check", FOLDER).succeeded()


@pytest.mark.parametrize(("address", "remedy"), [("http://elsewhere.example/a", "--host elsewhere.example"),
                                                 ("urn:a", "no address")])
def test_lists_whose_entries_are_all_passed_over_end_the_run(
        ropepeach: Ropepeach, server: Server, mirror: Mirror, address: str, remedy: str) -> None:
    source = FakeSource(server, NO_CHANGES)
    source.hold({})
    source.put_resource_list([entry(address, FIRST, **source.facts(b"a"))])
    ropepeach.mirror(server.base).failed("passed over", remedy)
    assert not mirror.path.exists()


@pytest.mark.parametrize("status", [404, 410])
def test_a_dead_resource_is_named_and_asked_for_by_each_run_until_it_comes(
        ropepeach: Ropepeach, source: FakeSource, mirror: Mirror, server: Server, status: int) -> None:
    source.hold(FILES)
    server.put("/data/b", Response(b"", status))
    ropepeach.mirror(server.base).failed("/data/b", str(status))
    assert mirror.held(source) == only("acd", FILES)
    later = FILES | {"a": b"newer a"}
    source.later(only("acd", later), [source.change("a", "updated", SECOND, later["a"])])
    result = ropepeach.mirror(server.base).failed("/data/b")
    assert (result.way(), mirror.held(source)) == ("incremental", only("acd", later))
    summary = ropepeach.mirror(server.base, "--ignore-missing", "--json").succeeded().summary()
    assert (summary["way"], summary["exact"], summary["rule"]["name"]) == ("incremental", False, "held")
    source.put_resource("b", FILES["b"])
    summary = ropepeach.mirror(server.base, "--json").succeeded().summary()
    assert (summary["way"], summary["exact"], mirror.held(source)) == ("incremental", True, later)


def test_a_state_with_a_malformed_missing_resource_leads_nowhere_outside(
        ropepeach: Ropepeach, source: FakeSource, mirror: Mirror, server: Server) -> None:
    source.hold(FILES)
    server.put("/data/b", Response(b"", 404))
    ropepeach.mirror(server.base).ended(1)
    path = mirror.path / "#state"
    state = json.loads(path.read_text())
    [found] = state["missing"].values()
    path.write_text(json.dumps(state | {"missing": {"../../outside": found}}))
    source.put_resource("b", FILES["b"])
    ropepeach.mirror(server.base)
    assert not (mirror.path.parent / "outside").exists() and not (mirror.path.parent.parent / "outside").exists()


def test_a_dead_resource_of_a_ropepeach_still_ends_the_run(
        ropepeach: Ropepeach, own: OwnSource, mirror: Mirror, server: Server) -> None:
    own.put(FILES)
    server.put("/resource/b", Response(b"", 404))
    ropepeach.mirror_own(own.base, "--ignore-missing").failed("/resource/b", "run it again")
    assert json.loads((mirror.path / "#state").read_text())["until"] is None


def two_sets(server: Server) -> tuple[FakeSource, FakeSource]:
    """Serve two sets of resources."""
    first = FakeSource(server, Style("/one/", "/one-data/"))
    second = FakeSource(server, Style("/two/", "/two-data/"))
    first.hold(FILES)
    second.hold({"x": b"x", "y": b"y"})
    describe(first, second)
    return first, second


@pytest.mark.parametrize("dead", ["capabilitylist.xml", "resourcelist.xml"])
def test_a_dead_list_of_one_set_stops_only_this_set(
        ropepeach: Ropepeach, server: Server, mirror: Mirror, dead: str) -> None:
    first, second = two_sets(server)
    ropepeach.mirror(server.base).succeeded()
    gone = server.responses.pop(f"/two/{dead}")
    first.later(FILES | {"a": b"newer a"}, [first.change("a", "updated", SECOND, b"newer a")])
    ropepeach.mirror(server.base, "--baseline").failed(f"/two/{dead}")
    assert mirror.place(first, "a").read_bytes() == b"newer a"
    assert mirror.place(second, "x").read_bytes() == b"x"
    server.responses[f"/two/{dead}"] = gone
    second.later({"x": b"newer x", "y": b"y"}, [second.change("x", "updated", SECOND, b"newer x")])
    ropepeach.mirror(server.base).succeeded()
    assert mirror.place(second, "x").read_bytes() == b"newer x"


def test_one_dead_sitemap_of_three_stops_only_this_one(
        ropepeach: Ropepeach, server: Server, source: FakeSource, mirror: Mirror) -> None:
    for name in "abc":
        source.put_resource(name, FILES[name])
        source.put_list(f"{name}.xml", document([source.resource(name, FILES[name])]))
    server.put("/robots.txt", "".join(f"Sitemap: {source.list_url(name)}.xml\n" for name in "abc"))
    ropepeach.mirror(server.base).succeeded()
    del server.responses["/rs/b.xml"]
    ropepeach.mirror(server.base).failed("/rs/b.xml", "404")
    assert mirror.held(source) == only("abc", FILES)


def test_one_dead_part_of_a_resource_list_stops_only_this_part(
        ropepeach: Ropepeach, server: Server, mirror: Mirror) -> None:
    source = FakeSource(server, Style(part=1, has_changes=False))
    source.hold(FILES)
    ropepeach.mirror(server.base).succeeded()
    del server.responses["/rs/resourcelist-1.xml"]
    ropepeach.mirror(server.base).failed("/rs/resourcelist-1.xml", "404")
    assert mirror.held(source) == FILES


def test_a_failed_first_run_of_a_collection_leaves_no_mark(
        ropepeach: Ropepeach, server: Server, own: OwnSource, mirror: Mirror) -> None:
    """The Source Description names two sources whose capability lists are gone; the right command names one source."""
    own.put(FILES)
    with serving() as whole:
        bases = [f"{whole.base}/{name}" for name in ("one", "two")]
        named = [entry(f"{base}/capabilitylist.xml", capability="capabilitylist") for base in bases]
        whole.put(WELL_KNOWN, document(named, capability="description"))
        whole.put(f"/one{WELL_KNOWN}", document(named[:1], capability="description"))
        assert ropepeach("mirror", whole.base, FOLDER).status != 0
    ropepeach.mirror_own(own.base).succeeded()
    assert mirror.path.joinpath("a").read_bytes() == FILES["a"]
