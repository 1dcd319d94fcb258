"""A run finds the lists of a source from any of its addresses, contacts no other host, and reads a list once."""
from __future__ import annotations

import pytest

from operations.tests.harness.command import Ropepeach
from operations.tests.harness.documents import document, entry, link, page
from operations.tests.harness.folder import Mirror
from operations.tests.harness.server import Response, Server, redirect, serving
from operations.tests.harness.source import WELL_KNOWN, FIRST, FakeSource, describe

FILES = {name: f"body of {name}".encode() for name in ("a", "b", "c")}


def test_a_list_whose_up_link_leads_to_another_host_is_mirrored_alone(
        ropepeach: Ropepeach, source: FakeSource, mirror: Mirror) -> None:
    """The run does not contact the other host, and continues."""
    source.hold(FILES)
    with serving() as other:
        above = f"http://localhost:{other.port}/capabilitylist.xml"
        listed = [source.resource(name, body) for name, body in FILES.items()]
        source.put_list("resourcelist.xml", document(listed, links=link("up", above), capability="resourcelist",
                                                     at=FIRST))
        ropepeach.mirror(source.list_url("resourcelist.xml")).succeeded()
        assert other.requests == []
    assert mirror.held(source) == FILES


def test_a_list_leads_to_its_change_list_by_its_up_link(
        ropepeach: Ropepeach, source: FakeSource, mirror: Mirror) -> None:
    source.hold(FILES)
    ropepeach.mirror(source.list_url("resourcelist.xml")).succeeded()
    assert ropepeach.mirror(source.list_url("resourcelist.xml")).succeeded().way() == "incremental"


@pytest.mark.parametrize("is_field", [True, False])
def test_links_of_a_redirected_page_are_relative_to_where_it_lies(
        ropepeach: Ropepeach, source: FakeSource, mirror: Mirror, server: Server, is_field: bool) -> None:
    """`/start` redirects to `/rs/page`, whose link `capabilitylist.xml` lies below `/rs/`."""
    source.hold(FILES)
    server.put("/start", redirect("/rs/page"))
    if is_field:
        server.put("/rs/page", Response(page("").encode(),
                                        fields={"Link": '<capabilitylist.xml>; rel="resourcesync"'}))
    else:
        server.put("/rs/page", page('<link rel="resourcesync" href="capabilitylist.xml">'))
    ropepeach.mirror(f"{server.base}/start").succeeded()
    assert mirror.held(source) == FILES
    assert "/capabilitylist.xml" not in server.paths()


@pytest.mark.parametrize("where", ["description", "page", "robots"])
def test_a_list_that_is_named_twice_counts_once(
        ropepeach: Ropepeach, source: FakeSource, mirror: Mirror, server: Server, where: str) -> None:
    """The second run is an increment; it could not be one if the set counted twice."""
    source.hold(FILES)
    above = source.list_url("capabilitylist.xml")
    url = f"{server.base}/"
    if where == "description":
        describe(source, source)
    else:
        del server.responses[WELL_KNOWN]
        if where == "page":
            url = f"{server.base}/start"
            targets = (above, "/rs/capabilitylist.xml")
            server.put("/start", page("".join(f'<link rel="resourcesync" href="{target}">' for target in targets)))
        else:
            server.put("/", page(""))
            server.put("/robots.txt", f"User-agent: *\nSitemap: {above}\nSitemap: {above}\n")
    ropepeach.mirror(url).succeeded()
    assert mirror.held(source) == FILES
    assert ropepeach.mirror(url).succeeded().way() == "incremental"


def test_an_index_of_descriptions_leads_to_all_sets(
        ropepeach: Ropepeach, source: FakeSource, mirror: Mirror, server: Server) -> None:
    source.hold(FILES)
    description = server.responses[WELL_KNOWN]
    server.put("/rs/description.xml", description)
    server.put(WELL_KNOWN, document([entry(source.list_url("description.xml"), tag="sitemap")], "sitemapindex",
                                    capability="description"))
    ropepeach.mirror(server.base).succeeded()
    assert mirror.held(source) == FILES


def test_a_sitemap_of_robots_txt_is_mirrored(ropepeach: Ropepeach, source: FakeSource, mirror: Mirror,
                                             server: Server) -> None:
    for name, body in FILES.items():
        source.put_resource(name, body)
    source.put_list("sitemap.xml", document([source.resource(name, body) for name, body in FILES.items()]))
    server.put("/robots.txt", f"User-agent: *\nDisallow:\n\nsitemap : {source.list_url('sitemap.xml')}\n")
    summary = ropepeach.mirror(server.base, "--json").succeeded().summary()
    assert mirror.held(source) == FILES
    assert summary["exact"] is False


@pytest.mark.parametrize("path", ["", "/nowhere"])
def test_an_address_without_a_list_names_itself_and_leaves_no_folder(
        ropepeach: Ropepeach, server: Server, mirror: Mirror, path: str) -> None:
    ropepeach.mirror(server.base + path).failed(server.base + path, "leads to no list of a source; ")
    assert not mirror.path.exists()


def test_a_resource_of_another_host_is_passed_over_and_named_in_the_summary(
        ropepeach: Ropepeach, source: FakeSource, mirror: Mirror) -> None:
    source.hold(FILES)
    listed = [source.resource(name, body) for name, body in FILES.items()]
    source.put_resource_list([*listed, entry("http://elsewhere.example/x", FIRST, length="1")])
    summary = ropepeach.mirror(source.base, "--json").succeeded().summary()
    assert mirror.held(source) == FILES
    assert (sum(summary["passed"].values()), summary["exact"]) == (1, False)
