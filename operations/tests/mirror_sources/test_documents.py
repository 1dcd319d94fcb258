"""Documents are read by the standard: byte order marks, indented texts, vague moments, HTML heads."""
from __future__ import annotations

import time

import pytest

from operations.tests.harness.command import Ropepeach
from operations.tests.harness.documents import BYTE_ORDER_MARK, NAMESPACES, document, page
from operations.tests.harness.folder import Mirror
from operations.tests.harness.server import Server
from operations.tests.harness.source import FIRST, FakeSource, Style

FILES = {name: f"body of {name}".encode() for name in ("a", "b", "c")}


@pytest.mark.parametrize("form", ["%Y", "%Y-%m", "%Y-%m-%d"])
def test_the_current_year_month_and_day_are_moments_of_the_past(
        ropepeach: Ropepeach, source: FakeSource, mirror: Mirror, form: str) -> None:
    """A vague moment is refused as being in the future only if its first instant is."""
    at = time.strftime(form, time.gmtime())
    source.hold(FILES, at=at)
    summary = ropepeach.mirror(source.base, "--json").succeeded().summary()
    assert mirror.held(source) == FILES
    assert summary["moment"] == at


def test_a_moment_two_days_ahead_is_refused(ropepeach: Ropepeach, source: FakeSource, mirror: Mirror) -> None:
    ahead = time.strftime("%Y-%m-%dT%H:%M:%SZ", time.gmtime(time.time() + 2 * 86_400))
    source.hold(FILES, at=ahead)
    ropepeach.mirror(source.base).failed(ahead)
    assert not mirror.path.exists() or mirror.held(source) == {}


@pytest.mark.parametrize("before", [BYTE_ORDER_MARK, BYTE_ORDER_MARK + b"\n", b"", b"\n \t"])
def test_a_sitemap_alone_is_found_whatever_comes_before_its_root(
        ropepeach: Ropepeach, server: Server, mirror: Mirror, before: bytes) -> None:
    """A byte order mark or blanks before the root element (no XML declaration follows blanks)."""
    source = FakeSource(server)
    for name, body in FILES.items():
        source.put_resource(name, body)
    text = document([source.resource(name, body) for name, body in FILES.items()])
    source.put_list("sitemap.xml", before + text.partition(b"?>\n")[2])
    ropepeach.mirror(source.list_url("sitemap.xml")).succeeded()
    assert mirror.held(source) == FILES


def test_a_sitemap_with_a_byte_order_mark_and_a_declaration_is_found(
        ropepeach: Ropepeach, server: Server, mirror: Mirror) -> None:
    source = FakeSource(server)
    source.put_resource("a", FILES["a"])
    source.put_list("sitemap.xml", BYTE_ORDER_MARK + document([source.resource("a", FILES["a"])]))
    ropepeach.mirror(source.list_url("sitemap.xml")).succeeded()
    assert mirror.held(source) == {"a": FILES["a"]}


def test_indented_entries_are_read(ropepeach: Ropepeach, source: FakeSource, mirror: Mirror) -> None:
    """Line feeds and blanks around a text of `loc` or `lastmod` do not hide the entry."""
    source.hold(FILES)
    entries = [source.resource(name, body).replace("<loc>", "<loc>\n    ").replace("</loc>", "\n  </loc>")
               .replace("<lastmod>", "<lastmod>\n    ").replace("</lastmod>", "\n  </lastmod>")
               for name, body in FILES.items()]
    source.put_resource_list(entries)
    summary = ropepeach.mirror(source.base, "--json").succeeded().summary()
    assert mirror.held(source) == FILES
    assert (summary["passed"], summary["exact"]) == ({}, True)


def test_an_indented_capability_list_is_read(ropepeach: Ropepeach, source: FakeSource, mirror: Mirror) -> None:
    source.hold(FILES)
    entries = "".join(f'<url>\n  <loc>\n    {source.list_url(name)}.xml\n  </loc>\n  <rs:md capability="{name}"/>\n'
                      "</url>\n" for name in ("resourcelist", "changelist"))
    source.put_list("capabilitylist.xml", f'<urlset {NAMESPACES}>\n<rs:md capability="capabilitylist"/>\n'
                    f"{entries}</urlset>".encode())
    ropepeach.mirror(source.base).succeeded()
    assert mirror.held(source) == FILES


LINK = '<link rel="resourcesync" href="{}">'


@pytest.mark.parametrize("is_closed", [True, False])
def test_a_link_in_the_body_of_a_page_is_not_followed(
        ropepeach: Ropepeach, server: Server, mirror: Mirror, is_closed: bool) -> None:
    """The body begins with its own tag, even if the head has no end tag."""
    source, other = FakeSource(server), FakeSource(server, Style("/other/", "/other-data/"))
    other.hold({"x": b"of the page's body"})
    source.hold(FILES)
    server.put("/start", page(LINK.format(source.list_url("capabilitylist.xml")),
                              LINK.format(other.list_url("capabilitylist.xml")), is_closed))
    ropepeach.mirror(f"{server.base}/start").succeeded()
    assert mirror.held(source) == FILES
    assert server.paths("/other") == []


def test_a_page_with_a_link_in_its_body_only_leads_nowhere(ropepeach: Ropepeach, server: Server) -> None:
    source = FakeSource(server)
    source.hold(FILES)
    del server.responses["/.well-known/resourcesync"]
    server.put("/start", page("", LINK.format(source.list_url("capabilitylist.xml")), is_closed=False))
    ropepeach.mirror(f"{server.base}/start").failed("/start")
    assert server.paths("/rs/") == []


@pytest.mark.parametrize("modified", ["2013-01-03", "2013", FIRST, "2013-01-03T09:00:00.123456+02:00"])
def test_a_resource_of_any_moment_is_mirrored(
        ropepeach: Ropepeach, server: Server, mirror: Mirror, modified: str) -> None:
    source = FakeSource(server)
    source.hold(FILES)
    source.put_resource_list([source.resource(name, body, modified) for name, body in FILES.items()])
    ropepeach.mirror(server.base).succeeded()
    assert mirror.held(source) == FILES


@pytest.mark.parametrize("digests", [("md5",), ("sha-1",), ("sha-256",), ("sha-512",), ("md5", "sha-512")])
def test_each_listed_digest_is_compared(
        ropepeach: Ropepeach, server: Server, mirror: Mirror, digests: tuple[str, ...]) -> None:
    """Bytes of the listed length with another digest are refused, for any listed digests."""
    source = FakeSource(server, Style(digests=digests))
    source.hold(FILES)
    source.put_resource("b", b"Body of b")
    ropepeach.mirror(server.base).failed("/data/b")
    assert mirror.held(source) == {"a": FILES["a"], "c": FILES["c"]}
    source.put_resource("b", FILES["b"])
    assert ropepeach.mirror(server.base, "--json").succeeded().summary()["exact"] is True
    assert mirror.held(source) == FILES


def test_names_with_escapes_are_asked_for_unchanged(
        ropepeach: Ropepeach, source: FakeSource, mirror: Mirror, server: Server) -> None:
    """A query, a `;` and the case of an escape are kept; the file has the upper case, as an equivalent name has."""
    files = {"%c3%a9": b"lower", "a;b?x=1&y=2": b"query", "d/%2F": b"slash"}
    source.hold(files)
    ropepeach.mirror(server.base).succeeded()
    assert sorted(server.paths("/data/")) == sorted(f"/data/{name}" for name in files)
    assert mirror.held(source) == {"%C3%A9": b"lower", "a;b?x=1&y=2": b"query", "d/%2F": b"slash"}


def test_a_path_with_dots_is_asked_for_unchanged(
        ropepeach: Ropepeach, source: FakeSource, mirror: Mirror, server: Server) -> None:
    files = {"x/../y": b"one", "y": b"two"}
    source.hold(files)
    ropepeach.mirror(server.base).succeeded()
    assert sorted(server.paths("/data/")) == ["/data/x/../y", "/data/y"]
    assert mirror.held(source) == files


def test_bodies_are_asked_for_without_an_encoding(ropepeach: Ropepeach, source: FakeSource, server: Server) -> None:
    """A compressed body would have other bytes than listed."""
    source.hold({"a": b"one"})
    ropepeach.mirror(server.base).succeeded()
    fields = [request.fields for request in server.requests if request.path == "/data/a"]
    assert [field.get("accept-encoding") for field in fields] == ["identity"]
