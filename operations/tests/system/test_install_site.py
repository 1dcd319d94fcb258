"""Test how the site of nginx links to the lists, and sends them."""
import contextlib
import gzip
import http.client
import os
import pathlib

import pytest

from operations.tests.system.install_looks import proxied, without_tls
from operations.tests.system.install_shared import SECONDS, request

# (a client behind its own proxy)
GZIP = {"Accept-Encoding": "gzip", "Via": "1.1 cache"}
ROBOTS = b"User-agent: *\nDisallow:\nSitemap: https://source.example.org/resourcelist.xml\n"
LINK = '</capabilitylist.xml>; rel="resourcesync", </.well-known/resourcesync>; rel="resourcesync"'


def response(port: int, path: str, **sent: str) -> tuple[int, str | None, str | None, bytes]:
    """Return the status, Content-Encoding, Link and body of the response to a GET."""
    connection = http.client.HTTPConnection("127.0.0.1", port, timeout=SECONDS)
    with contextlib.closing(connection):
        connection.request("GET", path, headers=sent)
        answer = connection.getresponse()
        return answer.status, answer.getheader("Content-Encoding"), answer.getheader("Link"), answer.read()


@pytest.mark.needs("nginx")
def test_lists_are_compressed_for_clients_that_accept_gzip(program: str, room: pathlib.Path) -> None:
    """nginx caches compressed lists too; it never compresses resources."""
    with proxied(program, room) as (port, _, behind):
        for name in "abc":
            body = b"<a/>" * 500
            assert request(port, "PUT", f"/resource/{name}", body, {"Content-Type": "application/xml"})[0] == 201
        assert request(port, "POST", "/publish")[0] == 200
        for path in ["/.well-known/resourcesync", "/resourcelist.xml", "/resourcelist/1/0.xml", "/changelist/0.xml",
                     "/resourcelist/1/0.xml"]:
            plain = request(behind, "GET", path)[1]
            status, coding, _, body = response(port, path, **GZIP)
            assert (status, coding) == (200, "gzip"), path
            assert gzip.decompress(body) == plain, path
            whole = response(port, path)
            assert whole[:2] == (200, None), path
            assert whole[3] == plain, path
        whole = response(port, "/resource/a", **GZIP)
        assert whole[:2] == (200, None)
        assert whole[3] == b"<a/>" * 500


@pytest.mark.needs("nginx")
def test_links_robots_txt_and_the_page_lead_to_the_lists(program: str, room: pathlib.Path) -> None:
    """A resource with a name like these paths is served as itself."""
    def paged(site: str) -> str:
        return without_tls(site).replace("/usr/local/share/ropepeach/site", f"{room}/site")

    with proxied(program, room, paged) as (port, _, behind):
        for name in ["..%2F", "..%2Frobots.txt", "..%2Fsite%2Fstyle.css"]:
            assert request(port, "PUT", f"/resource/{name}", b"a resource")[0] == 201, name
        for path in ["/resource/..%2Frobots.txt", "/capabilitylist.xml", "/robots.txt", "/resource/none"]:
            assert response(port, path)[2] == LINK, f"the link of {path}"
        assert request(port, "GET", "/robots.txt") == (200, ROBOTS)
        assert request(port, "GET", "/")[0] == 404
        os.mkdir(f"{room}/site")
        for name, text in (("index.html", "a page"), ("style.css", "a style"), ("secret.txt", "no page")):
            file = room / "site" / name
            file.write_text(text)
            file.chmod(0o644)
        assert request(port, "GET", "/") == (200, b"a page")
        assert request(port, "GET", "/site/style.css") == (200, b"a style")
        assert request(port, "GET", "/site/secret.txt")[0] == 404
        for name in ["..%2F", "..%2Frobots.txt", "..%2Fsite%2Fstyle.css"]:
            assert request(port, "GET", f"/resource/{name}") == (200, b"a resource"), name
