"""Test attacks on the site of a collection, and one nginx that serves two sources and a collection."""
from __future__ import annotations

import contextlib
import http.client
import os
import pathlib
import re
import socket
import ssl
import subprocess
import time
from collections.abc import Iterator, Mapping
from typing import NamedTuple

import pytest

from operations.tests.collection.host import INSTALLED_PAGE, SETTINGS, Host, nginx_settings, request
from operations.tests.system.install_doors import CONDITIONS, GROUP, PASSED, STRANGERS
from operations.tests.system.install_shared import told_by, wait_for
from operations.tests.tools.running import SECONDS, Server, ropepeach
from tests.program import ROOT
from tests.served_source import free_port, read_to_end

pytestmark = pytest.mark.needs("nginx", "openssl")

# Bodies on the disks of the sources that one nginx serves.
HTML = "<title>a depositor's page</title>"
NAMES = {"one": "one.example.org", "two": "two.example.org", "archive": "archive.example.org"}
# Requests of an attacker to a source.
CHANGES = [("POST", "/s2/group", GROUP), ("POST", "/s2/publish", b""), ("PUT", "/s2/resource/new", b"x"),
           ("DELETE", "/s2/resource/kept", None)]
# Fields that depend on the response and not on the site.
OF_THE_ANSWER = {"date", "content-length", "link", "last-modified", "etag", "accept-ranges"}
# Paths of a source and of the site, and a refused change.
PATHS = "/resource/page.html /resource/none /capabilitylist.xml /changelist.xml /resourcelist/1/0.xml /none".split()
WHOLE = ["/", "/?a", "/site/main.js", "/site/none.js", "/robots.txt", "/.well-known/resourcesync"]


class Answer(NamedTuple):
    """A response: its status, its fields by their lower-case names, and its body."""

    status: int
    fields: dict[str, str]
    body: bytes


def test_strangers_change_nothing_of_a_collection(program: str, room: pathlib.Path) -> None:
    """No page of another host, body of a depositor, part of a body or conditional change changes a source."""
    with Host(program, room, ["s1", "s2"]) as host:
        trusted = ssl.create_default_context(cafile=f"{host.room}/server.crt")
        request(host.sources["s2"].url, "/resource/kept", "PUT", b"a treasure")
        before = request(host.sources["s2"].url, "/changelist.xml").partition(b"\r\n\r\n")[2]
        others = [{"Origin": f"{host.address}1"}, {"Origin": host.address.replace("https", "http")}]
        tries = [(403, fields) for fields in [*STRANGERS, *others]] + [(501, fields) for fields in CONDITIONS]
        tries += [(400, {"Content-Range": "bytes 4-7/8"}), (421, {"Host": "evil.example"})]
        for status, fields in tries:
            for method, path, body in CHANGES:
                found, _, _ = answered(host.port, method, path, body, trusted, **fields)
                assert found == status, f"{method} {path} {fields}"
        assert request(host.sources["s2"].url, "/changelist.xml").partition(b"\r\n\r\n")[2] == before
        assert answered(host.port, "PUT", "/s2/resource/own", b"x", trusted, Origin=host.address)[0] == 201


def answered(port: int, method: str, path: str, body: bytes | None = None, context: ssl.SSLContext | None = None,
             name: str = "", **fields: str) -> Answer:
    """Return a response to a request, over TLS with a context."""
    connection = http.client.HTTPConnection("127.0.0.1", port, timeout=SECONDS)
    if context:
        connection.sock = safely(port, context, name)
    with contextlib.closing(connection):
        connection.request(method, path, body, ({"Host": name} if name else {}) | fields)
        answer = connection.getresponse()
        return Answer(answer.status, {field.lower(): value for field, value in answer.getheaders()}, answer.read())


def safely(port: int, context: ssl.SSLContext, name: str = "") -> ssl.SSLSocket:
    """Return a TLS connection to a host of this name."""
    plain = socket.create_connection(("127.0.0.1", port), timeout=SECONDS)
    return context.wrap_socket(plain, server_hostname=name or "127.0.0.1")


def begun(port: int, path: str, context: ssl.SSLContext) -> ssl.SSLSocket:
    """Start a download over TLS."""
    connection = safely(port, context)
    connection.sendall(f"GET {path} HTTP/1.1\r\nHost: 127.0.0.1\r\nConnection: close\r\n\r\n".encode())
    return connection


def status_of(connection: socket.socket) -> int:
    """Return the status of the response on a connection."""
    return int(read_to_end(connection)[0].split(b" ")[1])


def test_bodies_in_progress_are_counted_by_source(program: str, room: pathlib.Path) -> None:
    """A visitor with as many downloads in progress from one source as allowed can download from another source."""
    with Host(program, room, ["s1", "s2"]) as host:
        trusted = ssl.create_default_context(cafile=f"{host.room}/server.crt")
        for server in host.sources.values():
            request(server.url, "/resource/a", "PUT", b"a body")
        host.sources["s1"].hold()
        downloads = [begun(host.port, "/s1/resource/a", trusted) for _ in range(PASSED)]
        time.sleep(0.5)
        found = [status_of(begun(host.port, path, trusted)) for path in ("/s1/resource/a", "/s2/resource/a")]
        host.sources["s1"].go_on()
        assert found == [503, 200]
        assert [status_of(download) for download in downloads] == [200] * PASSED


def test_the_base_of_a_source_redirects_to_its_tab(program: str, room: pathlib.Path) -> None:
    """The base `/0` redirects too; other paths and changes do not."""
    with Host(program, room, ["s1", "0"]) as host:
        trusted = ssl.create_default_context(cafile=f"{host.room}/server.crt")
        for path, name in [("/s1/", "s1"), ("/s1", "s1"), ("/s1/?a=1", "s1"),
                           ("/s1?x", "s1"), ("/0/", "0"), ("/0", "0")]:
            for method in ("GET", "HEAD"):
                status, fields, _ = answered(host.port, method, path, context=trusted)
                assert (status, fields.get("location")) == (302, f"{host.address}/#source={name}"), f"{method} {path}"
        for path in ("/s1/x", "/s1x", "/s1//", "/s", "/s1%2F", "/S1/"):
            assert status_and_place(answered(host.port, "GET", path, context=trusted)) == (404, None), path
        for method in ("PUT", "POST", "DELETE"):
            status, place = status_and_place(answered(host.port, method, "/s1/", b"x", trusted))
            assert (status in (404, 405), place) == (True, None), f"{method} of a base"
        for fields in ({"Host": "evil.example"}, {"Host": "127.0.0.1@evil.example"}):
            status, place = status_and_place(answered(host.port, "GET", "/s1/", None, trusted, **fields))
            assert (status in (400, 421), place) == (True, None), f"led to another host by {fields}"


def status_and_place(found: Answer) -> tuple[int, str | None]:
    """Return the status of a response, and its redirect address."""
    return found.status, found.fields.get("location")


class Several:
    """Two sources and a collection of two others behind one nginx, with the sites that the commands write."""

    def __init__(self, program: str, room: pathlib.Path) -> None:
        self.room, self.port, self.plain = room.resolve(), free_port(), free_port()
        self.host = Host(program, room, ["s1", "s2"], limit=2, address=f"https://{NAMES['archive']}")
        self.sources = {name: Server(program, f"{name}.disk", 8 << 20, 2, f"https://{NAMES[name]}")
                        for name in ("one", "two")}
        self.context = ssl.create_default_context()
        self.context.check_hostname, self.context.verify_mode = False, ssl.CERT_NONE

    def sites(self) -> Iterator[str]:
        """Yield the three sites that the commands write."""
        files = ["--certificate", f"{self.room}/server.crt", "--key", f"{self.room}/server.key"]
        for name, server in self.sources.items():
            status, site, messages = ropepeach("site", f"https://{NAMES[name]}", "--name", name,
                                               "--port", server.port, *files)
            assert status == 0, f"the site of {name}: {messages}"
            yield site
        status, _, messages = ropepeach("collection", SETTINGS, "--into", "site")
        assert status == 0, f"the site of the collection: {messages}"
        yield pathlib.Path("site/collection.nginx").read_text()

    def settings(self) -> str:
        """Return the sites on loopback only, with their caches in this folder."""
        sites = re.sub(r"(?m)^ *listen \[.*\n", "", "".join(self.sites()))
        sites = sites.replace("listen 443 ssl;", f"listen 127.0.0.1:{self.port} ssl;")
        sites = sites.replace("listen 80;", f"listen 127.0.0.1:{self.plain};")
        sites = re.sub(r"/var/cache/(ropepeach-[a-z]+) levels", rf"{self.room}/\1 levels", sites)
        return nginx_settings(self.room, sites)

    @contextlib.contextmanager
    def served(self, settings: str) -> Iterator[None]:
        """Serve all sites with these settings of nginx."""
        with contextlib.ExitStack() as ending:
            for server in [*self.sources.values(), *self.host.sources.values()]:
                ending.enter_context(server)
            pathlib.Path("several.conf").write_text(settings)
            words = ["nginx", "-p", str(self.room), "-e", f"{self.room}/several-errors"]
            nginx = ending.enter_context(subprocess.Popen([*words, "-c", f"{self.room}/several.conf"]))
            ending.callback(nginx.terminate)
            wait_for(self.port, nginx)
            yield

    def ask(self, name: str, method: str, path: str, body: bytes | None = None, **fields: str) -> Answer:
        """Return the response to one request to a host."""
        return answered(self.port, method, path, body, self.context, NAMES.get(name, name), **fields)


def test_one_nginx_serves_two_sources_and_a_collection(program: str, room: pathlib.Path) -> None:
    """Every site has its own lists, caches and name; nginx serves no other name."""
    several = Several(program, room)
    with several.served(several.settings()):
        places = [("one", ""), ("two", ""), ("archive", "/s1"), ("archive", "/s2")]
        for name, path in places:
            body = f"{name}{path}{HTML}".encode()
            assert several.ask(name, "PUT", f"{path}/resource/page.html", body)[0] == 201
            for resource in "bc":
                assert several.ask(name, "PUT", f"{path}/resource/{resource}", b"x")[0] == 201
            assert several.ask(name, "POST", f"{path}/publish")[0] == 200
        for _ in range(2):
            for name, path in places:
                assert several.ask(name, "GET", f"{path}/resource/page.html").body == f"{name}{path}{HTML}".encode()
                for document in ("/resourcelist.xml", "/resourcelist/1/0.xml", "/changelist.xml"):
                    found = several.ask(name, "GET", path + document)[2].decode()
                    assert f"https://{NAMES[name]}{path}/" in found, f"{name}: {document}"
        for name in ("evil.example", "127.0.0.1", "one.example.org.evil.example", "ONE.example.com"):
            assert several.ask(name, "GET", "/")[0] == 421, f"another name, {name}"
            assert answered(several.plain, "GET", "/", name=name)[0] == 421, f"another name, {name}, without TLS"
        for name in NAMES.values():
            status, fields, _ = answered(several.plain, "GET", "/a?b", name=name)
            assert (status, fields["location"]) == (301, f"https://{name}/a?b")
    lines = pathlib.Path("several-errors").read_text().splitlines()
    assert [line for line in lines if "[warn]" in line or "[emerg]" in line] == []


def test_nginx_accepts_many_sites_together(program: str, room: pathlib.Path) -> None:
    """nginx accepts eight sites without a warning, and twelve with the longest names by the settings of the manual."""
    page = (ROOT / "operations/install/ropepeach-site.1").read_text()
    larger = "".join(f"{line};\n" for line in re.findall(r"(?m)^variables_hash_\w+ \d+", page))
    assert larger.count(";") == 2
    long = [f"a{'1-' * 14}{number:03}" for number in range(12)]
    for names, more in (([f"s{number}" for number in range(8)], ""), (long, larger)):
        sites_made = [ropepeach("site", f"http://s{number}.example:{8000 + number}", "--name", name,
                                "--port", 9000 + number)[1] for number, name in enumerate(names)]
        sites = re.sub(r"(?m)^ *listen \[.*\n", "", more + "".join(sites_made))
        sites = sites.replace("listen 80", "listen 127.0.0.1:80")
        pathlib.Path("many.conf").write_text(nginx_settings(room, sites.replace("/var/cache/", f"{room}/")))
        found = told_by("nginx", "-t", "-q", "-p", room, "-e", f"{room}/errors", "-c", f"{room}/many.conf")
        assert found == ("", 0), f"what nginx says of {len(names)}"


def test_both_kinds_of_site_send_the_same_fields(program: str, room: pathlib.Path) -> None:
    """Both kinds of site also send the same status for every kind of path."""
    several = Several(program, room)
    os.mkdir("page")
    for name in ("index.html", "main.js"):
        pathlib.Path("page", name).write_text(name)
    settings = several.settings()
    assert settings.count(INSTALLED_PAGE) == 3
    with several.served(settings.replace(INSTALLED_PAGE, f"{several.room}/page")):
        for name, path in (("one", ""), ("archive", "/s1")):
            for resource in ("page.html", "b", "c"):
                put = several.ask(name, "PUT", f"{path}/resource/{resource}", HTML.encode(),
                                  **{"Content-Type": "text/html"})
                assert put.status == 201
            assert several.ask(name, "POST", f"{path}/publish")[0] == 200
        tries: list[tuple[str, str, dict[str, str]]] = [("GET", target, {}) for target in PATHS]
        tries += [("PUT", "/resource/page.html", condition) for condition in (STRANGERS[0], CONDITIONS[0])]
        found = [several.ask("one", method, path, None, **fields) for method, path, fields in tries]
        other = [several.ask("archive", method, f"/s1{path}", None, **fields) for method, path, fields in tries]
        found += [several.ask("one", "GET", target) for target in WHOLE]
        other += [several.ask("archive", "GET", target) for target in WHOLE]
        for target, one, two in zip([*tries, *WHOLE], found, other, strict=True):
            assert (one.status, plainly(one.fields)) == (two.status, plainly(two.fields)), target
        assert other[0].fields.get("content-security-policy") == "sandbox"
        address, policy = f"https://{NAMES['archive']}", other[len(tries)].fields["content-security-policy"]
        assert f"script-src {address}/site/;" in policy
        lists = f"Sitemap: {address}/s1/resourcelist.xml\nSitemap: {address}/s2/"
        assert lists in other[-2][2].decode()


def plainly(fields: Mapping[str, str]) -> dict[str, str]:
    """Return the fields of a response, without the name of the site."""
    fields_compared = {field: value for field, value in fields.items() if field not in OF_THE_ANSWER}
    return {field: re.sub(r"(one|archive)\.example\.org", "HOST", value) for field, value in fields_compared.items()}
