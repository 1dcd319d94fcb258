"""Test attacks on the site of nginx, and the limits of units."""
import contextlib
import http.client
import pathlib
import re
import signal
import socket
import time
from collections.abc import Mapping
from email.message import Message

import pytest

from operations.package import places
from operations.tests import PYTHON
from operations.tests.system.install_doors import CONDITIONS, GROUP, PASSED, STRANGERS
from operations.tests.system.install_looks import INSTALL, far, proxied, without_tls
from operations.tests.system.install_shared import NO_HEADERS, SECONDS, request, told_by
from tests.program import TOOLS
from tests.served_source import connected, read_to_end

# Requests of a page of another host that a browser sends without a preflight.
SIMPLE = [("POST", "/group", GROUP), ("POST", "/publish", b""), ("PUT", "/resource/csrf", b"x"),
          ("DELETE", "/resource/kept", None)]
# Host names that resolve to the site and are not its name.
OTHER_NAMES = ["evil.example", "evil.example:80", "127.0.0.1.evil.example", "127.0.0.2", "localhost",
               "source.example.org", "127.0.0.1..", "_"]
BODY = b"a whole resource"
# Requests, and the statuses of their responses.
REQUESTS = [("GET", "/resource/a.js", 200), ("GET", "/resource/none", 404), ("GET", "/changelist.xml", 200),
         ("GET", "/", 404),
         ("GET", "/robots.txt", 200), ("PATCH", "/resource/a.js", 405), ("GET", "/site/none.js", 404),
         ("PUT", "/changelist.xml", 405), ("DELETE", "/resourcelist/1/0.xml", 405),
         ("POST", "/capabilitylist.xml", 405)]
# Seconds of silence after which a connection has sent all responses.
QUIET = 0.5
# The number of concurrent requests of the attacking visitor.
DOWNLOADS = 8


def headers_of(port: int, path: str, method: str = "GET", **sent: str) -> tuple[int, Message]:
    """Return the status of a response, and its headers."""
    with contextlib.closing(http.client.HTTPConnection("127.0.0.1", port, timeout=SECONDS)) as connection:
        connection.request(method, path, headers=sent)
        answer = connection.getresponse()
        answer.read()
        return answer.status, answer.headers


def put(port: int, name: str, body: bytes = BODY, headers: Mapping[str, str] = NO_HEADERS) -> None:
    """Put a resource, which the source must accept."""
    assert request(port, "PUT", f"/resource/{name}", body, headers)[0] in (201, 204), f"put {name}"


@pytest.mark.needs("nginx")
def test_a_page_of_another_host_changes_nothing(program: str, room: pathlib.Path) -> None:
    """Neither a deposited body nor a page of another host changes a resource; the site's own page may."""
    with proxied(program, room) as (port, _, behind):
        put(port, "kept")
        before = request(behind, "GET", "/changelist.xml")
        own = f"http://127.0.0.1:{port}"
        origins = [own.replace("http:", "https:"), f"http://127.0.0.1:{port + 1}", f"{own}.evil.example",
                   "http://127.0.0.1"]
        strangers: list[dict[str, str]] = [*STRANGERS, *({"Origin": origin} for origin in origins)]
        for method, path, body in SIMPLE:
            for fields in strangers:
                assert request(port, method, path, body, fields)[0] == 403, f"{method} {path} {fields}"
        assert request(behind, "GET", "/changelist.xml") == before
        friends: list[dict[str, str]] = [{"Origin": own}, {"Origin": own, "Sec-Fetch-Site": "same-origin"},
                                         {"Sec-Fetch-Site": "none"}, {}]
        for number, fields in enumerate(friends):
            put(port, f"own{number}", headers=fields)
            assert request(port, "DELETE", f"/resource/own{number}", headers=fields)[0] == 204, f"delete, {fields}"
            assert request(port, "POST", "/publish", headers=fields)[0] == 200, f"publish, {fields}"
        for fields in strangers:
            assert request(port, "GET", "/resource/kept", headers=fields) == (200, BODY), f"a reader, {fields}"


def raw(port: int, head: bytes) -> list[bytes]:
    """Send a head; return the status of the response."""
    with connected(port) as connection:
        connection.sendall(head)
        found: list[bytes] = read_to_end(connection)[0].split(b" ")[1:2]
    return found


@pytest.mark.needs("nginx")
def test_a_request_for_another_host_name_gets_421(program: str, room: pathlib.Path) -> None:
    """A request for a name of another host that resolves to this one (DNS rebinding) gets 421."""
    with proxied(program, room) as (port, _, behind):
        put(port, "kept")
        for name in OTHER_NAMES:
            for line in ("GET /resource/kept", "PUT /resource/kept", "DELETE /resource/kept", "POST /publish", "GET /",
                         "GET /robots.txt"):
                head = f"{line} HTTP/1.1\r\nHost: {name}\r\nContent-Length: 0\r\nConnection: close\r\n\r\n".encode()
                assert raw(port, head) in ([b"421"], [b"400"]), f"{line}, {name}"
        head = b"DELETE http://evil.example/resource/kept HTTP/1.1\r\nHost: 127.0.0.1\r\nConnection: close\r\n\r\n"
        assert raw(port, head) == [b"421"]
        assert request(behind, "GET", "/resource/kept") == (200, BODY)
        for fields in (b"Host: 127.0.0.1\r\n", b"Host: 127.0.0.1:%d\r\n" % port, b"Host: 127.0.0.1:443\r\n"):
            head = b"GET /resource/kept HTTP/1.1\r\n" + fields + b"Connection: close\r\n\r\n"
            assert raw(port, head) == [b"200"], f"{fields!r}"
        assert raw(port, b"GET /resource/kept HTTP/1.0\r\n\r\n") == [b"200"]


def hidden(body: str, *fields: str) -> bytes:
    """Return a reader's request that contains another request."""
    lines = ["GET /resource/kept HTTP/1.1", "Host: 127.0.0.1",
             *(field.replace("LENGTH", str(len(body))) for field in fields)]
    return "\r\n".join([*lines, "", body]).encode("latin-1")


@pytest.mark.needs("nginx")
def test_no_change_is_smuggled_in_a_reader_s_request(program: str, room: pathlib.Path) -> None:
    """From a far address no change passes after, within or between the requests of a reader, by any framing."""
    change = "DELETE /resource/kept HTTP/1.1\r\nHost: 127.0.0.1\r\nConnection: close\r\n\r\n"
    chunked, length = "Transfer-Encoding: chunked", "Content-Length: LENGTH"
    tries = [hidden(change), hidden(change, length), hidden(change, length, "Content-Length: 0"),
             hidden(change, "Content-Length: 0"),
             hidden(change, "Content-Length: 0", length), hidden(f"0\r\n\r\n{change}", chunked),
             hidden(f"0\r\n\r\n{change}", length, chunked),
             hidden(f"0\r\n\r\n{change}", chunked, "Content-Length: 5"),
             hidden(f"{len(change):x}\r\n{change}\r\n0\r\n\r\n", chunked),
             hidden(f"0\r\n\r\n{change}", "Transfer-Encoding: xchunked", length),
             hidden(f"0\r\n\r\n{change}", "Transfer-Encoding:\tchunked"),
             hidden(f"0\r\n\r\n{change}", "Transfer-Encoding : chunked"),
             hidden(f"0\r\n\r\n{change}", "Transfer-Encoding: chunked, identity"),
             hidden(change, "Content-Length : LENGTH"), hidden(change, "Content-Length: +LENGTH"),
             hidden(change, "Content-Length: 0\n" + length),
             hidden(change, "X: a\n\n" + change), hidden(change, "X: a", " Content-Length: 0"),
             hidden(change, "X: \0", length),
             hidden(change, "X-HTTP-Method-Override: DELETE"), hidden(change, "Connection: Upgrade", "Upgrade: h2c"),
             hidden(change.replace("DELETE /", "DELETE http://127.0.0.1/")), change.replace("\r\n", "\n").encode(),
             change.lower().encode(),
             change.replace(" HTTP/1.1", "").encode(), change.replace("/kept", "/kept%00").encode(),
             change.replace("DELETE", "GET\0DELETE").encode(),
             change.replace("DELETE /", "DELETE /a/../").encode(), change.replace("/resource", "//resource").encode()]
    with proxied(program, room, lambda site: far(without_tls(site))) as (port, _, behind):
        put(behind, "kept")
        before = request(behind, "GET", "/changelist.xml")
        for sent in tries:
            with connected(port) as connection:
                # (nginx treats a client that closes its sending side as gone)
                connection.settimeout(QUIET)
                connection.sendall(sent)
                with contextlib.suppress(TimeoutError):
                    read_to_end(connection)
            assert request(behind, "GET", "/changelist.xml") == before, f"behind {sent[:300]!r}"


@pytest.mark.needs("nginx")
def test_a_change_with_a_range_or_a_condition_is_refused(program: str, room: pathlib.Path) -> None:
    """nginx answers 400 to Content-Range and 501 to a condition; no resource changes, and readers get whole bodies."""
    with proxied(program, room) as (port, _, behind):
        put(port, "kept")
        changes = [("PUT", "/resource/kept", b"tail"), ("POST", "/group", GROUP), ("DELETE", "/resource/kept", None)]
        for method, path, body in changes:
            for field in ("bytes 4-7/8", "bytes */8", "x"):
                found = request(port, method, path, body, {"Content-Range": field})
                assert found[0] == 400, f"{method} {field}"
            for fields in CONDITIONS:
                assert request(port, method, path, body, fields)[0] == 501, f"{method} {fields}"
        assert request(port, "PUT", "/resource/new", b"a", {"If-None-Match": "*"})[0] == 501
        assert request(behind, "GET", "/resource/kept") == (200, BODY)
        assert request(behind, "GET", "/resource/new")[0] == 404
        for fields in [*CONDITIONS, {"Content-Range": "bytes 4-7/8"}]:
            assert request(port, "GET", "/resource/kept", headers=fields) == (200, BODY), f"a reader, {fields}"


@pytest.mark.needs("nginx", "curl")
def test_a_resumed_upload_replaces_nothing(program: str, room: pathlib.Path) -> None:
    """`curl -C` sends only the tail of a file, and the resource keeps its whole body."""
    with open(f"{room}/longer", "wb") as file:
        file.write(BODY + b" and its tail")
    with proxied(program, room) as (port, _, behind):
        put(port, "kept")
        words = ["curl", "-sS", "--noproxy", "*", "-o", "/dev/null", "-w", "%{http_code}", "-C", str(len(BODY)), "-T"]
        output, _ = told_by(*words, f"{room}/longer", f"http://127.0.0.1:{port}/resource/kept")
        assert output == "400"
        assert request(behind, "GET", "/resource/kept") == (200, BODY)


@pytest.mark.needs("nginx")
def test_the_bare_program_ignores_these_headers(program: str, room: pathlib.Path) -> None:
    """The program accepts the changes that the site refuses, as docs/HTTP.md says."""
    with proxied(program, room) as (_, _, behind):
        put(behind, "kept", headers={"Origin": "https://evil.example", "Sec-Fetch-Site": "cross-site"})
        put(behind, "kept", b"tail", {"Content-Range": "bytes 4-7/8"})
        assert request(behind, "GET", "/resource/kept") == (200, b"tail")
        put(behind, "kept", b"other", {"If-Match": '"none"', "If-None-Match": "*", "Host": "evil.example"})
        assert request(behind, "GET", "/resource/kept") == (200, b"other")


def begun(port: int, path: str) -> socket.socket:
    """Start a download."""
    connection: socket.socket = connected(port)
    connection.sendall(f"GET {path} HTTP/1.1\r\nHost: 127.0.0.1\r\nConnection: close\r\n\r\n".encode())
    return connection


def ended(connection: socket.socket) -> tuple[int, bool]:
    """Return the status of a download, and whether it has Retry-After; (0, False) after a timeout."""
    try:
        head = read_to_end(connection)[0].partition(b"\r\n\r\n")[0]
    except TimeoutError:
        return 0, False
    return int(head.split(b" ")[1]), b"\r\nRetry-After: 1" in head


@pytest.mark.needs("nginx")
def test_a_visitor_gets_four_bodies_at_a_time(program: str, room: pathlib.Path) -> None:
    """Of a visitor's eight concurrent requests for bodies four get 503 and Retry-After; lists are not counted."""
    with proxied(program, room) as (port, source, _):
        put(port, "long", bytes(1_000_000))
        assert request(port, "POST", "/publish")[0] == 200
        source.send_signal(signal.SIGSTOP)
        downloads = [begun(port, "/resource/long") for _ in range(PASSED)]
        time.sleep(0.5)
        more = [begun(port, f"/resource/{name}") for name in ["long"] * (DOWNLOADS - PASSED - 1) + ["none"]]
        refused = [ended(download) for download in more]
        other = [begun(port, "/changelist.xml"), begun(port, "/capabilitylist.xml")]
        source.send_signal(signal.SIGCONT)
        assert refused == [(503, True)] * (DOWNLOADS - PASSED)
        assert [ended(download) for download in downloads] == [(200, False)] * PASSED
        assert [ended(download) for download in other] == [(200, False)] * 2
        assert request(port, "GET", "/resource/long")[0] == 200


@pytest.mark.needs("nginx")
def test_each_response_has_its_security_headers(program: str, room: pathlib.Path) -> None:
    """Every response has nosniff and HSTS; the policy of the page allows only files of its own folder."""
    with proxied(program, room) as (port, _, _):
        put(port, "a.js", b"alert(1)", {"Content-Type": "text/javascript"})
        for method, path, status in REQUESTS:
            found, fields = headers_of(port, path, method)
            facts = found, fields["X-Content-Type-Options"], fields["Strict-Transport-Security"]
            assert facts == (status, "nosniff", "max-age=31536000"), f"{method} {path}"
        _, fields = headers_of(port, "/", "PUT", Origin="https://evil.example")
        assert fields["X-Content-Type-Options"] == "nosniff"
        policy, own = headers_of(port, "/")[1]["Content-Security-Policy"], f"http://127.0.0.1:{port}/site/"
        for words in (f"script-src {own};", f"style-src {own};", f"img-src {own};", "connect-src 'self' ;",
                      "default-src 'none';"):
            assert words in policy, f"the page's policy, {words}: {policy}"
        odd = headers_of(port, "/", Host="127.0.0.1:80;x")[1]["Content-Security-Policy"]
        assert odd is None or ";x" not in odd


def test_the_installed_site_is_what_ropepeach_site_prints() -> None:
    words = [PYTHON, str(TOOLS / "ropepeach-command"), "site", "https://source.example.org"]
    output, status = told_by(*words)
    assert status == 0
    assert INSTALL.joinpath("ropepeach.nginx").read_bytes() == output.encode()


def test_each_unit_limits_processes_memory_and_time() -> None:
    """Services that send requests to a source run as a user that guard.conf names."""
    units = {name: text for name, text in places.units(INSTALL) if name.endswith(".service")}
    for name, text in units.items():
        for limit in ("TasksMax", "MemoryMax", "TimeoutStartSec"):
            found = re.findall(rf"(?m)^{limit}=(.*)$", text)
            assert len(found) == 1 and re.fullmatch(r"\d+[A-Za-z]*", found[0]), f"{name}: {limit} is {found}"
    users = re.findall(r"guard \$\{PORT\} (.*)", INSTALL.joinpath("guard.conf").read_text())[0].split()
    for name in ("ropepeach.service", "ropepeach-publish.service", "ropepeach-health.service", "ropepeach-fill.service",
                 "ropepeach-collection@.service"):
        assert re.findall(r"(?m)^User=(.*)$", units[name])[0] in users, name
