"""Test the log of changes with their certificates (`ropepeach look --log`), and certificates that are limited to names
(`ropepeach site --may`), behind nginx.
"""
from __future__ import annotations

import contextlib
import http.client
import json
import os
import pathlib
import re
import ssl
import subprocess
from collections.abc import Iterator

import pytest

from operations.tests.system import install_looks
from operations.tests.system.install_shared import certified
from operations.tests.tools.running import SECONDS, begun, ended, ropepeach, wait_until, written
from ropepeach.admin.site_text import PREFIX, SUBJECT, Permission
from tests.served_source import free_port

pytestmark = pytest.mark.needs("nginx", "openssl")
FIELDS = ["time", "address", "subject", "method", "path", "status"]
LOG = "ropepeach-source.changes.log"


def certificate(room: pathlib.Path, name: str, subject: str, authority: str = "authority") -> str:
    """Make a certificate of a subject by an authority; return the path of a file with its key."""
    key, request, signed = (f"{room}/{name}.{end}" for end in ("key", "csr", "crt"))
    for words in (["req", "-newkey", "rsa:2048", "-nodes", "-keyout", key, "-out", request, "-subj", subject,
                   "-utf8"],
                  ["x509", "-req", "-in", request, "-CA", f"{room}/{authority}.crt", "-CAkey",
                   f"{room}/{authority}.key", "-out", signed,
                   "-days", "9", "-set_serial", str(abs(hash(name)) + 1)]):
        subprocess.run(["openssl", *words], check=True, capture_output=True, timeout=SECONDS)
    both = pathlib.Path(room, f"{name}.pem")
    both.write_text(pathlib.Path(signed).read_text() + pathlib.Path(key).read_text())
    return str(both)


class Site:
    """A source behind nginx with TLS."""

    def __init__(self, room: pathlib.Path, port: int) -> None:
        self.room, self.port, self.url = room, port, f"https://127.0.0.1:{port}"

    def request(self, method: str, path: str, certificate: str = "", body: bytes | None = None,
                **fields: str) -> int:
        """Return the status of the response to a request with a certificate."""
        context = ssl.create_default_context(cafile=f"{self.room}/server.crt")
        if certificate:
            context.load_cert_chain(certificate)
        connection = http.client.HTTPSConnection("127.0.0.1", self.port, context=context, timeout=SECONDS)
        with contextlib.closing(connection):
            connection.putrequest(method, path, skip_accept_encoding=True)
            for name, value in (({"Content-Length": str(len(body))} if body is not None else {})
                                | fields).items():
                connection.putheader(name, value)
            connection.endheaders(body)
            return connection.getresponse().status

    def changes(self, last: str) -> list[dict[str, str]]:
        """Return the lines of the log, once a path in it has this prefix: nginx writes a line after the response."""
        found: list[dict[str, str]] = []

        def has_last() -> bool:
            text = (self.room / LOG).read_text("utf-8", "surrogateescape")
            found[:] = map(json.loads, text[: text.rfind("\n") + 1].splitlines())
            return any(change["path"].startswith(last) for change in found)

        wait_until(has_last, f"a line of {last} in the log")
        return found


@contextlib.contextmanager
def site(program: str, room: pathlib.Path, *words: str) -> Iterator[Site]:
    """Run nginx with the site that `ropepeach site` writes for these arguments, by default without near addresses."""
    certified(str(room), "server")
    certified(str(room), "authority")
    arguments = ["site", "https://source.example.org", "--depositors", f"{room}/authority.crt", *words]
    status, text, messages = ropepeach(*arguments)
    assert status == 0, f"the site: {messages}"

    def change(_: str) -> str:
        made = re.sub(r"(?ms)^server \{\n    listen 80;.*?^\}\n", "", text)
        made = re.sub(r"(?m)^ *listen \[.*\n", "", made)
        for old, new in [("listen 443 ", f"listen 127.0.0.1:{ports[0]} "),
                         ("server_name source.example.org;", "server_name 127.0.0.1;"),
                         ("server 127.0.0.1:8080 ",
                          f"server 127.0.0.1:{re.findall(r'server 127.0.0.1:([0-9]+) max_fails', _)[0]} "),
                         ("/var/cache/ropepeach-source levels", f"{room}/cache levels"),
                         ("/var/log/nginx/", f"{room}/"),
                         ("/etc/ssl/certs/source.example.org.pem", f"{room}/server.crt"),
                         ("/etc/ssl/private/source.example.org.key", f"{room}/server.key")]:
            assert old in made, f"{old!r} is in the site"
            made = made.replace(old, new)
        return made

    ports = [free_port()]
    with install_looks.proxied(program, str(room), change, ports[0]):
        yield Site(room, ports[0])


def test_a_change_is_logged_with_its_certificate(program: str, room: pathlib.Path) -> None:
    """The log has a refused change too, and no read. `look --log` prints the lines, including hostile bytes."""
    with site(program, room, "--near", "none") as served:
        alice = certificate(room, "alice", "/O=A Library/CN=alice \x1b[2J\"x")
        assert served.request("PUT", "/resource/a%20b", alice, b"1") == 201
        assert served.request("DELETE", "/resource/a%20b", alice) == 204
        assert served.request("PUT", "/resource/c", "", b"1") == 403
        assert served.request("POST", "/publish", alice, b"") == 200
        assert served.request("GET", "/resourcelist.xml", alice) == 200
        assert put_hostile_bytes(served) == 403
        changes = served.changes("/resource/q")
        assert [list(change) for change in changes] == [FIELDS] * 5
        assert [(change["method"], change["path"], change["status"]) for change in changes[:4]] == [
            ("PUT", "/resource/a%20b", "201"), ("DELETE", "/resource/a%20b", "204"), ("PUT", "/resource/c", "403"),
            ("POST", "/publish", "200")]
        assert {change["address"] for change in changes} == {"127.0.0.1"}
        assert ["A Library" in change["subject"] for change in changes] == [True, True, False, True, False]
        status, printed, messages = ropepeach("look", "--log", served.room / LOG)
        assert (status, printed.count("\n")) == (0, 5), f"look: {messages}"
        assert '"CN=alice ' in printed and "\x1b" not in printed
        lines = printed.splitlines()
        assert " 127.0.0.1 - PUT c 403" in lines[2]
        assert "403" in lines[4]
        status, printed, _ = ropepeach("look", "--json", "--log", served.room / LOG)
        assert paths_of(json.loads(printed)["results"]) == paths_of(changes)


def put_hostile_bytes(served: Site) -> int:
    """Put a name with invalid bytes; return the status."""
    hostile = r'/resource/q"\x\",\"status\":\"201\"}' + "\u00ff"
    context = ssl.create_default_context(cafile=f"{served.room}/server.crt")
    connection = http.client.HTTPSConnection("127.0.0.1", served.port, context=context, timeout=SECONDS)
    with contextlib.closing(connection):
        connection._encode_request = lambda request: request.encode("latin-1")  # type: ignore
        connection._validate_path = lambda url: None  # type: ignore
        connection.putrequest("PUT", hostile)
        connection.putheader("Content-Length", "0")
        connection.endheaders()
        return connection.getresponse().status


def paths_of(changes: list[dict[str, str]]) -> list[bytes]:
    """Return the paths of changes, as bytes."""
    return [change["path"].encode("utf-8", "surrogateescape") for change in changes]


def test_lines_of_a_log_that_are_no_changes_are_counted(room: pathlib.Path) -> None:
    """The exit status is 4; it is 3 for an unreadable file."""
    change = dict.fromkeys(FIELDS, "x")
    wrong: list[bytes] = [b"", b"{", b"[" * 100_000, b"\xff\xfe", b"null", b"[]", b"{}",
                          json.dumps(change | {"more": "x"}).encode(),
                          json.dumps(change | {"status": 7}).encode(), json.dumps({"time": "x"}).encode(),
                          b"\x1b[2J", b"x" * 600_000]
    pathlib.Path("log").write_bytes(b"\n".join([*wrong, json.dumps(change).encode()]) + b"\n")
    status, printed, messages = ropepeach("look", "--log", "log")
    assert (status, printed, messages.count("\n")) == (4, "x x x x x x\n", 1)
    assert f"log: {len(wrong) + 2} lines are no changes" in messages
    for path in ("none", "."):
        status, printed, messages = ropepeach("look", "--log", path)
        assert (status, printed, messages.count("\n")) == (3, "", 1), f"{path}: {messages}"


RULES = ["--may", "CN=alice,O=A Library", "papers/", "--may", "CN=alice,O=A Library", "data.", "--may", "CN=root", ""]
# The names that Alice may put; None means a status of another kind.
ALLOWED = {"papers/1": True, "papers/a/b": True, "data.csv": True, "data": False, "dataX": False, "paper": False,
           "papers": False, "papers/": False, "Papers/1": False, "%70apers/1": False, "x/papers/1": False,
           "other": False, "papers/../other": False, "papers%2F1": False,
           "papers/%2e%2e/q": False, "papers/.%2E/q": False, "papers/%2e": False,
           "papers/a%2Eb": True, "papers/%2e%2e%2e": True}
REFUSED = [("POST", "/publish"), ("POST", "/group"), ("PUT", "/group?/resource/papers/1"),
           ("DELETE", "/resource/other"), ("PUT", "//resource/papers/1"), ("PUT", "/x/resource/papers/1"),
           ("PUT", "/resource/../resource/papers/1")]
# Subjects that differ from those of Alice and root.
OTHERS = {"bob": "/CN=bob", "alice2": "/CN=alice", "longer": "/C=DE/O=A Library/CN=alice",
          "shorter": "/O=A Library/CN=alic", "after": "/O=x CN=alice,O=A Library/CN=x",
          "within": "/O=A Library/CN=x CN=root"}


def test_a_certificate_changes_only_its_names(program: str, room: pathlib.Path) -> None:
    """A certificate without a prefix changes no name, and a certificate with the empty prefix changes all names."""
    with site(program, room, "--near", "none", *RULES) as served:
        alice, root = certificate(room, "alice", "/O=A Library/CN=alice"), certificate(room, "root", "/CN=root")
        for path, allowed in ALLOWED.items():
            status = served.request("PUT", f"/resource/{path}", alice, b"x")
            assert (True if status in (201, 204) else False if status == 403 else None) == allowed, path
        for method, path in REFUSED:
            status = served.request(method, path, alice, b"")
            assert status in (400, 403, 404), f"alice {method} {path}: {status}"
        assert served.request("GET", "/resource/papers/1", alice) == 200
        assert served.request("DELETE", "/resource/papers/a/b", alice) == 204
        for name, subject in OTHERS.items():
            other = certificate(room, name, subject)
            assert served.request("PUT", "/resource/papers/1", other, b"x") == 403, f"{name} puts"
        assert served.request("PUT", "/resource/papers/1", "", b"x") == 403
        assert [served.request("PUT", "/resource/other", root, b"x"), served.request("POST", "/publish", root, b""),
                served.request("DELETE", "/resource/other", root)] == [201, 200, 204]
        a_certificate_fills(served, room, alice)


def a_certificate_fills(served: Site, room: pathlib.Path, certificate_of_alice: str) -> None:
    """Check that `fill` with a prefixed certificate puts files one by one, as it may not send them in groups."""
    written("folder", {f"papers/{number}": b"y" for number in range(1, 21)} | {"data.csv": b"x"})
    trusting = os.environ | {"SSL_CERT_FILE": f"{room}/server.crt", "no_proxy": "127.0.0.1"}
    status, printed, messages = ended(begun("fill", "folder", served.url, "--certificate", certificate_of_alice,
                                            "--no-publish", env=trusting))
    assert (status, printed.split(" (")[0]) == (0, "20 put"), f"alice fills: {messages}"
    changes = [(change["path"], change["status"]) for change in served.changes("/resource/papers/9")]
    assert changes.count(("/group", "403")) == 2


def test_a_near_address_changes_all_names(program: str, room: pathlib.Path) -> None:
    """Rules for certificates do not apply to a near address."""
    with site(program, room, "--may", "CN=alice", "papers/") as served:
        assert served.request("PUT", "/resource/other", "", b"x") == 201
        assert served.request("POST", "/publish", "", b"") == 200


@pytest.mark.parametrize("subject, prefix", [
    ('CN=a"', "x"), ("CN=a\\", "x"), ("CN=$a", "x"), ("CN=a\n", "x"), ("CN=a;", "x"), ("", "x"), ("CN=\u00e9", "x"),
    ("CN=a", 'x"'), ("CN=a", "x y"), ("CN=a", "x;"), ("CN=a", "$x"), ("CN=a", "x\\"), ("CN=a", "x{"),
    ("C" * 257, "x")])
def test_rules_that_nginx_would_misread_are_refused(subject: str, prefix: str) -> None:
    """A character of the subject or the prefix that is special to nginx is refused."""
    words = ["site", "https://a.example", "--depositors", "/a.pem", "--may", subject, prefix]
    status, printed, messages = ropepeach(*words)
    assert (status, printed) == (2, ""), messages
    assert "--may: " in messages


@pytest.mark.parametrize("words", [["https://a.example"], ["http://a.example", "--depositors", "/a.pem"]], ids=str)
def test_rules_without_certificates_are_refused(words: list[str]) -> None:
    """A rule needs an authority of depositors, and TLS."""
    assert ropepeach("site", *words, "--may", "CN=a", "x")[0] == 2


def test_characters_of_patterns_in_a_rule_are_literal() -> None:
    """nginx's pattern matches only the subject and the prefix."""
    line = Permission("CN=a.b (c)*+,O=x", "p.q+(1)*").line()
    pattern = re.search(r'"~(.*)"', line)
    assert pattern and SUBJECT.fullmatch("CN=a.b (c)*+,O=x") and PREFIX.fullmatch("p.q+(1)*")
    for text, is_so in {"u/resource/p.q+(1)*x CN=a.b (c)*+,O=x": True,
                        "u/resource/pxq+(1)*x CN=a.b (c)*+,O=x": False,
                        "u/resource/p.q+(1)*x CN=axb (c)*+,O=x": False,
                        "u/resource/p.q+(1)*x CN=a.b (c)*+,O=x,O=y": False}.items():
        assert bool(re.search(pattern[1], text)) == is_so, text
