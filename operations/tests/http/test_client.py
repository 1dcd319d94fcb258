"""`Client` sends requests byte for byte, and takes responses as they are, up to a limit."""
from __future__ import annotations

import time
from collections.abc import Iterator

import pytest

from operations.tests.harness.server import Answer, RawServer, answer
from ropepeach import __version__
from ropepeach.faults import Fault, Long, Misused, Silent
from ropepeach.http.client import Client, error_text
from ropepeach.resync.pages import links_of_fields


def asked(server: RawServer, path: str = "/a") -> bytes:
    """Return the body of a successful GET."""
    response = Client(server.base, patience=5).ask("GET", path)
    assert response.status == 200
    return response.body


# Requests

@pytest.mark.parametrize("target", [
    "/%c3%a9", "/%C3%A9", "/a/../b", "/./a/.", "/a//b", "/a%2fb", "/%", "/?", "/a?b=%c3&/../c", "/~!$&'()*+,;=:@-._",
    '/"<>\\^`{|}[]', "/a;b", "//a", "/" + "x" * 2_000,
])
def test_target_is_sent_byte_for_byte(target: str) -> None:
    with RawServer(lambda _: answer(b"x")) as server:
        asked(server, target)
        assert server.paths() == [target]


def test_path_of_the_address_precedes_the_target() -> None:
    with RawServer(lambda _: answer(b"x")) as server:
        client = Client(f"{server.base}/s1/../%7e/")
        assert client.address == f"{server.base}/s1/../%7e"
        assert client.ask("GET", "/a").body == b"x"
        assert server.paths() == ["/s1/../%7e/a"]


def test_get_has_the_fields_of_the_command() -> None:
    with RawServer(lambda _: answer(b"x")) as server:
        Client(server.base).ask("GET", "/a", more={"If-None-Match": '"x"', "Accept-Encoding": "gzip"})
        Client(server.base).ask("GET", "/a")
        first, second = (request.fields for request in server.requests)
        assert first["host"] == server.base.removeprefix("http://")
        assert first["user-agent"] == f"ropepeach/{__version__}"
        assert (first["accept-encoding"], first["if-none-match"]) == ("gzip", '"x"')
        assert (second["accept-encoding"], second.get("if-none-match")) == ("identity", None)
        assert "content-length" not in first and "content-type" not in first
        assert server.requests[0].head.startswith(b"GET /a HTTP/1.1\r\n")


def test_a_client_forgets_the_form_of_the_last_request() -> None:
    """The handle keeps no method, body or field of a request for the next one."""
    with RawServer(lambda request: answer(b"x" if request.method != "HEAD" else b"")) as server:
        client = Client(server.base)
        client.ask("PUT", "/p", b"body", "text/plain", more={"X-A": "b"})
        client.ask("GET", "/g")
        client.ask("HEAD", "/h")
        client.ask("POST", "/e")
        client.ask("DELETE", "/d")
        assert client.ask("GET", "/g").body == b"x"
        forms = [(request.method, request.path, request.body, request.fields.get("content-length"),
                  request.fields.get("content-type"), request.fields.get("x-a")) for request in server.requests]
        assert forms == [("PUT", "/p", b"body", "4", "text/plain", "b"), ("GET", "/g", b"", None, None, None),
                         ("HEAD", "/h", b"", None, None, None), ("POST", "/e", b"", "0", None, None),
                         ("DELETE", "/d", b"", None, None, None), ("GET", "/g", b"", None, None, None)]


@pytest.mark.parametrize("size", [0, 1, 65_535, 65_536, 5_000_000])
def test_body_arrives_whole_and_expects_no_100(size: int) -> None:
    body = bytes(number % 251 for number in range(1_000)) * (size // 1_000) + b"x" * (size % 1_000)
    with RawServer(lambda _: answer(b"", "201 Created")) as server:
        assert Client(server.base).ask("PUT", "/a", body, "text/plain").status == 201
        (request,) = server.requests
        assert (request.method, request.body == body) == ("PUT", True)
        assert (request.fields["content-length"], request.fields.get("expect")) == (str(size), None)


def test_field_with_a_line_feed_is_refused_and_nothing_is_sent() -> None:
    with RawServer(lambda _: answer(b"x")) as server:
        with pytest.raises(Fault, match="is no value of the field Content-Type"):
            Client(server.base).ask("PUT", "/a", b"x", "text/plain\r\nX-A: b")
        assert server.requests == []
        assert asked(server) == b"x"


@pytest.mark.parametrize("address", [
    "", "ftp://a", "a", "//a", "http://", "http:///a", "http://a b", "http://a?b", "http://a#b", "http://[::1",
    "http://a:99999", "http://a:b", "http://a:0", "http://user@a", "http://user:secret@a", "http://\u00e9", "file:///a",
])
def test_address_that_is_none_is_refused(address: str) -> None:
    with pytest.raises(Misused, match="an address is http:// or https://, a host, and its path if there is one"):
        Client(address)


# Responses

@pytest.mark.parametrize("status", ["301 Moved", "302 Found", "303 See Other", "307 Temporary", "308 Permanent"])
def test_redirect_is_returned_and_not_followed(status: str) -> None:
    with RawServer(lambda _: answer(b"", status, "Location: /b")) as server:
        response = Client(server.base).ask("GET", "/a")
        assert error_text(response) == f"{status}: redirects are not followed, to '/b'"
        assert server.paths() == ["/a"]


def test_every_link_field_counts() -> None:
    links = ['Link: </a>; rel="x"', "X-Other: 1", 'link: </b>; rel="resourcesync"']
    with RawServer(lambda _: answer(b"x", "200 OK", *links)) as server:
        fields = Client(server.base).ask("GET", "/a").fields
        assert fields.all("Link") == ['</a>; rel="x"', '</b>; rel="resourcesync"']
        assert fields.get("LINK") == '</a>; rel="x", </b>; rel="resourcesync"'
        assert (fields.get("None"), fields.get("None", "x"), fields.all("None")) == ("", "x", [])
        # (the second field leads to the source)
        assert list(links_of_fields(fields.get("Link"))) == ["/b"]


def test_interim_responses_are_not_final() -> None:
    interim = b"HTTP/1.1 100 Continue\r\n\r\nHTTP/1.1 103 Early Hints\r\nLink: </early>\r\nX-Early: 1\r\n\r\n"
    final = b"HTTP/1.1 404 Not Found\r\nContent-Length: 2\r\nLink: </late>\r\n\r\nno"
    for pieces in ([interim + final], [interim, final], [bytes([byte]) for byte in interim + final]):
        with RawServer(lambda _: Answer(pieces)) as server:
            response = Client(server.base).ask("GET", "/a")
            assert (response.status, response.reason, response.body) == (404, "Not Found", b"no")
            assert (response.fields.all("Link"), response.fields.get("X-Early")) == (["</late>"], "")


@pytest.mark.parametrize(("status", "more"), [
    (b"200 OK", b"X-A: b\r\n"), (b"200 OK", b"A" * 100), (b"100 Continue", b"\r\nHTTP/1.1 100 Continue\r\n"),
    (b"103 Early Hints", b"Link: </a>\r\n"),
])
def test_head_without_end_is_no_response(status: bytes, more: bytes) -> None:
    def endless() -> Iterator[bytes]:
        yield b"HTTP/1.1 " + status + b"\r\n"
        while True:
            yield more * 500

    with RawServer(lambda _: Answer(endless())) as server:
        started = time.monotonic()
        with pytest.raises(Silent, match="no answer for 0.2 seconds"):
            Client(server.base, patience=0.2).ask("GET", "/a")
        assert time.monotonic() - started < 10


def test_trailer_fields_are_no_fields_of_the_response() -> None:
    chunked = (b"HTTP/1.1 200 OK\r\nTransfer-Encoding: chunked\r\n\r\n3\r\nabc\r\n4;x=y\r\ndefg\r\n0\r\n"
               b"X-Trailer: 1\r\n\r\n")
    with RawServer(lambda _: Answer([chunked])) as server:
        response = Client(server.base).ask("GET", "/a")
        assert (response.body, response.fields.get("X-Trailer")) == (b"abcdefg", "")


def test_trailer_fields_of_an_empty_body_are_no_fault() -> None:
    chunked = b"HTTP/1.1 200 OK\r\nX-A: 1\r\nTransfer-Encoding: chunked\r\n\r\n0\r\nX-Trailer: 1\r\n\r\n"
    for pieces in ([chunked], [bytes([byte]) for byte in chunked]):
        with RawServer(lambda _: Answer(pieces)) as server:
            response = Client(server.base, patience=0).ask("GET", "/a")
            fields = response.fields
            assert (response.body, fields.get("X-A"), fields.get("X-Trailer")) == (b"", "1", "")


def test_lines_may_end_with_a_line_feed_alone() -> None:
    with RawServer(lambda _: Answer([b"HTTP/1.1 200 OK\nX-A: 1\n", b"Content-Length: 1\n\nx"])) as server:
        response = Client(server.base, patience=0).ask("GET", "/a")
        assert (response.body, response.fields.get("X-A")) == (b"x", "1")


def test_folded_field_is_one_value() -> None:
    with RawServer(lambda _: answer(b"x", "200 OK", "X-A: 1,", " 2,", "\t3", "X-B: 4")) as server:
        fields = Client(server.base).ask("GET", "/a").fields
        assert (fields.get("X-A"), fields.get("X-B")) == ("1, 2, 3", "4")


def test_body_is_not_decoded() -> None:
    with RawServer(lambda _: answer(b"\x1f\x8bno gzip", "200 OK", "Content-Encoding: gzip")) as server:
        assert asked(server) == b"\x1f\x8bno gzip"


def test_body_without_a_length_ends_with_the_connection() -> None:
    with RawServer(lambda _: Answer([b"HTTP/1.0 200 OK\r\n\r\n", b"body"], "close")) as server:
        assert asked(server) == b"body"


@pytest.mark.parametrize("size", [0, 1, 100, 1_000_000])
@pytest.mark.parametrize("has_length", [True, False])
def test_body_of_the_limit_is_taken_and_one_byte_more_is_not(size: int, has_length: bool) -> None:
    head = f"HTTP/1.1 200 OK\r\nContent-Length: {size}\r\n\r\n" if has_length else "HTTP/1.1 200 OK\r\n\r\n"
    with RawServer(lambda _: Answer([head.encode() + b"x" * size], "close")) as server:
        client = Client(server.base)
        assert client.ask("GET", "/a", limit=size).body == b"x" * size
        if size:
            words = f"has {size:,} bytes, more than {size - 1:,}" if has_length else f"has more than {size - 1:,} bytes"
            with pytest.raises(Long, match=f"GET {server.base}/a: the answer {words}"):
                client.ask("GET", "/a", limit=size - 1)
            assert len(server.requests) == 2


def test_length_of_a_body_that_head_leaves_out_has_no_limit() -> None:
    with RawServer(lambda _: Answer([b"HTTP/1.1 200 OK\r\nContent-Length: 99999999999\r\n\r\n"])) as server:
        client = Client(server.base)
        for _ in range(2):
            response = client.ask("HEAD", "/a", limit=0)
            assert (response.status, response.fields.get("Content-Length"), response.body) == (200, "99999999999", b"")
        assert server.connections == 1


def test_body_beyond_the_limit_is_not_read_to_its_end() -> None:
    sent = [0]

    def flood() -> Iterator[bytes]:
        yield b"HTTP/1.1 200 OK\r\n\r\n"
        for _ in range(1_000):
            yield bytes(1 << 20)
            sent[0] += 1

    with RawServer(lambda _: Answer(flood())) as server:
        with pytest.raises(Long):
            Client(server.base).ask("GET", "/a", limit=1_000_000)
        time.sleep(0.2)
        assert sent[0] < 50


def test_length_beyond_the_limit_ends_before_the_body_comes() -> None:
    def head() -> Iterator[bytes]:
        yield b"HTTP/1.1 200 OK\r\nContent-Length: 100\r\n\r\n"
        time.sleep(20)

    with RawServer(lambda _: Answer(head())) as server:
        started = time.monotonic()
        with pytest.raises(Long, match="the answer has 100 bytes, more than 99"):
            Client(server.base).ask("GET", "/a", limit=99)
        assert time.monotonic() - started < 5


def test_long_refusal_is_cut_and_its_connection_is_not_used_again() -> None:
    with RawServer(lambda request: answer(b"x" * (30_000_000 if request.path == "/no" else 3),
                                        "404 Not Found" if request.path == "/no" else "200 OK")) as server:
        client = Client(server.base)
        for target, status, body in (("/a", 200, b"xxx"), ("/no", 404, b"x" * 65_536), ("/a", 200, b"xxx")):
            response = client.ask("GET", target)
            assert (response.status, response.body == body) == (status, True)
        assert [request.connection for request in server.requests] == [0, 0, 1]


@pytest.mark.parametrize(("response", "wanted"), [
    (answer(b"NotHeld\n", "404 Not Found", "Content-Type: text/plain"), "404 NotHeld"),
    (answer(b"NotHeld\n", "404 Not Found", "Content-Type: text/html"), "404 Not Found"),
    (answer(b"no word\n", "404 Not Found", "Content-Type: text/plain"), "404 Not Found"),
    (answer(b"", "404"), "404"),
    (answer(b"", "302 Found"), "302 Found: redirects are not followed, to 'nowhere'"),
])
def test_error_text_has_the_word_of_the_source(response: Answer, wanted: str) -> None:
    with RawServer(lambda _: response) as server:
        assert error_text(Client(server.base).ask("GET", "/a")) == wanted
