"""Failed requests: an unsafe one is repeated only if it had no effect, and a retry starts over."""
from __future__ import annotations

from collections.abc import Iterator

import pytest

from operations.tests.harness.server import Response, Server
from ropepeach.faults import Silent
from ropepeach.http.client import Client


@pytest.fixture
def client(server: Server, monkeypatch: pytest.MonkeyPatch) -> Iterator[Client]:
    """Return a client of a server, over a kept connection."""
    monkeypatch.setenv("no_proxy", "127.0.0.1")
    running = Client(server.base, patience=2)
    server.put("/kept", b"")
    assert running.ask("GET", "/kept").status == 200
    yield running
    running.close()


@pytest.mark.parametrize("body", [None, b"body"])
def test_an_unsafe_request_is_not_sent_again_where_a_kept_connection_breaks(client: Client, server: Server,
                                                                            body: bytes | None) -> None:
    server.put("/a", [Response(is_reset=True), Response(b"one")])
    with pytest.raises(Silent):
        client.ask("POST", "/a", body)
    assert server.paths("/a") == ["/a"]


def test_a_safe_request_is_sent_again_where_a_kept_connection_breaks(client: Client, server: Server) -> None:
    server.put("/a", [Response(is_reset=True), Response(b"one")])
    assert client.ask("GET", "/a").body == b"one"
    assert server.paths("/a") == ["/a", "/a"]


@pytest.mark.parametrize("status", [429, 502, 504])
def test_an_unsafe_request_is_sent_again_after_503_only(client: Client, server: Server, status: int) -> None:
    server.put("/a", [Response(status=503), Response(status=status), Response(b"one")])
    try:
        assert client.ask("POST", "/a", b"body").status == status == 429
    except Silent:
        assert status != 429
    assert server.paths("/a") == ["/a", "/a"]


def test_an_answer_that_was_cut_is_whole_after_a_retry(client: Client, server: Server) -> None:
    server.put("/a", [Response(b"x" * 1_000, cut=500), Response(b"y" * 1_000)])
    answer = client.ask("GET", "/a")
    assert (answer.status, answer.body) == (200, b"y" * 1_000)
