"""`Client` verifies certificates, explains refused ones, and shows its own only to its origin."""
from __future__ import annotations

import pathlib
import shutil
import socket
import ssl
import time
import warnings
from collections.abc import Callable
from unittest import mock

import pytest

from operations.tests.harness.server import RawServer, answer
from operations.tests.http.certificates import Certificates
from ropepeach.faults import Fault, Misused, Silent, Unusable
from ropepeach.http.client import Client, error_text
from ropepeach.http.transfers import Transfer, Transfers

pytestmark = pytest.mark.skipif(not shutil.which("openssl"), reason="there is no openssl here")
SELF_SIGNED = "certificate verify failed: it is self-signed; to trust it, set SSL_CERT_FILE to a file with its " \
              "certificate in PEM"
UNKNOWN = "certificate verify failed: this machine does not know its CA (CN=Private CA); to trust a private CA, set " \
          "SSL_CERT_FILE to a file with its certificate in PEM"


@pytest.fixture(scope="module")
def certificates(tmp_path_factory: pytest.TempPathFactory) -> Certificates:
    """Return the certificates of all tests here."""
    return Certificates(tmp_path_factory.mktemp("certificates"))


@pytest.fixture
def trusting(certificates: Certificates, monkeypatch: pytest.MonkeyPatch) -> None:
    """Trust the private CA."""
    monkeypatch.setenv("SSL_CERT_FILE", str(certificates.path("ca")))


def refused(url: str) -> str:
    """Return why a request ends at once, in spite of retries."""
    started = time.monotonic()
    with pytest.raises(Fault) as fault:
        Client(url, patience=20).ask("GET", "/a")
    assert time.monotonic() - started < 10
    assert not isinstance(fault.value, Silent)
    (line,) = fault.value.lines()
    assert line.startswith(f"GET {url}/a: ")
    return line.removeprefix(f"GET {url}/a: ")


def test_private_ca_is_trusted_by_ssl_cert_file(certificates: Certificates, trusting: None) -> None:
    with RawServer(lambda _: answer(b"x" * 3_000_000), certificates.server("good")) as server:
        client = Client(server.base)
        for _ in range(3):
            assert client.ask("GET", "/a").body == b"x" * 3_000_000
        assert server.connections == 1
        assert Client(server.base.replace("127.0.0.1", "localhost")).ask("GET", "/a").status == 200


def test_private_ca_is_trusted_by_ssl_cert_dir(certificates: Certificates, tmp_path: pathlib.Path,
                                               monkeypatch: pytest.MonkeyPatch) -> None:
    shutil.copy(certificates.path("ca"), tmp_path)
    monkeypatch.setenv("SSL_CERT_DIR", str(tmp_path))
    with RawServer(lambda _: answer(b"x"), certificates.server("good")) as server:
        assert Client(server.base).ask("GET", "/a").body == b"x"


@pytest.mark.parametrize(("name", "words"), [("self", SELF_SIGNED), ("good", UNKNOWN), ("expired", UNKNOWN),
                                             ("other", UNKNOWN)])
def test_issuer_is_named_with_the_remedy(certificates: Certificates, name: str, words: str,
                                         monkeypatch: pytest.MonkeyPatch) -> None:
    monkeypatch.delenv("SSL_CERT_FILE", raising=False)
    with RawServer(lambda _: answer(b"x"), certificates.server(name)) as server:
        assert refused(server.base) == words
        assert server.requests == []


def test_self_signed_certificate_is_not_trusted_for_a_private_ca(certificates: Certificates, trusting: None) -> None:
    with RawServer(lambda _: answer(b"x"), certificates.server("self")) as server:
        assert refused(server.base) == SELF_SIGNED


def test_self_signed_certificate_is_trusted_by_ssl_cert_file(certificates: Certificates,
                                                             monkeypatch: pytest.MonkeyPatch) -> None:
    monkeypatch.setenv("SSL_CERT_FILE", str(certificates.path("self")))
    with RawServer(lambda _: answer(b"x"), certificates.server("self")) as server:
        assert Client(server.base).ask("GET", "/a").body == b"x"


@pytest.mark.parametrize(("name", "words"), [("expired", "it has expired"), ("early", "it is not valid yet")])
def test_certificate_of_another_time_is_named(certificates: Certificates, trusting: None, name: str,
                                              words: str) -> None:
    with RawServer(lambda _: answer(b"x"), certificates.server(name)) as server:
        why = refused(server.base)
        assert why.startswith(f"certificate verify failed: {words}") and "clock" in why
        assert server.requests == []


def test_certificate_of_another_name_is_named(certificates: Certificates, trusting: None) -> None:
    with RawServer(lambda _: answer(b"x"), certificates.server("other")) as server:
        why = refused(server.base)
        assert why.startswith("certificate verify failed: ") and "does not match target host name '127.0.0.1'" in why
        assert why.endswith("; use a name that the certificate has")
        assert server.requests == []


def saying(first: bytes) -> Callable[[socket.socket, int], None]:
    """Return a function that answers every connection with these bytes."""
    def serve(connection: socket.socket, _: int) -> None:
        with connection:
            connection.recv(1)
            connection.sendall(first)
            connection.recv(65_536)

    return serve


BAD_REQUEST = b"".join(answer(b"", "400 Bad Request").pieces)
# A fatal alert of TLS: an unexpected message, and a protocol version.
ALERTS = b"\x15\x03\x01\x00\x02\x02\x0a", b"\x15\x03\x01\x00\x02\x02\x46"


@pytest.mark.parametrize("first", [BAD_REQUEST, b"SSH-2.0-OpenSSH\r\n", b"220 mail ESMTP\r\n"])
def test_port_without_tls_is_named(first: bytes) -> None:
    with RawServer(lambda _: answer(b"")) as server, mock.patch.object(server, "serve", saying(first)):
        why = refused(server.base.replace("http:", "https:"))
        assert why.endswith(": no TLS is spoken at this port; does the address begin with http://?")


@pytest.mark.parametrize("first", [*ALERTS, b"SSH-2.0-OpenSSH\r\n"])
def test_port_without_http_is_named(first: bytes) -> None:
    with RawServer(lambda _: answer(b"")) as server, mock.patch.object(server, "serve", saying(first)):
        with pytest.raises(Silent, match="no HTTP is spoken at this port; is it the right one, or does the address "
                                         "begin with https://?"):
            Client(server.base, patience=0).ask("GET", "/a")


def test_request_without_tls_that_nginx_refuses_has_the_remedy() -> None:
    page = b"<html><h1>400 Bad Request</h1>The plain HTTP request was sent to HTTPS port</html>"
    with RawServer(lambda _: answer(page, "400 Bad Request", "Content-Type: text/html")) as server:
        assert error_text(Client(server.base).ask("GET", "/a")) == (
            "400 Bad Request: TLS is spoken at this port; does the address begin with https://?")


def test_server_with_old_versions_of_tls_is_named(certificates: Certificates, trusting: None) -> None:
    context = certificates.server("good")
    context.set_ciphers("ALL:@SECLEVEL=0")
    with warnings.catch_warnings():
        warnings.simplefilter("ignore", DeprecationWarning)
        context.minimum_version, context.maximum_version = ssl.TLSVersion.TLSv1, ssl.TLSVersion.TLSv1_1
    with RawServer(lambda _: answer(b"x"), context) as server:
        assert refused(server.base).endswith(": the server knows no TLS 1.2 or newer; it needs an update")
        assert server.requests == []


@pytest.mark.parametrize("text", ["", "no certificate", None])
def test_file_of_certificates_that_is_none_is_named(certificates: Certificates, text: str | None,
                                                    tmp_path: pathlib.Path, monkeypatch: pytest.MonkeyPatch) -> None:
    if text is not None:
        (tmp_path / "file").write_text(text)
    monkeypatch.setenv("SSL_CERT_FILE", str(tmp_path / "file"))
    with RawServer(lambda _: answer(b"x"), certificates.server("good")) as server:
        why = refused(server.base)
        assert "SSL_CERT_FILE" in why


def test_handshake_that_is_cut_is_tried_again(certificates: Certificates, trusting: None) -> None:
    """A restarting server cuts handshakes; its certificate is not at fault."""
    with RawServer(lambda _: answer(b"x")) as plain, mock.patch.object(plain, "serve", lambda one, _: one.close()):
        with pytest.raises(Silent, match="no answer for 0.3 seconds"):
            Client(plain.base.replace("http:", "https:"), patience=0.3).ask("GET", "/a")
        assert plain.connections > 1


def test_certificate_of_the_client_is_shown(certificates: Certificates, trusting: None) -> None:
    with RawServer(lambda _: answer(b"x"), certificates.server("good", ssl.CERT_REQUIRED)) as server:
        client = Client(server.base, certificate=str(certificates.path("client")))
        assert client.ask("PUT", "/a", b"body").status == 200
        assert "client.example" in str(server.certificates)


def test_certificate_of_the_client_is_wanted(certificates: Certificates, trusting: None) -> None:
    with RawServer(lambda _: answer(b"x"), certificates.server("good", ssl.CERT_REQUIRED)) as server:
        with pytest.raises(Fault, match=f"GET {server.base}/a: "):
            Client(server.base, patience=0).ask("GET", "/a")
        assert server.requests == []


@pytest.mark.parametrize("text", ["", "no certificate"])
def test_certificate_of_the_client_that_is_none_is_refused(text: str, tmp_path: pathlib.Path) -> None:
    (tmp_path / "file").write_text(text)
    with pytest.raises(Misused, match="is no certificate with its key"):
        Client("https://source.example", certificate=str(tmp_path / "file"))


def test_missing_certificate_of_the_client_is_unusable(tmp_path: pathlib.Path) -> None:
    with pytest.raises(Unusable, match="file: cannot be read: No such file"):
        Client("https://source.example", certificate=str(tmp_path / "file"))


def test_certificate_without_its_key_is_refused(certificates: Certificates) -> None:
    with pytest.raises(Misused, match="is no certificate with its key"):
        Client("https://source.example", certificate=str(certificates.path("ca")))


class Following(Transfer):
    """A transfer that follows its redirect."""

    is_kept = True

    def redirect(self, response: object) -> str:
        """Return the target."""
        return response.fields.get("Location")  # type: ignore[attr-defined,no-any-return]


def test_other_origins_are_not_shown_the_certificate(certificates: Certificates, trusting: None) -> None:
    """The certificate goes to no other port after a redirect, but again to its own origin."""
    optional = certificates.server("good", ssl.CERT_OPTIONAL)
    with RawServer(lambda _: answer(b"other"), optional) as other, RawServer(
            lambda request: answer(b"", "302 Found", f"Location: {other.base}/b") if request.path == "/a"
            else answer(b"own"), optional) as own:
        transfers = Transfers(own.base, certificate=str(certificates.path("client")))
        urls = [f"{own.base}/a", f"{own.base}/c", f"{other.base}/d", f"{own.base}/c"]
        bodies = [getattr(result, "body", result) for _, result in transfers.each(Following(url, 9) for url in urls)]
        assert bodies == [b"other", b"own", b"other", b"own"]
        assert [bool(shown) for shown in own.certificates] == [True] * own.connections
        assert [bool(shown) for shown in other.certificates] == [False] * other.connections


def test_request_over_tls_that_is_not_safe_is_sent_once(certificates: Certificates, trusting: None) -> None:
    with RawServer(lambda request: answer(b"x", then="keep" if request.method == "GET" else "close"),
                 certificates.server("good")) as server:
        client = Client(server.base)
        client.ask("GET", "/a")
        client.ask("POST", "/a")
        client.ask("GET", "/a")
        assert [(request.method, request.connection) for request in server.requests] == [
            ("GET", 0), ("POST", 1), ("GET", 0)]
