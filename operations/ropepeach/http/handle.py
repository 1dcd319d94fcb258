"""One handle of libcurl: send a request, receive its response, and explain a failed attempt."""
from __future__ import annotations

import contextlib
import dataclasses
import io
import os
import re
from collections.abc import Mapping, Sequence
from typing import Protocol

import pycurl

from ropepeach import __version__
from ropepeach.faults import Fault
from ropepeach.http.response import Response, last_head, response_of
from ropepeach.http.routes import Route

# The limits in seconds of a connection attempt, and of a pause within a transfer.
CONNECT, STILL = 10, 60
# The most header lines of one response, including interim responses.
MOST_LINES = 200
# Debian's file of trusted CAs.
TRUSTED = "/etc/ssl/certs/ca-certificates.crt"
# libcurl reads a socket up to READS times in one call, each time up to READ bytes, and at least SHORTEST_READ.
READS, READ, SHORTEST_READ = 100, 16_384, 1_024
FIELDS = {"User-Agent": f"ropepeach/{__version__}", "Accept-Encoding": "identity"}
# Options of libcurl without a name in pycurl 7.45.2: omit the fields of a proxy's response to CONNECT, and do not wait
# for the resolver at the end.
SUPPRESS_CONNECT_HEADERS, QUICK_EXIT = 265, 322
OPTIONS: Mapping[int, object] = {
    pycurl.NOSIGNAL: 1,
    pycurl.PROTOCOLS: pycurl.PROTO_HTTP | pycurl.PROTO_HTTPS,
    pycurl.HTTP_VERSION: pycurl.CURL_HTTP_VERSION_1_1,
    pycurl.SSLVERSION: pycurl.SSLVERSION_TLSv1_2,
    # (the target of a request is sent unchanged)
    pycurl.PATH_AS_IS: 1,
    pycurl.FOLLOWLOCATION: 0,
    pycurl.CONNECTTIMEOUT_MS: CONNECT * 1_000,
    pycurl.LOW_SPEED_LIMIT: 1,
    pycurl.LOW_SPEED_TIME: STILL,
    # (so that a message can name a certificate's issuer)
    pycurl.OPT_CERTINFO: 1,
}
# Faults that a retry cannot repair: invalid addresses, and certificates that are not trusted or unreadable.
FINAL = {pycurl.E_URL_MALFORMAT, pycurl.E_SSL_CERTPROBLEM, pycurl.E_SSL_CACERT, pycurl.E_SSL_CACERT_BADFILE}
# Reasons to distrust a certificate, the most important first: the bits of GnuTLS (SSL_VERIFYRESULT), the words of
# OpenSSL, and the text with its remedy. The first row is about the issuer.
CERTIFICATE_DOUBTS = (
    (1 << 6 | 1 << 7, "issuer|self-signed", ""),
    (1 << 5, "revoked", "it is revoked; the server needs a new one"),
    (1 << 8, "too weak|too small", "its algorithm is insecure; the server needs a new one"),
    (1 << 9, "not yet valid", "it is not valid yet; is this machine's clock right?"),
    (1 << 10, "expired", "it has expired; the server needs a new one, or this machine's clock is wrong"))
TRUST = "set SSL_CERT_FILE to a file with its certificate in PEM"
# Protocols other than TLS 1.2 or newer at the port of an https address, by the words of GnuTLS and OpenSSL.
WRONG_PROTOCOLS = (
    ("unexpected TLS packet|wrong version", "no TLS is spoken at this port; does the address begin with http://?"),
    ("protocol version|unsupported protocol", "the server knows no TLS 1.2 or newer; it needs an update"))


class Request(Protocol):
    """A request, as a handle needs it."""

    method: str
    fields: Mapping[str, str]
    body: bytes | None

    @property
    def is_safe(self) -> bool:
        """Whether the request is safe."""


@dataclasses.dataclass(frozen=True)
class Failure:
    """The reason of a failed attempt, whether the request may have been sent, and whether a retry is useless."""

    why: str
    is_sent: bool
    is_final: bool = False


class Handle:
    """A handle for one request after another.

    libcurl calls only methods of lists: no Python line runs within it, so it cannot lose the exception of a signal.
    """

    def __init__(self, seconds: float, most: float) -> None:
        """Limit an attempt to `seconds`, and one call of libcurl to about `most` bytes."""
        self.curl = pycurl.Curl()
        self.lines: list[bytes] = []
        self.came = io.BytesIO()
        # (0 would mean no limit)
        self.milliseconds = max(1, int(seconds * 1_000))
        self.buffer = int(min(READ, max(SHORTEST_READ, most / READS)))
        self.set_all()

    def set_all(self) -> None:
        """Set the options that all requests share."""
        self.fields: Mapping[str, str] | None = None
        self.route: Route | None = None
        for option, value in OPTIONS.items():
            self.curl.setopt(option, value)
        for option in (SUPPRESS_CONNECT_HEADERS, QUICK_EXIT):
            # (libcurl before 7.87 has no QUICK_EXIT)
            with contextlib.suppress(pycurl.error):
                self.curl.setopt(option, 1)
        self.curl.setopt(pycurl.TIMEOUT_MS, self.milliseconds)
        self.curl.setopt(pycurl.BUFFERSIZE, self.buffer)
        self.curl.setopt(pycurl.HEADERFUNCTION, self.lines.append)
        self.curl.setopt(pycurl.WRITEFUNCTION, self.came.write)
        self.set_trusted()

    def set_trusted(self) -> None:
        """Trust the system's CAs, or those of SSL_CERT_FILE and SSL_CERT_DIR instead.

        GnuTLS would read all files of libcurl's default folder for every connection (80 ms of processor time); Debian's
        single file has the same CAs.
        """
        file, folder = os.environ.get("SSL_CERT_FILE"), os.environ.get("SSL_CERT_DIR")
        file = file or (TRUSTED if not folder and os.path.exists(TRUSTED) else None)
        if file or folder:
            for option, path in ((pycurl.CAINFO, file), (pycurl.CAPATH, folder)):
                self.curl.setopt(option, path) if path else self.curl.unsetopt(option)

    def begin(self, request: Request, url: str, route: Route) -> None:
        """Prepare an attempt, which begins when the handle is added to a multi handle."""
        self.lines.clear()
        self.taken()
        if route is not self.route:
            self.take_route(route)
        # (a route may reset the handle, its URL too)
        self.curl.setopt(pycurl.URL, url)
        if request.method != "GET" or self.fields != request.fields:
            self.take_form(request)

    def take_route(self, route: Route) -> None:
        """Set the options of a route. An empty proxy keeps libcurl from reading the environment."""
        if self.route and self.route.certificate:
            # (pycurl cannot remove a certificate from a handle)
            self.curl.reset()
            self.set_all()
        self.route = route
        self.curl.setopt(pycurl.PROXY, route.proxy or "")
        if route.certificate:
            self.curl.setopt(pycurl.SSLCERT, route.certificate)

    def take_form(self, request: Request) -> None:
        """Set the method, the fields and the body.

        libcurl itself resends a request if a reused connection turns out to be closed. It cannot resend a body that it
        reads from a file; without a body, a request that changes something uses a new connection.
        """
        has_body = request.body is not None or request.method == "POST"
        fields = FIELDS | ({"Expect": ""} if has_body else {}) | dict(request.fields)
        self.curl.setopt(pycurl.HTTPHEADER, field_lines(fields))
        self.curl.setopt(pycurl.HTTPGET, 1)
        if has_body:
            self.curl.setopt(pycurl.UPLOAD, 1)
            self.curl.setopt(pycurl.READFUNCTION, io.BytesIO(request.body or b"").read)
            self.curl.setopt(pycurl.INFILESIZE_LARGE, len(request.body or b""))
        if request.method == "HEAD":
            self.curl.setopt(pycurl.NOBODY, 1)
        if request.is_safe:
            self.curl.unsetopt(pycurl.CUSTOMREQUEST)
        else:
            self.curl.setopt(pycurl.CUSTOMREQUEST, request.method)
        for option in (pycurl.FRESH_CONNECT, pycurl.FORBID_REUSE):
            self.curl.setopt(option, int(not request.is_safe and not request.body))
        self.fields = request.fields if request.method == "GET" else None

    def taken(self) -> bytes:
        """Return the new bytes of the body (without a copy), and forget them."""
        came = self.came
        if not came.tell():
            return b""
        taken = came.getvalue()
        came.seek(0)
        came.truncate()
        return taken

    def has_head(self) -> bool:
        """Return whether the final response's head is complete."""
        return last_head(self.lines)[1] < len(self.lines) and self.status() >= 200

    def status(self) -> int:
        """Return the status of the latest head."""
        return int(self.curl.getinfo(pycurl.RESPONSE_CODE))

    def response(self) -> Response:
        """Return the response for the received head, without its body."""
        return response_of(self.status(), self.lines)

    def length(self) -> int:
        """Return the length of the body by its head, or -1."""
        return int(self.curl.getinfo(pycurl.CONTENT_LENGTH_DOWNLOAD))

    def sent(self) -> int:
        """Return the number of sent bytes of the request's body."""
        return int(self.curl.getinfo(pycurl.SIZE_UPLOAD))

    def failure(self, code: int, text: str) -> Failure:
        """Return the failure of an attempt, from libcurl's number and text."""
        is_sent = self.curl.getinfo(pycurl.REQUEST_SIZE) > 0 or code == pycurl.E_SEND_FAIL_REWIND
        is_refused = 400 <= self.curl.getinfo(pycurl.HTTP_CONNECTCODE) < 500
        wrong = [words for pattern, words in WRONG_PROTOCOLS
                 if code == pycurl.E_SSL_CONNECT_ERROR and re.search(pattern, text)]
        why = ": ".join([self.reason(code, text).rstrip("."), *wrong])
        return Failure(why, is_sent, code in FINAL or is_refused or bool(wrong))

    def reason(self, code: int, text: str) -> str:
        """Return a short reason of a failure, with a remedy if there is one."""
        number = self.curl.getinfo(pycurl.OS_ERRNO)
        if code == pycurl.E_COULDNT_CONNECT and number:
            text = os.strerror(number)
            proxy = self.route.proxy if self.route else None
            return f"proxy {proxy.rpartition('@')[2]}: {text}" if proxy else text
        if code == pycurl.E_COULDNT_RESOLVE_HOST:
            return f"{text}: is the name right, and does this machine's DNS answer?"
        if code == pycurl.E_SSL_CACERT_BADFILE:
            return f"{text.rstrip('.')}: does SSL_CERT_FILE name a file of certificates in PEM?"
        if code == pycurl.E_SSL_CACERT:
            return f"certificate verify failed: {self.doubt(text)}"
        if code == pycurl.E_SEND_FAIL_REWIND:
            return "the connection closed before the response"
        if code == pycurl.E_UNSUPPORTED_PROTOCOL:
            return "no HTTP is spoken at this port; is it the right one, or does the address begin with https://?"
        if code == pycurl.E_OUT_OF_MEMORY:
            return "a line of its head is too long"
        return text or f"libcurl's error {code}"

    def doubt(self, text: str) -> str:
        """Return the reason to distrust a certificate."""
        if "does not match" in text:
            return f"{text}; use a name that the certificate has"
        found, is_gnutls = self.curl.getinfo(pycurl.SSL_VERIFYRESULT), "gnutls" in pycurl.version.lower()
        for bits, pattern, words in CERTIFICATE_DOUBTS:
            if found & bits if is_gnutls else re.search(pattern, text):
                return words or self.issuer_doubt(text)
        return text

    def issuer_doubt(self, text: str) -> str:
        """Return the reason to distrust the issuer of a certificate. (Only GnuTLS has the name of a refused issuer.)"""
        names = dict(next(iter(self.curl.getinfo_raw(pycurl.INFO_CERTINFO)), ()))
        subject, issuer = (names.get(name, b"").decode("utf-8", "replace") for name in (b"Subject", b"Issuer"))
        if issuer == subject if issuer else text.endswith("self-signed certificate"):
            return f"it is self-signed; to trust it, {TRUST}"
        return f"this machine does not know its CA{issuer and f' ({issuer})'}; to trust a private CA, {TRUST}"


def field_lines(fields: Mapping[str, str]) -> Sequence[str]:
    """Return fields as lines for libcurl, which omits a field without a value."""
    for name, value in fields.items():
        if not re.fullmatch(r"[ -~\t]*", value):
            raise Fault(f"{value[:100]!r} is no value of the field {name}")
    return [f"{name}: {value}" if value else f"{name}:" for name, value in fields.items()]
