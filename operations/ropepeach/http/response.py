"""Responses of HTTP: status, header fields and body (RFC 9110)."""
from __future__ import annotations

import dataclasses
import functools
import re
import time
from collections.abc import Sequence

# The line after a head; a bare line feed is recognised too (RFC 9112, section 2.2).
BLANK_LINES = b"\r\n", b"\n"
# The status of a client that sends too fast (RFC 6585).
TOO_MANY_REQUESTS = 429
# nginx's text for a request without TLS.
PLAIN_REQUEST = b"plain HTTP request was sent to HTTPS port"
TOO_MANY_CHANGES = "TooManyChanges"
# Remedies of refusals, by the word of the source or the status (operations/docs/OPERATING.md, "Troubles").
REMEDIES = {
    "Full": "delete resources, or move to a larger disk",
    TOO_MANY_CHANGES: "publish, twice if the first publication drops nothing",
    "TooManyResources": "delete resources, or use several sources",
    "Device": "run `ropepeach why`, and look at the kernel's log and `df`",
    "NoMemory": "give the program more memory, and run this again",
    "401": "give a certificate that may change the source (--certificate)",
    "403": "fill from a machine that may change the source, or with --certificate",
    "413": "let the proxy take longer bodies",
}


class Fields:
    """The header fields of a response. Names compare without case (RFC 9110, section 5.1)."""

    def __init__(self, lines: Sequence[bytes] = ()) -> None:
        """Take the received field lines, which are parsed on first use."""
        self.lines = lines

    @functools.cached_property
    def pairs(self) -> list[tuple[str, str]]:
        """The names in lower case with the values of their lines, in order."""
        pairs: list[tuple[str, str]] = []
        for line in self.lines:
            text = line.decode("latin-1").rstrip("\r\n")
            if text[:1] in (" ", "\t") and pairs:
                # (an obsolete folding: RFC 9112, section 5.2)
                pairs[-1] = (pairs[-1][0], f"{pairs[-1][1]} {text.strip()}")
            else:
                name, _, value = text.partition(":")
                pairs.append((name.lower(), value.strip()))
        return pairs

    def all(self, name: str) -> list[str]:
        """Return the values of all field lines of a name, in order."""
        lower = name.lower()
        return [value for known, value in self.pairs if known == lower]

    def get(self, name: str, default: str = "") -> str:
        """Return the values of a name joined by ", " (RFC 9110, section 5.2), or the default."""
        values = self.all(name)
        return ", ".join(values) if values else default


@dataclasses.dataclass(frozen=True)
class Response:
    """A final response. `body` has the bytes as sent, without decoding; it is empty if they were streamed."""

    status: int
    reason: str
    fields: Fields
    body: bytes = b""

    def retry_after(self) -> float | None:
        """Return the seconds to wait before a retry, if there is a valid `Retry-After` (RFC 9110, section 10.2.3)."""
        text = self.fields.get("Retry-After").strip()
        if re.fullmatch(r"[0-9]{1,9}", text):
            return float(text)
        if not text:
            return None
        # (few responses have a date)
        from calendar import timegm
        from email.utils import parsedate

        try:
            date = parsedate(text)
            return max(0.0, timegm(date) - time.time()) if date else None
        except (ValueError, OverflowError):
            return None


def last_head(lines: Sequence[bytes]) -> tuple[int, int]:
    """Return the indices of the last head in received lines and of its final empty line.

    Interim responses (1xx) precede it, and the trailer fields of a chunked body follow.
    """
    start, end = 0, end_of_head(lines, 0)
    while end + 1 < len(lines) and lines[end + 1].startswith(b"HTTP/"):
        start, end = end + 1, end_of_head(lines, end + 1)
    return start, end


def end_of_head(lines: Sequence[bytes], start: int) -> int:
    """Return the index of the empty line after a head, or the number of lines."""
    for at in range(start, len(lines)):
        if lines[at] in BLANK_LINES:
            return at
    return len(lines)


def response_of(status: int, lines: Sequence[bytes]) -> Response:
    """Return the response of the last head in received lines, without its body."""
    start, end = last_head(lines)
    reason = lines[start].decode("latin-1").split(" ", 2)[2:]
    return Response(status, "".join(reason).strip(), Fields(lines[start + 1:end]))


def error_text(response: Response) -> str:
    """Return the status of an unsuccessful response, with the source's own word if it has one."""
    word = response.body[:80].decode("ascii", "replace").strip()
    is_word = response.fields.get("Content-Type").startswith("text/plain") and word.isalpha()
    text = f"{response.status} {word if is_word else response.reason}".strip()
    if PLAIN_REQUEST in response.body:
        text += ": TLS is spoken at this port; does the address begin with https://?"
    if 300 <= response.status < 400:
        text += f": redirects are not followed, to {response.fields.get('Location', 'nowhere')[:200]!r}"
    return text
