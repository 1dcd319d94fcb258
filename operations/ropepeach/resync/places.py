"""The place of any address below a folder: a valid name (facts.py), different for all addresses that are not
equivalent: `%7E` and `~` are, also `%c3` and `%C3` (RFC 3986, section 6.2.2).

The place of `https://example.org/a/b?c` is `example.org/a/b!3Fc`, that of `http://example.org/` is
`http+example.org/!`. A `!` and two hexadecimal digits are a byte that a name cannot have; a segment `!` is an empty
one. A place that would be too long is `HOST/!long/` and the SHA-256 of the address.
"""
from __future__ import annotations

import hashlib
import re

from ropepeach.resync.addresses import PORTS, Address
from ropepeach.resync.facts import is_name

# The characters that are escaped: all but those of a name, also `!`, and a `%` without two hexadecimal digits.
SPECIAL = re.compile(r"%(?![0-9A-Fa-f]{2})|[^A-Za-z0-9._~$&'()*+,;=:@%-]")
ENCODED, UNRESERVED = re.compile("%([0-9A-Fa-f]{2})"), re.compile("[A-Za-z0-9._~-]")
EMPTY, LONG, ESCAPED = "!", "!long", re.compile("!([0-9A-F]{2})")


def normalized(target: str) -> str:
    """Return a target in the one form of all equivalent ones."""

    def spelled(found: re.Match[str]) -> str:
        """Return one form of an encoded byte."""
        byte = chr(int(found[1], 16))
        return byte if UNRESERVED.fullmatch(byte) else found[0].upper()

    return ENCODED.sub(spelled, target) if "%" in target else target


def escaped_segment(segment: str) -> str:
    """Return a segment of a path as one of a name."""
    if not segment:
        return EMPTY
    if segment in (".", ".."):
        return segment.replace(".", "!2E", 1)
    return SPECIAL.sub(lambda part: f"!{ord(part[0]):02X}", segment)


def front_of(address: Address) -> str:
    """Return the first segment: the host and the port, after `http+` for an address of http."""
    mark = "" if address.scheme == "https" else "http+"
    port = "" if address.port == PORTS[address.scheme] else f":{address.port}"
    colon = "!3A" if address.host.startswith("[") else ":"
    return mark + re.sub(r"[\[\]]", "", address.host).replace(":", colon) + port


def place_of(address: Address) -> str:
    """Return the name of the file of an address."""
    target = normalized(address.target)
    path, mark, query = target[1:].partition("?")
    *above, last = path.split("/")
    # (a `/` in a query is not a separator)
    name = "/".join([front_of(address), *map(escaped_segment, [*above, last + mark + query])])
    if is_name(name):
        return name
    return f"{front_of(address)[:100]}/{LONG}/{hashlib.sha256((address.origin + target).encode()).hexdigest()}"


def address_at(place: str) -> str:
    """Return the address of a place, or an empty text for an address that was too long."""
    front, *segments = place.split("/")
    if not segments or segments[0] == LONG:
        return ""
    scheme, host = ("http", front.removeprefix("http+")) if front.startswith("http+") else ("https", front)
    names = ["" if name == EMPTY else ESCAPED.sub(lambda part: chr(int(part[1], 16)), name) for name in segments]
    return f"{scheme}://{host}/{'/'.join(names)}"
