"""Addresses of resources and lists: http or https, a host that is allowed, a path and a query."""
from __future__ import annotations

import dataclasses
import re
import sys
import urllib.parse
from collections.abc import Iterable

from ropepeach.faults import Fault, Misused

# Visible ASCII without a fragment or a user; a host of letters, digits, dots, hyphens and underscores, or IPv6.
ADDRESS_FORM = re.compile(r"""(?P<scheme>[Hh][Tt][Tt][Pp][Ss]?)://
    (?P<host>[A-Za-z0-9_](?:[A-Za-z0-9._-]{0,252}[A-Za-z0-9_.-])?|\[(?=[^]]*:)[0-9A-Fa-f:.]{2,45}\])
    (?::(?P<port>[0-9]{1,5}))?
    (?P<path>/[!-"$->@-~]*)?
    (?P<query>\?[!-"$-~]*)?""", re.VERBOSE)
PORTS = {"http": 80, "https": 443}
# Control characters, which no name has; characters that a URI cannot have.
CONTROL, INVISIBLE = re.compile(r"[\x00-\x1f\x7f-\x9f]"), re.compile(r"[^!-~]+")
# Sitemap 0.9 allows 2,048 characters.
LONGEST_ADDRESS = 2_048


@dataclasses.dataclass(frozen=True, slots=True)
class Address:
    """An address, with the scheme, the host and the port in one form, and the path and the query unchanged."""

    scheme: str
    host: str
    port: int
    target: str

    @property
    def origin(self) -> str:
        """Return the scheme, the host, and the port if it is not the scheme's own."""
        return f"{self.scheme}://{self.authority}"

    @property
    def authority(self) -> str:
        """Return the host, and the port if it is not the scheme's own."""
        return self.host if self.port == PORTS[self.scheme] else f"{self.host}:{self.port}"

    def __str__(self) -> str:
        return self.origin + self.target


def address_in(text: str) -> Address | None:
    """Return the address in a text, or None."""
    parts = ADDRESS_FORM.fullmatch(text) if len(text) <= LONGEST_ADDRESS else None
    if parts is None:
        return None
    scheme, host = parts["scheme"].lower(), parts["host"].lower()
    port = int(parts["port"] or PORTS[scheme])
    if not 0 < port < 65_536 or ".." in host:
        return None
    # (one text for all addresses of a host)
    return Address(sys.intern(scheme), sys.intern(host), port,
                   (parts["path"] or "/") + (parts["query"] or ""))


def source_at(text: str) -> Address:
    """Return the address of a source. Raise Misused if the text is no address."""
    address = address_in(text)
    if address is None:
        raise Misused(f"{text}: an address is http:// or https://, a host, and its path if there is one")
    return address


def encoded(base: Address, text: str) -> Address | None:
    """Return the address of a name that is no URI, or None: an IRI is encoded (RFC 3987, section 3.1), a relative
    reference resolved, a fragment dropped.
    """
    if not text or text.startswith("#") or CONTROL.search(text):
        return None
    try:
        parts = urllib.parse.urlsplit(text)
        if not (parts.hostname or "").isascii():
            text = text.replace(parts.hostname or "", (parts.hostname or "").encode("idna").decode(), 1)
    except (ValueError, UnicodeError):
        return None
    return joined(base, INVISIBLE.sub(lambda found: urllib.parse.quote(found[0]), text))


def joined(base: Address, text: str) -> Address | None:
    """Return the address of a link, which may be relative to its document, or None."""
    try:
        return address_in(urllib.parse.urldefrag(urllib.parse.urljoin(str(base), text.strip())).url)
    except ValueError:
        return None


class Hosts:
    """The allowed hosts: by name at the ports of http and https, or at one port, as `example.org:8080`."""

    def __init__(self, names: Iterable[str]) -> None:
        self.names = {checked_host(name) for name in names}

    def allow(self, address: Address) -> bool:
        """Return whether the host of an address is allowed."""
        return f"{address.host}:{address.port}" in self.names or own_host(address) in self.names

    def check(self, address: Address) -> None:
        """Raise Fault if the host of an address is not allowed."""
        if not self.allow(address):
            raise Fault(f"{str(address)[:300]}: refused, as its host is not allowed; --host "
                        f"{address.authority} allows it")


def checked_host(name: str) -> str:
    """Return the host of an option, with its port if it has one. Raise Misused if the text is no host."""
    address = address_in(f"https://{name}/")
    if address is None or address.target != "/" or "/" in name:
        raise Misused(f"{name[:300]!r} is no host, as example.org or example.org:8080")
    has_port = re.search(r":[0-9]+\Z", name) and not name.endswith("]")
    return f"{address.host}:{address.port}" if has_port else address.host


def own_host(address: Address) -> str:
    """Return the host of a source, which is allowed without an option."""
    return address.host if address.port in PORTS.values() else f"{address.host}:{address.port}"
