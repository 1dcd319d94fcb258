"""How an origin is reached: its address, a proxy, a client's certificate."""
from __future__ import annotations

import dataclasses
import re
from urllib.parse import urlsplit

from ropepeach.faults import Misused, Unusable
from ropepeach.http.proxies import proxy_to

# Visible ASCII, the characters of an address.
VISIBLE = re.compile(r"[!-~]+")


@dataclasses.dataclass(frozen=True)
class Route:
    """How to reach an origin: by a proxy or directly, and with which certificate of a client."""

    proxy: str | None = None
    certificate: str | None = None


def origin_of(url: str) -> str:
    """Return the scheme, the host and the port of a URL."""
    end = url.find("/", len("https://"))
    return url if end < 0 else url[:end]


def route_to(origin: str, certificate: str | None) -> Route:
    """Return the route to an origin, by the proxies of the environment."""
    parts = urlsplit(origin)
    return Route(proxy_to(parts.scheme, parts.hostname or ""), certificate)


def checked_address(address: str) -> str:
    """Return an address if it is one of http or https, without a user, a query or a fragment."""
    try:
        parts = urlsplit(address)
        is_address = bool(parts.scheme in ("http", "https") and parts.hostname and parts.port != 0
                          and parts.username is None and VISIBLE.fullmatch(address) and not set("?#") & set(address))
    except ValueError:
        is_address = False
    if not is_address:
        raise Misused(f"{address}: an address is http:// or https://, a host, and its path if there is one")
    return address


def usable(certificate: str | None) -> str | None:
    """Return the file of a client's certificate with its key, if it can be used."""
    if certificate:
        # (few runs have one)
        import ssl

        try:
            ssl.create_default_context().load_cert_chain(certificate)
        except FileNotFoundError as fault:
            raise Unusable(f"{certificate}: cannot be read: {fault.strerror}") from None
        except (OSError, ValueError) as fault:
            raise Misused(f"{certificate}: is no certificate with its key: {fault}") from None
    return certificate
