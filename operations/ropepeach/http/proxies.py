"""The proxy that leads to a host, by the environment."""
from __future__ import annotations

import os


def is_near(host: str) -> bool:
    """Return whether a host is this machine, to which no proxy leads."""
    return host == "localhost" or host == "::1" or host.startswith("127.")


def proxy_to(scheme: str, host: str) -> str | None:
    """Return the proxy of the environment for a host: `http_proxy`, `https_proxy` or else `all_proxy`, in any case.

    libcurl reads `no_proxy` itself. `HTTP_PROXY` is ignored in a CGI script, where it is a field of the request.
    """
    if is_near(host):
        return None
    for wanted in (f"{scheme}_proxy", "all_proxy"):
        for name in sorted(os.environ, reverse=True):
            is_field = name == "HTTP_PROXY" and "REQUEST_METHOD" in os.environ
            if name.lower() == wanted and os.environ[name] and not is_field:
                return os.environ[name]
    return None
