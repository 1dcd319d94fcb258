"""Requests to one source by libcurl, one after another. http/transfers.py runs several transfers at once."""
from __future__ import annotations

import argparse
from collections.abc import Mapping

from ropepeach.cli import numbers
from ropepeach.faults import Fault
from ropepeach.http.limits import PATIENCE, WHOLE, Limits, Rate
from ropepeach.http.response import Fields, Response, error_text

__all__ = ["LONGEST_DOCUMENT", "PATIENCE", "Client", "Fields", "Response", "add_options", "client_of", "error_text"]

# The longest document, in bytes (Sitemap 0.9).
LONGEST_DOCUMENT = 10_485_760


class Client:
    """A client of the source at an address: http or https, a host, and its path if there is one."""

    def __init__(self, address: str, patience: float = PATIENCE, certificate: str | None = None,
                 whole: float = WHOLE, limits: Limits | None = None) -> None:
        """Set the limits: retries for `patience` seconds, and `whole` seconds for one response.

        Raise `Misused` if the address is invalid or the client's certificate unusable.
        """
        # (a command that only reads its options needs no libcurl)
        from ropepeach.http.transfers import Transfer, Transfers

        self.address, self.patience, self.certificate, self.whole = address.rstrip("/"), patience, certificate, whole
        self.limits, self.longest = limits or Limits(), LONGEST_DOCUMENT
        self.transfers, self.transfer = Transfers(self.address, patience, certificate, whole, self.limits), Transfer

    def ask(self, method: str, path: str, body: bytes | None = None, kind: str | None = None,
            limit: int = LONGEST_DOCUMENT, more: Mapping[str, str] | None = None) -> Response:
        """Return the final response to one request, with a body of at most `limit` bytes.

        A request that changes something is resent only if the source cannot have received it; else raise `Silent`.
        Raise also `Slow` and `Long`, and `Spent` at the limits of the run.
        """
        fields = ({"Content-Type": kind} if kind else {}) | dict(more or {})
        request = self.transfer(self.address + path, limit, fields)
        request.method, request.body, request.is_kept = method, body, True
        [(_, result)] = self.transfers.each([request])
        if isinstance(result, Fault):
            raise result
        return result

    def close(self) -> None:
        """Close the connections. The next request opens a new one."""
        self.transfers.close()


def add_options(parser: argparse.ArgumentParser) -> None:
    """Add the options of every command that sends requests to a source."""
    parser.add_argument("--patience", type=numbers.seconds, default=PATIENCE, metavar="SECONDS",
                        help="how long to ask a source that does not answer (30)")
    parser.add_argument("--max-time", type=numbers.seconds, default=WHOLE, metavar="SECONDS",
                        help="how long one answer may take (600)")
    parser.add_argument("--bwlimit", type=rate_limit, metavar="SIZE",
                        help="send and take no more than this a second, as 500KiB, over all sources together")
    parser.add_argument("--certificate", metavar="FILE", help="a client's certificate and key, in PEM")


def rate_limit(text: str) -> Rate:
    """Return the value of --bwlimit."""
    return Rate(numbers.rate(text))


def client_of(arguments: argparse.Namespace, address: str, limits: Limits | None = None) -> Client:
    """Return a client of an address, by the options of `add_options`."""
    limits = limits or Limits()
    limits.rate = arguments.bwlimit
    return Client(address, arguments.patience, arguments.certificate, arguments.max_time, limits)
