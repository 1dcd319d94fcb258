"""Requests to the allowed hosts of any source, within the limits of the run."""
from __future__ import annotations

import dataclasses
from collections.abc import Callable, Iterable, Mapping
from typing import IO

from ropepeach.cli import output
from ropepeach.faults import Fault
from ropepeach.http.client import LONGEST_DOCUMENT, Client
from ropepeach.http.response import Response, error_text
from ropepeach.http.transfers import REDIRECTS, Transfer, Transfers
from ropepeach.resync.addresses import Address, Hosts, joined, source_at
from ropepeach.resync.facts import Algorithm, Measure
from ropepeach.resync.lists import Gone, Unheld
from ropepeach.resync.sitemaps import Document, Take, document_in, is_text_sitemap, text_sitemap, unpacked

# The longest resource that is listed without a length, in bytes.
LONGEST_RESOURCE = 256 << 20
NOT_MODIFIED, GONE_STATUSES = 304, (404, 410)
# How many redirects of one request are followed.
MOST_REDIRECTS = 5
# The characters before an XML declaration that are skipped.
BLANKS = b" \t\r\n"


class DamagedDump(Fault):
    """A file of an archive cannot be unpacked."""


class Redirects:
    """The redirects of one request: to allowed hosts, at most a few, and never from https to http."""

    def __init__(self, hosts: Hosts, first: Address) -> None:
        self.hosts, self.first, self.place, self.count = hosts, first, first, 0

    def follow(self, answer: Response) -> Address | None:
        """Return the next address, or None without a redirect. Raise Unheld if it is not allowed, or after too many."""
        if answer.status not in REDIRECTS:
            return None
        target = joined(self.place, answer.fields.get("Location", ""))
        is_out = target is not None and (self.place.scheme, target.scheme) == ("https", "http")
        if target is None or not self.hosts.allow(target) or is_out:
            raise Unheld(f"{self.first}: {error_text(answer)}: not to this place" + (
                "" if target is None or self.hosts.allow(target) else f"; --host {target.authority} allows it"))
        self.count += 1
        if self.count > MOST_REDIRECTS:
            raise Unheld(f"{self.first}: refused, as it redirects more than {MOST_REDIRECTS} times")
        self.place = target
        return target

    def checked(self, answer: Response) -> Response:
        """Return the last response if its status is 200."""
        if answer.status == 200:
            return answer
        raise (Gone if answer.status in GONE_STATUSES else Unheld)(f"{self.first}: {error_text(answer)}")


class Download(Transfer):
    """The body of an address, which goes to a file."""

    def __init__(self, redirects: Redirects, limit: int, file: IO[bytes], algorithms: Iterable[Algorithm]) -> None:
        super().__init__(str(redirects.first), limit)
        self.redirects, self.file, self.algorithms = redirects, file, list(algorithms)
        self.measure = Measure(self.algorithms)

    def begin(self, response: Response) -> None:
        self.file.seek(0)
        self.file.truncate()
        self.measure = Measure(self.algorithms)

    def take(self, piece: bytes) -> None:
        self.measure.take(piece)
        self.file.write(piece)

    def redirect(self, response: Response) -> str | None:
        target = self.redirects.follow(response)
        return None if target is None else str(target)


class Asking:
    """The hosts that may be asked, and the connections to them."""

    def __init__(self, hosts: Hosts, connect: Callable[[str], Client], transfers: Transfers) -> None:
        self.hosts, self.connect, self.transfers = hosts, connect, transfers
        self.clients: dict[str, Client] = {}
        self.documents = 0
        # Earlier responses, by their addresses.
        self.known: dict[str, Fault | tuple[Address, Response]] = {}
        # The deviations that were reported.
        self.noted = set[str]()

    def note(self, address: str, deviation: str, example: str = "") -> None:
        """Report a deviation from the standard, once for each kind."""
        if deviation not in self.noted:
            self.noted.add(deviation)
            output.message(f"{address[:300]}: {deviation}{example and f', as {example[:200]!r}'}")

    def to(self, address: Address) -> Client:
        """Return the connection to the host of an address, if it is allowed."""
        self.hosts.check(address)
        if address.origin not in self.clients:
            self.clients[address.origin] = self.connect(address.origin)
        return self.clients[address.origin]

    def ask(self, address: Address, limit: int, fields: Mapping[str, str]) -> tuple[Address, Response]:
        """Follow the redirects of an address; return the last address and the response there."""
        redirects = Redirects(self.hosts, address)
        while True:
            place = redirects.place
            answer = self.to(place).ask("GET", place.target, limit=limit, more=fields)
            if redirects.follow(answer) is None:
                return place, redirects.checked(answer)

    def text(self, address: Address) -> tuple[Address, Response]:
        """Return the last address of a document or a page, and the response there, with its body unpacked."""
        known = self.known.pop(str(address), None)
        if isinstance(known, Fault):
            raise known
        place, answer = known or self.ask(address, LONGEST_DOCUMENT, {"Accept-Encoding": "gzip"})
        return place, dataclasses.replace(answer, body=unpacked(str(address), answer.body))

    def document(self, address: str, take: Take | None = None) -> Document:
        """Return a document of a source; `take` gets the entries of a list as they come."""
        place, answer = self.text(source_at(address))
        self.documents += 1
        if is_text_sitemap(answer.body):
            return text_sitemap(str(place), answer.body, take)
        return document_in(str(place), answer.body.lstrip(BLANKS), take, has_type=True)

    def download(self, address: Address, limit: int, file: IO[bytes], algorithms: Iterable[Algorithm]) -> Measure:
        """Fetch the body of an address to a file, and return its measure."""
        download = Download(Redirects(self.hosts, address), limit, file, algorithms)
        for _, result in self.transfers.each([download]):
            if isinstance(result, Fault):
                raise result
            download.redirects.checked(result)
        return download.measure

    def close(self) -> None:
        """Close the connections."""
        self.transfers.close()
        for client in self.clients.values():
            client.close()


def refused(address: object, why: str) -> Fault:
    """Return the Fault of an unusable document."""
    return Fault(f"{str(address)[:300]}: refused, as {why}")
