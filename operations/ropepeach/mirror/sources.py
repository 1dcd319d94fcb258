"""The source of a run: whether it is a Ropepeach, several of them, or a source of any other software.

A Ropepeach is known by its form: URL/.well-known/resourcesync names URL/capabilitylist.xml, its lists lie below the
base, and the first entry of its Resource List, if there is one, lies below BASE/resource/ with a length and a known
digest. The strict rules are for it; a list that breaks one of them is refused. A folder keeps the rules by which it was
begun.
"""
from __future__ import annotations

import argparse
from typing import NamedTuple

from ropepeach.faults import Fault, Long, Misused, Silent
from ropepeach.http.client import Client, client_of
from ropepeach.http.limits import Limits
from ropepeach.http.response import Response, error_text
from ropepeach.http.transfers import Transfers
from ropepeach.mirror.aims import Aims, StrictAims
from ropepeach.mirror.catalogue import Catalogue
from ropepeach.mirror.engine import Engine
from ropepeach.mirror.events import Events
from ropepeach.mirror.folder import Folder
from ropepeach.resync.addresses import Address, Hosts, address_in, own_host, source_at
from ropepeach.resync.asking import Asking
from ropepeach.resync.lists import CAPABILITIES_PATH, DESCRIPTION_PATH, Gone, Several, Source
from ropepeach.resync.moments import latest_now
from ropepeach.resync.sitemaps import document_in


def source_base(url: str) -> str:
    """Return the base of a Ropepeach at a URL, which may be that of its Source Description."""
    return url.rstrip("/").removesuffix(DESCRIPTION_PATH)


class Trial(NamedTuple):
    """The well-known place of a URL: its response or its fault, and the bases that it names."""

    answer: Response | Fault
    bases: list[str]


def trial_of(client: Client) -> Trial:
    """Ask for the well-known place of an address."""
    try:
        answer = client.ask("GET", DESCRIPTION_PATH)
    except Long as why:
        return Trial(why, [])
    try:
        document = document_in(client.address + DESCRIPTION_PATH, answer.body) if answer.status == 200 else None
    except Fault:
        document = None
    named = [] if document is None else [
        listed.loc for listed in document.entries if listed.attributes.get("capability") == "capabilitylist"]
    is_form = all(address.endswith(CAPABILITIES_PATH) for address in named)
    return Trial(answer, [address.removesuffix(CAPABILITIES_PATH) for address in named] if is_form else [])


def are_collection(arguments: argparse.Namespace, bases: list[str], limits: Limits) -> bool:
    """Return whether the first of these bases that responds is that of a Ropepeach: then they are a collection."""
    silent: Silent | None = None
    for base in bases:
        try:
            found = trial_of(client_of(arguments, base, limits))
        except Misused:
            return False
        except Silent as why:
            silent = why
            continue
        return found.bases == [base]
    if silent is not None:
        raise silent
    return False


class Sources:
    """The source of a run, by the rules that its form or its folder requires."""

    def __init__(self, arguments: argparse.Namespace, folder: Folder, limits: Limits) -> None:
        self.arguments, self.folder, self.limits = arguments, folder, limits
        self.base, self.catalogue = source_base(arguments.url), Catalogue(folder)
        # The reading of the well-known address, if the form of the source was tried.
        self.trial: Trial | None = None

    def strict(self, is_tried: bool = False) -> Engine:
        """Return the run of a Ropepeach. Raise Several if the address is that of several sources."""
        client = client_of(self.arguments, self.base, self.limits)
        self.claim(client.address, False)
        source = Source(client, is_at_base=True, latest=latest_now(), is_tried=is_tried)
        return self.engine(StrictAims(source, self.folder), source.base)

    def lenient(self) -> Engine:
        """Return the run of any other source."""
        # (a run of a Ropepeach does not need it)
        from ropepeach.mirror.lenient_aims import LenientAims

        arguments, address = self.arguments, source_at(self.arguments.url)
        self.claim(str(address), True)

        def connect(origin: str) -> Client:
            """Return a connection; the certificate is for the source's own host."""
            words = vars(arguments) | ({} if origin == address.origin else {"certificate": None})
            return client_of(argparse.Namespace(**words), origin, self.limits)

        asking = Asking(self.hosts(address), connect, self.transfers(address.origin))
        place, claimed = source_at(self.base + DESCRIPTION_PATH), ""
        if self.trial is not None and place.target == DESCRIPTION_PATH:
            answer, claimed = self.trial.answer, self.base if self.base in self.trial.bases else ""
            if isinstance(answer, Response) and answer.status in (404, 410):
                answer = Gone(f"{place}: {error_text(answer)}")
            if isinstance(answer, Fault) or answer.status == 200:
                asking.known[str(place)] = answer if isinstance(answer, Fault) else (place, answer)
        aims = LenientAims(address, asking, self.folder, self.catalogue, arguments.dumps, claimed)
        return self.engine(aims, str(address), asking.hosts)

    def transfers(self, origin: str) -> Transfers:
        """Return the transfers of bodies; only an origin gets the certificate."""
        arguments = self.arguments
        return Transfers(origin, arguments.patience, arguments.certificate, arguments.max_time, self.limits,
                         arguments.connections)

    def engine(self, aims: Aims, base: str, hosts: Hosts | None = None) -> Engine:
        """Return a run for these aims."""
        arguments = self.arguments
        events = Events(self.folder, base if isinstance(aims, StrictAims) else "", arguments.on_change)
        return Engine(aims, self.folder, self.catalogue, self.transfers(base), self.limits, events, base, hosts,
                      arguments.require)

    def claim(self, source: str, is_any: bool) -> None:
        """Check that the folder may mirror a source. Raise a Fault if a run would begin with a forbidden baseline."""
        self.folder.claim(source, is_any)
        if self.arguments.incremental and (self.arguments.baseline or self.folder.until is None):
            raise Fault("there is no earlier run to go on from")

    def of_folder(self) -> Engine:
        """Return the run of a folder that was begun before."""
        assert self.folder.state is not None
        return self.lenient() if self.folder.state.is_any else self.strict()

    def found(self) -> Engine:
        """Return the run of a new folder, by the form of the source."""
        if "?" in self.arguments.url:
            return self.lenient()
        client = client_of(self.arguments, self.base, self.limits)
        trial = self.trial = trial_of(client)
        bases, address = trial.bases, client.address
        if address in bases:
            return self.strict(is_tried=True)
        if len(bases) == 1 and not bases[0].startswith(address + "/") and self.is_elsewhere(bases[0]):
            raise Fault(f"{address}: the source calls itself {bases[0]}; use that address, its base")
        if bases and are_collection(self.arguments, bases, self.limits):
            raise Several(address, bases)
        return self.lenient()

    def is_elsewhere(self, base: str) -> bool:
        """Return whether a base has a host that is not allowed."""
        address, hosts = address_in(base), self.hosts(source_at(self.arguments.url))
        return address is None or not hosts.allow(address)

    def hosts(self, address: Address) -> Hosts:
        """Return the allowed hosts."""
        return Hosts([own_host(address), *self.arguments.host])
