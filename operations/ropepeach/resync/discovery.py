"""Find the lists of any source from one address: section 6.3 of ANSI/NISO Z39.99-2017.

The address may be that of a host, with its Source Description at the well-known address; of a Source Description,
another document or a sitemap; or of a page that links to one of these in its head or in a field `Link`. Else the
robots.txt of the host names sitemaps.
"""
from __future__ import annotations

import dataclasses
from collections.abc import Iterable
from typing import NamedTuple

from ropepeach.faults import Fault
from ropepeach.http.response import Response
from ropepeach.resync.addresses import Address, joined, source_at
from ropepeach.resync.asking import BLANKS, Asking, refused
from ropepeach.resync.lists import DESCRIPTION_PATH, Gone, Unheld
from ropepeach.resync.sitemaps import Document, document_in, is_markup, is_text_sitemap

DESCRIPTION, CAPABILITIES, RESOURCES, CHANGES = "description", "capabilitylist", "resourcelist", "changelist"
DUMP, CHANGE_DUMP, CHANGE_MANIFEST = "resourcedump", "changedump", "changedump-manifest"
# The most Capability Lists, links or sitemaps that are followed.
MOST_LISTS = 1_000


class Lists(NamedTuple):
    """The addresses of the lists of one set of resources, and of its dumps. Without a Resource List, the manifests of
    the Resource Dump are the list; without a Change List, those of the Change Dump.
    """

    resources: str
    changes: str | None = None
    dump: str | None = None
    change_dump: str | None = None

    @property
    def is_dump(self) -> bool:
        """Return whether the Resource Dump is the list."""
        return self.resources == self.dump

    @property
    def is_change_dump(self) -> bool:
        """Return whether the Change Dump is the list of changes."""
        return self.changes is not None and self.changes == self.change_dump


class Discovery:
    """Looks for the lists of a source."""

    def __init__(self, asking: Asking) -> None:
        self.asking = asking
        # The faults of lists that are gone, while others lead on.
        self.dead: list[Gone] = []

    def lists_at(self, address: Address) -> list[Lists]:
        """Return the lists that an address leads to."""
        first, second = (self.well_known, self.at) if address.target == "/" else (self.at, self.well_known)
        reasons, self.dead = [], []
        for step in (first, second, self.by_robots):
            try:
                lists = step(address)
            except Unheld as why:
                reasons.append(str(why))
                continue
            if lists:
                return list(dict.fromkeys(lists))
        raise Fault(f"{address}: leads to no list of a source" + "".join(f"; {why}" for why in reasons[:1]))

    def well_known(self, address: Address) -> list[Lists]:
        """Return the lists of the Source Description at the well-known place of a host."""
        place, answer = self.asking.text(dataclasses.replace(address, target=DESCRIPTION_PATH))
        if not is_markup(answer.body):
            raise Unheld(f"{place}: is no document of a source")
        return self.of_answer(place, answer)

    def at(self, address: Address) -> list[Lists]:
        """Return the lists that the document or the page of an address leads to."""
        place, answer = self.asking.text(address)
        if is_text_sitemap(answer.body):
            return [Lists(str(place))]
        return self.of_answer(place, answer) if is_markup(answer.body) else self.of_page(place, answer)

    def of_answer(self, place: Address, answer: Response) -> list[Lists]:
        """Return the lists that the document in a response leads to."""
        self.asking.documents += 1
        return self.of_document(document_in(str(place), answer.body.lstrip(BLANKS), has_type=True))

    def of_page(self, address: Address, answer: Response) -> list[Lists]:
        """Return the lists that the links of a page lead to."""
        from ropepeach.resync.pages import links_of_fields, links_of_page

        targets = [*links_of_fields(answer.fields.get("Link", "")), *links_of_page(answer.body)]
        return self.of_links(address, list(dict.fromkeys(targets[:MOST_LISTS])))

    def by_robots(self, address: Address) -> list[Lists]:
        """Return the lists that the robots.txt of a host leads to."""
        from ropepeach.resync.pages import sitemaps_of

        robots = dataclasses.replace(address, target="/robots.txt")
        return self.of_links(robots, sitemaps_of(self.asking.text(robots)[1].body)[:MOST_LISTS])

    def of_links(self, address: Address, targets: list[str]) -> list[Lists]:
        """Return the lists that links lead to."""
        found = self.living(followed(str(address), target) for target in targets)
        return [lists for document in found for lists in self.of_document(document)]

    def living(self, addresses: Iterable[str]) -> list[Document]:
        """Return the documents at some addresses; those that are gone are noted. Raise Gone if all are."""
        found, dead = list[Document](), list[Gone]()
        for address in addresses:
            try:
                found.append(self.asking.document(address))
            except Gone as why:
                dead.append(why)
        if dead and not found:
            raise dead[0]
        self.dead += dead
        return found

    def of_document(self, document: Document) -> list[Lists]:
        """Return the lists that a document names, or is one of."""
        if document.capability == DESCRIPTION:
            return self.of_description(document)
        if document.capability == CAPABILITIES:
            return [of_capabilities(document)]
        if document.capability == RESOURCES:
            return [self.with_changes(document)]
        if document.capability:
            return [self.of_other(document)]
        # A plain sitemap is a Resource List that says less.
        return [Lists(document.address)]

    def of_description(self, document: Document) -> list[Lists]:
        """Return the lists of all Capability Lists that a Source Description, or an index of them, names."""
        if len(document.entries) > MOST_LISTS:
            raise refused(document.address, f"it names {len(document.entries):,} lists, more than {MOST_LISTS:,}")
        lists = []
        for target in self.living(followed(document.address, entry.loc) for entry in document.entries
                                  if document.is_index or entry.attributes.get("capability") == CAPABILITIES):
            if target.capability == DESCRIPTION and not target.is_index and document.is_index:
                lists += self.of_description(target)
            elif target.capability == CAPABILITIES:
                lists.append(of_capabilities(target))
            else:
                raise refused(target.address, "it is no Capability List, as the Source Description says")
        return lists

    def above(self, document: Document) -> Document | None:
        """Return the Capability List to which a list links."""
        target = document.link("up")
        address = None if target is None else joined(source_at(document.address), target)
        if address is None or not self.asking.hosts.allow(address):
            return None
        try:
            found = self.asking.document(str(address))
        except Unheld:
            return None
        return found if found.capability == CAPABILITIES else None

    def with_changes(self, document: Document) -> Lists:
        """Return a Resource List with its Change List, if the Capability List above names both."""
        above = self.above(document)
        if above is not None:
            lists = of_capabilities(above)
            if lists.resources == document.address:
                return lists
        return Lists(document.address)

    def of_other(self, document: Document) -> Lists:
        """Return the other lists of a Change List or a dump, by the Capability List above it."""
        above = self.above(document)
        if above is None and document.capability == DUMP:
            return Lists(document.address, dump=document.address)
        if above is None:
            raise refused(document.address, f"it is a {document.capability}, and no Capability List above it "
                                            f"names a Resource List")
        return of_capabilities(above)


def of_capabilities(document: Document) -> Lists:
    """Return the Resource List, the Change List and the dumps that a Capability List names."""
    named = {entry.attributes.get("capability"): entry.loc for entry in reversed(document.entries)}
    resources, changes, dump, change_dump = (followed(document.address, named[word]) if word in named else None
                                             for word in (RESOURCES, CHANGES, DUMP, CHANGE_DUMP))
    if resources is None and dump is None:
        raise refused(document.address, "it names no Resource List and no Resource Dump")
    return Lists(resources or dump or document.address, changes or change_dump, dump, change_dump)


def followed(base: str, text: str) -> str:
    """Return the address of a list that a document names."""
    address = joined(source_at(base), text)
    if address is None:
        raise refused(base, f"{text[:300]!r} is no address of a list")
    return str(address)
