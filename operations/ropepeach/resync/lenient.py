"""The lenient rules, by which sources of any software are read: the rest of ANSI/NISO Z39.99-2017, and common
deviations from it.

An unreadable entry is skipped and counted. The reader notes the first broken rule (StrictRule).
"""
from __future__ import annotations

import collections
from collections.abc import Iterable
from typing import NamedTuple

from ropepeach.faults import Fault
from ropepeach.resync.addresses import Address, address_in, encoded, source_at
from ropepeach.resync.asking import Asking, refused
from ropepeach.resync.discovery import CHANGE_MANIFEST, CHANGES, RESOURCES, followed
from ropepeach.resync.facts import any_facts, are_one_body
from ropepeach.resync.lists import Dropped, Entry, Gone, Reader, StrictRule
from ropepeach.resync.moments import Moment, any_moment, latest_instant, moment_in
from ropepeach.resync.places import EMPTY, place_of
from ropepeach.resync.sitemaps import Document, Listed, Take

# The most entries of a list in all its parts.
MOST_ENTRIES_IN_PARTS = 2_000_000


class LatestChanges(NamedTuple):
    """The latest changes at or after a moment, by name; their newest moment, or that one; the list's newest moment."""

    newest: Moment
    entries: dict[str, Entry]
    latest: Moment | None


class Reading(Reader):
    """Reads lists by the lenient rules. `passed` counts the skipped entries, `rule` is the first broken rule."""

    def __init__(self, asking: Asking, is_baseline: bool = False) -> None:
        self.asking, self.is_baseline = asking, is_baseline
        self.passed = collections.Counter[str]()
        self.rule: StrictRule | None = None
        # The ends of the names of entries of hosts that are not allowed, and the first such host.
        self.elsewhere, self.first_elsewhere = set[str](), ""
        # The parts of Resource Lists that are gone, if such parts are left out.
        self.dead: list[Gone] | None = None

    def fail(self, rule: StrictRule) -> None:
        """Note a rule that failed."""
        self.rule = self.rule or rule

    def document(self, address: str, take: Take | None = None) -> Document:
        return self.asking.document(address, take)

    def part(self, head: Document, pointer: Listed, take: Take | None) -> Document:
        try:
            part = self.document(followed(head.address, pointer.loc), take)
        except Gone as why:
            if self.dead is None or head.capability == CHANGES:
                raise
            self.dead.append(why)
            return Document(head.address)
        if part.is_index:
            raise refused(part.address, "it is an index within an index")
        return part

    def address_of(self, document: Document, listed: Listed) -> Address | None:
        """Return the address of an entry, or None if the entry is skipped."""
        text = listed.loc.strip()
        address = address_in(text)
        if address is None and (address := encoded(source_at(document.address), text)) is not None:
            self.asking.note(document.address, "its names are not all URIs: they are encoded and resolved", text)
        if address is None:
            self.passed["no address"] += 1
        elif not self.asking.hosts.allow(address):
            self.passed["of other hosts"] += 1
            self.elsewhere.add(end_of(place_of(address)))
            self.first_elsewhere = self.first_elsewhere or address.authority
        else:
            return address
        self.fail(StrictRule.READ)
        return None

    def entry(self, document: Document, listed: Listed) -> Entry | None:
        if document.capability in (CHANGES, CHANGE_MANIFEST):
            return self.change(document, listed)
        check_kind(document, RESOURCES)
        address = self.address_of(document, listed)
        if address is None:
            return None
        attributes = listed.attributes
        text = attributes.get("datetime") or attributes.get("modified") or listed.modified
        modified = any_moment(text.strip()) if text else None
        self.check_moment(document, text, modified)
        return Entry(place_of(address), "" if modified is None else modified.text, any_facts(attributes), "",
                     str(address), attributes.get("encoding", "")[:100])

    def change(self, document: Document, listed: Listed) -> Entry | None:
        """Return an entry of a Change List. Refuse an entry without a moment or a known kind of change."""
        address = self.address_of(document, listed)
        if address is None:
            return None
        attributes = listed.attributes
        moment = document_moment(document.address, attributes.get("datetime") or listed.modified)
        self.check_moment(document, attributes.get("datetime") or listed.modified, moment)
        word = attributes.get("change", "").lower()
        if moment is None:
            raise refused(document.address, f"the change of {str(address)[:300]} has no moment")
        if word not in ("created", "updated", "deleted"):
            raise refused(document.address, f"the change of {str(address)[:300]} is {word[:100]!r}: "
                                            f"created, updated and deleted are known")
        return Entry(place_of(address), moment.text, None if word == "deleted" else any_facts(attributes), word,
                     str(address), attributes.get("encoding", "")[:100])

    def check_moment(self, document: Document, text: str | None, moment: Moment | None) -> None:
        """Report a moment that is not quite a W3C Datetime."""
        if text is not None and moment is not None and moment.text != text.strip():
            self.asking.note(document.address, "its moments are no W3C Datetimes: those without an offset are of UTC",
                             text)

    def resources(self, address: str) -> tuple[Moment | None, dict[str, Entry]]:
        """Return the earliest `at` of a Resource List and its parts, and the entries by name."""
        entries: dict[str, Entry] = {}
        head, parts = self.list_at(address, lambda entry: self.keep(address, entry, entries), MOST_ENTRIES_IN_PARTS,
                                   lambda head: check_kind(head, RESOURCES).entries)
        moments = [document_moment(document.address, document.attributes.get("at")) for document in (head, *parts)]
        return earliest(moments), entries

    def keep(self, address: str, entry: Entry, entries: dict[str, Entry]) -> None:
        """Keep an entry. Refuse a resource that a list has twice with different facts."""
        if entry.change:
            # (a Change List, which is refused as a whole)
            return
        other = entries.setdefault(entry.name, entry)
        if other.facts is None or entry.facts is None or not are_one_body(other.facts, entry.facts):
            raise refused(address, f"it has {entry.address[:300]} twice, with different bytes")

    def changes(self, address: str, since: Moment) -> LatestChanges:
        """Return the changes of a Change List that may be after a moment, or at it."""
        read, wanted = list[Entry](), list[Listed]()

        def parts_of(head: Document) -> Iterable[Listed]:
            """Return the parts that may have these changes: all parts, if their bounds are in no order."""
            check_kind(head, CHANGES)
            if any([is_disordered(address, part) for part in head.entries]):
                self.fail(StrictRule.ORDERED)
            is_all = self.rule is StrictRule.ORDERED
            wanted.extend(part for part in head.entries if is_all or not is_over(address, part, since))
            return wanted

        head, parts = self.list_at(address, read.append, MOST_ENTRIES_IN_PARTS, parts_of)
        for number, (pointer, part) in enumerate(zip(wanted, parts)):
            check_part(pointer, part, since, number == 0)
        start = document_moment(address, head.attributes.get("from"))
        dated = dated_entries(read)
        self.check_start(address, start, [moment for moment, _ in dated], since, len(wanted) < len(head.entries))
        ends = [document_moment(address, part.attributes.get("until")) for part in head.entries]
        return self.latest(dated, since, [start, *ends])

    def check_start(self, address: str, start: Moment | None, moments: list[Moment], since: Moment, skips: bool
                    ) -> None:
        """Refuse a Change List that may lack changes after a moment; at a baseline, only report one without `from`."""
        try:
            check_start(address, start, moments, since, skips)
        except Dropped:
            if not self.is_baseline or start is not None:
                raise
            self.asking.note(address, "has no `from`: the run takes its changes, and the next run is a baseline")
            self.fail(StrictRule.ORDERED)

    def latest(self, dated: list[tuple[Moment, Entry]], since: Moment, bounds: list[Moment | None]) -> LatestChanges:
        """Return the latest changes at or after a moment, by name."""
        moments = sorted((*(bound for bound in bounds if bound is not None), *(moment for moment, _ in dated)),
                         key=lambda moment: moment.first)
        due = sorted(((moment, entry) for moment, entry in dated if not moment.is_before(since)),
                     key=lambda pair: pair[0].first)
        last: dict[str, tuple[Moment, Entry]] = {}
        newest = since
        for moment, entry in due:
            before = last.get(entry.name)
            is_together = before is not None and not before[0].is_before(moment)
            last[entry.name] = moment, together(before[1], entry) if before is not None and is_together else entry
            newest = moment if moment.first > newest.first else newest
        return LatestChanges(newest, {name: entry for name, (_, entry) in last.items()},
                             moments[-1] if moments else None)


def end_of(name: str) -> str:
    """Return the end of a name by which a resource that moves to another host is recognized."""
    *front, last = name.rsplit("/", 2)
    return last if last != EMPTY else "/".join([*front[-1:], last])


def dated_entries(entries: Iterable[Entry]) -> list[tuple[Moment, Entry]]:
    """Return changes with their moments."""
    return [(moment, entry) for entry in entries if (moment := moment_in(entry.moment)) is not None]


def check_kind(document: Document, capability: str) -> Document:
    """Return a document of a capability, and refuse others; a plain sitemap is a Resource List."""
    found = document.capability
    if found != capability and not (capability == RESOURCES and (not found or found.endswith("dump-manifest"))):
        name = "Resource List" if capability == RESOURCES else "Change List"
        raise refused(document.address, f"it is a {found or 'sitemap'}, and no {name}")
    return document


def document_moment(address: str, text: str | None) -> Moment | None:
    """Return a moment of a document. Refuse a malformed one, and one later than a day ahead of this machine's clock."""
    if text is None:
        return None
    moment = any_moment(text.strip())
    if moment is None:
        raise Fault(f"{address}: refused, as {text[:100]!r} is no moment of W3C Datetime")
    if moment.first > latest_instant():
        raise Fault(f"{address}: refused, as it has the moment {moment}, more than a day ahead of this machine's clock")
    return moment


def earliest(moments: Iterable[Moment | None]) -> Moment | None:
    """Return the earliest of some moments."""
    known = [moment for moment in moments if moment is not None]
    return min(known, key=lambda moment: moment.first) if known else None


def is_over(address: str, part: Listed, since: Moment) -> bool:
    """Return whether all changes of a part of a Change List are before a moment."""
    until = document_moment(address, part.attributes.get("until"))
    return until is not None and until.is_before(since)


def check_part(pointer: Listed, part: Document, since: Moment, is_first: bool) -> None:
    """Refuse a part that begins later than its index says: it belongs to a newer list. The first part that is read has
    the changes since the moment.
    """
    start = document_moment(part.address, part.attributes.get("from"))
    said = document_moment(part.address, pointer.attributes.get("from")) or (since if is_first else None)
    if start is not None and said is not None and since.is_before(start) and said.is_before(start):
        raise Dropped(f"{part.address}: begins at {start}, and not at {said}")


def is_disordered(address: str, part: Listed) -> bool:
    """Return whether a part of a Change List ends before it begins."""
    start, until = (document_moment(address, part.attributes.get(word)) for word in ("from", "until"))
    return start is not None and until is not None and until.is_before(start)


def check_start(address: str, start: Moment | None, moments: list[Moment], since: Moment, skips: bool) -> None:
    """Refuse a Change List that may lack changes after a moment. Without `from` the first change is its start."""
    if start is None and not skips:
        start = earliest(moments)
        if start is None:
            raise Dropped(f"{address}: has neither `from` nor a change")
    if start is not None and since.is_before(start):
        raise Dropped(f"{address}: begins at {start}, and not at {since} or before")


def together(before: Entry, later: Entry) -> Entry:
    """Return the entry of two changes of one moment. If one is a deletion, the resource is requested."""
    taken, other = (before, later) if later.facts is None else (later, before)
    others = {*before.others, *later.others} | (set() if other.facts is None else {other.facts})
    is_doubtful = before.is_doubtful or later.is_doubtful or (before.facts is None) != (later.facts is None)
    return taken._replace(moment=later.moment, others=tuple(others - {taken.facts}), is_doubtful=is_doubtful)
