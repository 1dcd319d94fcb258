"""Lists of a source: one reader of a list and its parts, and the strict rules, by which a Ropepeach is read
(docs/DOCUMENTS.md). The lenient rules, for all other sources, are in lenient.py.

By the strict rules the Source Description leads to all documents, and all addresses in them begin with the source's
base. A list that breaks a rule is refused. operations/docs/DESTINATIONS.md says why a folder that was made by these
rules is exactly one state of the source.
"""
from __future__ import annotations

import enum
import re
import time
from collections.abc import Callable, Iterable, Iterator
from typing import NamedTuple, TypeVar

from ropepeach.disk.formula import MOST_CHANGES, MOST_RESOURCES
from ropepeach.faults import Fault, Long
from ropepeach.http.client import Client, error_text
from ropepeach.resync.facts import Facts, dated, exact_facts, fit, is_name, length_of
from ropepeach.resync.moments import LAST, is_moment, milliseconds
from ropepeach.resync.sitemaps import MOST_ELEMENTS, Document, Listed, Take, document_in

# The Source Description and the Capability List of a Ropepeach, below its base.
DESCRIPTION_PATH, CAPABILITIES_PATH = "/.well-known/resourcesync", "/capabilitylist.xml"
# An address is visible ASCII.
ADDRESS = re.compile(r"[!-~]+")
# The attempts to read a list during publications; the first and the longest pause, in seconds.
READINGS, PAUSE, LONGEST_LIST_PAUSE = 50, 0.1, 1.0
Read = TypeVar("Read")


class Entry(NamedTuple):
    """An entry of a list: the name of the resource below the folder, its moment, its facts (None for a deletion), and
    the word of a Change List.

    `address` is empty if it follows from the name (BASE/resource/NAME). If several changes have the same moment,
    `others` has the facts of the others, and `is_doubtful` means that one of them is a deletion.
    """

    name: str
    moment: str
    facts: Facts | None
    change: str = ""
    address: str = ""
    encoding: str = ""
    others: tuple[Facts, ...] = ()
    is_doubtful: bool = False

    @property
    def choices(self) -> tuple[Facts, ...]:
        """Return the facts; the body must fit one of them."""
        return self.others if self.facts is None else (self.facts, *self.others)


class Changes(NamedTuple):
    """The changes of a Change List after a moment, in their order, and the newest moment in the list. `met` is the
    change of that moment, if it was read, `has_met` whether there is one, and `covers` whether the list begins earlier.
    """

    newest: str
    entries: list[Entry]
    met: Entry | None = None
    has_met: bool = False
    covers: bool = False


class StrictRule(enum.Enum):
    """A rule by which a folder is exactly as listed, and its text if it fails."""

    DATED = "the Resource List has no `at`"
    READ = "entries were passed over"
    ORDERED = "the moments of the lists are in no order"
    COMPARED = "a resource is listed without a digest"
    HELD = "lists or resources are missing"

    @property
    def word(self) -> str:
        """Return the name of the rule, as in the output of --json."""
        return self.name.lower()


class Unheld(Fault):
    """An address has no resource, or other bytes than listed: a later change may be the reason."""


class Gone(Unheld):
    """The resource at an address is gone (404, 410)."""


class Dropped(Fault):
    """The Change List begins after a moment: no list has the changes between."""


class OtherForm(Fault):
    """A source other than a Ropepeach, to which the lenient rules apply."""


class Several(Fault):
    """A Source Description that names several sources, or a source below it."""

    def __init__(self, address: str, bases: list[str]) -> None:
        super().__init__(f"{address}: the Source Description names {len(bases):,} sources; take each by its "
                         f"own base: {' '.join(bases[:10])}")
        self.bases = bases


class Reader:
    """Reads a list, part by part if it is an index. A subclass has the rules."""

    def document(self, address: str, take: Take | None = None) -> Document:
        """Return a document; `take` gets the entries of a list as they come."""
        raise NotImplementedError

    def entry(self, document: Document, listed: Listed) -> Entry | None:
        """Return an entry, or None if it is skipped. Raise Fault if the rules refuse it."""
        raise NotImplementedError

    def list_at(self, address: str, take: Callable[[Entry], object], limit: int,
                parts_of: Callable[[Document], Iterable[Listed]]) -> tuple[Document, list[Document]]:
        """Read a list, and give its entries to `take`. Return its head, and the parts that `parts_of` chooses."""
        counted = 0

        def count(document: Document, listed: Listed) -> None:
            """Count an entry, and take it."""
            nonlocal counted
            counted += 1
            if counted > limit:
                raise Fault(f"{document.address}: refused, as its {document.capability or 'list'} has more than "
                            f"{limit:,} entries")
            entry = self.entry(document, listed)
            if entry is not None:
                take(entry)

        head = self.document(address, count)
        return head, [self.part(head, part, count) for part in parts_of(head)]

    def part(self, head: Document, pointer: Listed, take: Take | None) -> Document:
        """Read a part that an index names."""
        raise NotImplementedError


class Source(Reader):
    """A source that is read by the strict rules."""

    def __init__(self, client: Client, is_at_base: bool = False, latest: str = LAST,
                 is_tried: bool = False) -> None:
        """Read the Source Description and the Capability List. With `is_at_base` the source must name its address as
        its base. A moment later than `latest` is refused. With `is_tried` a source of another form raises OtherForm.
        """
        self.client, self.base, self.documents, self.latest = client, client.address, 0, latest
        self.is_tried, self.front = is_tried, ""
        try:
            capability_lists = addresses(self.document(self.base + DESCRIPTION_PATH), "capabilitylist")
        except Unheld as why:
            raise Unheld(f"{why}: give the base of a source, as https://source.example.org") from None
        bases = [address.removesuffix(CAPABILITIES_PATH) for address in capability_lists]
        # (one below the address is a collection of one)
        if len(bases) > 1 or (is_at_base and bases[0].startswith(self.base + "/")):
            raise Several(self.base, bases)
        if is_at_base and bases[0] != self.base:
            raise Fault(f"{self.base}: the source calls itself {bases[0]}; use that address, its base")
        self.base = bases[0]
        self.front = self.base + "/resource/"
        self.lists = self.document(capability_lists[0])
        if is_tried and not is_own_form(self.lists, self.base):
            raise OtherForm(f"{self.base}: its lists are not those of a Ropepeach")

    def bytes_at(self, address: str, limit: int) -> bytes:
        """Return the body of an address below the base."""
        if not address.startswith(self.base + "/"):
            raise Fault(f"{address[:300]}: refused, as it is not below the base {self.base}")
        if not ADDRESS.fullmatch(address):
            raise Fault(f"{address[:300]}: refused, as an address has visible ASCII characters alone")
        answer = self.client.ask("GET", address.removeprefix(self.base), limit=limit)
        if answer.status != 200:
            raise Unheld(f"{address}: {error_text(answer)}")
        return answer.body

    def document(self, address: str, take: Take | None = None) -> Document:
        return self.parsed(address, self.bytes_at(address, self.client.longest), take)

    def parsed(self, address: str, text: bytes, take: Take | None = None) -> Document:
        """Return the document in a text."""
        self.documents += 1
        document = document_in(address, text, take, MOST_ELEMENTS)
        if document.strays:
            raise Fault(f"{address}: refused, as it has entries of an index and of a list")
        return document

    def resource(self, name: str, facts: Facts) -> bytes:
        """Return the body of a resource, if it is as listed."""
        address = f"{self.base}/resource/{name}"
        try:
            body = self.bytes_at(address, length_of(facts))
        except Long as why:
            raise Unheld(f"{why}: it is listed with fewer") from None
        if not fit(facts, body):
            raise Unheld(f"{address}: has other bytes than listed")
        return body

    def entry(self, document: Document, listed: Listed) -> Entry:
        place, attributes = listed.loc, listed.attributes
        name = place.removeprefix(self.front)
        if name == place or not is_name(name):
            raise self.refused(listed, f"{place[:300]}: refused, as it is no resource below {self.front}"
                               if place else "a document has a url without loc")
        moment = self.moment(attributes.get("datetime") or listed.modified)
        change = attributes.get("change", "")
        if change == "deleted":
            return Entry(name, moment, None, change)
        facts = exact_facts(attributes)
        if facts is None:
            raise self.refused(listed, f"{place}: refused, as it is listed with no length of 16 MiB at most or no "
                                       f"digest that is known: {dict(attributes)}"[:600])
        self.is_tried = False
        return Entry(name, moment, facts, change)

    def refused(self, listed: Listed, why: str) -> Fault:
        """Return the fault of an entry; that of the first one may show another form."""
        return (OtherForm if self.is_tried and not listed.attributes.get("change") else Fault)(why)

    def moment(self, text: str | None) -> str:
        """Return a moment of a document, if it is not later than the latest one."""
        moment = strict_moment(text)
        if moment > self.latest:
            raise Fault(f"{self.base}: refused, as its lists have the moment {moment}, later than {self.latest}: "
                        "one of the two clocks is wrong, this machine's or the source's")
        return moment

    def part(self, head: Document, pointer: Listed, take: Take | None) -> Document:
        """Read a part that an index names. An older one than named, of a cache, is refused."""
        part = self.document(pointer.loc, take)
        wanted, own = pointer.attributes.get("until"), part.attributes.get("until")
        if wanted is not None and (own is None or own < wanted):
            raise Unheld(f"{pointer.loc}: is older than the list that names it")
        return part

    def read_again(self, read: Callable[[], Read], lost: type[Fault], what: str) -> Read:
        """Read lists until no publication replaces them: twice at once, then after pauses, within the patience."""
        end, pause = time.monotonic() + self.client.patience, 0.0
        for turn in range(1, READINGS + 1):
            try:
                return read()
            except lost as fault:
                why = fault
            if turn > 1 and time.monotonic() > end:
                break
            time.sleep(pause)
            pause = min(2 * pause or PAUSE, LONGEST_LIST_PAUSE)
        raise Fault(f"the {what.format(turn)}: {why}")

    def resource_list(self, is_dated: bool = False) -> tuple[str, dict[str, Facts | None]]:
        """Return the moment of the latest publication, and the facts of its resources, with moments if `is_dated`."""

        def read() -> tuple[str, dict[str, Facts | None]]:
            """Read the list once."""
            found: dict[str, Facts | None] = {}

            def take(entry: Entry) -> None:
                """Keep the facts of an entry."""
                if entry.name in found:
                    raise Fault(f"{self.base}: refused, as its Resource List has {entry.name} twice")
                found[entry.name] = kept(entry) if is_dated else entry.facts

            address = list_address(self.lists, "resourcelist")
            head, _ = self.list_at(address, take, MOST_RESOURCES, lambda head: head.entries)
            return self.moment(head.attributes.get("at")), found

        return self.read_again(read, Unheld, "Resource List was read {} times, and each time lost a part")

    def published_at(self) -> str:
        """Return the moment of the latest publication."""
        head = self.document(list_address(self.lists, "resourcelist"), lambda *_: None)
        return strict_moment(head.attributes.get("at"))

    def changes(self, after: str) -> Changes:
        """Return the changes of the Change List after a moment; earlier parts are not read."""

        def read() -> Changes:
            """Read the list once."""
            bounds, found = Bounds(self, after), list[Entry]()
            self.list_at(list_address(self.lists, "changelist"), found.append, MOST_CHANGES, bounds.wanted)
            return changes_in(bounds, found)

        return self.read_again(read, Unheld, "Change List was read {} times, and each time lost a part")

    def lists_that_meet(self, is_dated: bool = False) -> tuple[str, dict[str, Facts | None], Changes]:
        """Return the moment of a publication, the facts of its resources, and the changes after it."""

        def read() -> tuple[str, dict[str, Facts | None], Changes]:
            """Read the two lists once."""
            at, listed = self.resource_list(is_dated)
            return at, listed, self.changes(at)

        # (Dropped: two publications came after the Resource List was read)
        return self.read_again(read, Dropped, "Resource List was read {} times, and each time too early")


class Bounds:
    """The bounds of the parts of a Change List, and the parts that have changes after a moment."""

    def __init__(self, source: Source, after: str) -> None:
        self.source, self.after, self.start, self.latest = source, after, "", ""
        # Whether a part ends at the moment.
        self.has_met = False

    def wanted(self, head: Document) -> Iterator[Listed]:
        """Return the parts with changes after the moment. Raise Dropped if the list begins later."""
        self.start = self.latest = self.source.moment(head.attributes.get("from"))
        if self.start > self.after:
            raise Dropped(f"the Change List begins at {self.start}, and not at {self.after} or before")
        parts = head.entries
        untils = [self.until_of(part, is_last=part is parts[-1]) for part in parts]
        self.has_met = self.after in untils
        return (part for part, until in zip(parts, untils) if until > self.after)

    def until_of(self, part: Listed, is_last: bool) -> str:
        """Return the moment of the last change of a part. Only the last part may be open. Refuse other orders."""
        start, until = self.source.moment(part.attributes.get("from")), part.attributes.get("until")
        is_open_amid = until is None and not is_last
        if start < self.latest or is_open_amid or (until is not None and self.source.moment(until) <= start):
            raise Fault(f"{self.source.base}: refused, as the parts of its Change List are not in the order of their "
                        f"moments")
        self.latest = start if until is None else until
        return LAST if until is None else until


def changes_in(bounds: Bounds, entries: list[Entry]) -> Changes:
    """Return the changes of a Change List by the entries of its wanted parts."""
    moments = [entry.moment for entry in entries]
    if any(first >= then for first, then in zip([bounds.start, *moments], moments)):
        raise Fault("the Change List is not in the order of its moments")
    # (the list begins at the moment of the last dropped change)
    newest = max([bounds.start, bounds.latest, *moments])
    met = next((entry for entry in entries if entry.moment == bounds.after), None)
    return Changes(newest, [entry for entry in entries if entry.moment > bounds.after], met,
                   bounds.has_met or met is not None, bounds.start < bounds.after)


def kept(entry: Entry) -> Facts | None:
    """Return the facts of an entry with its moment, or None for a deletion."""
    return None if entry.facts is None else dated(entry.facts, milliseconds(entry.moment))


def is_own_form(lists: Document, base: str) -> bool:
    """Return whether a Capability List names the lists of a Ropepeach, all below its base."""
    named = {listed.attributes.get("capability") for listed in lists.entries}
    are_below = all(listed.loc.startswith(base + "/") for listed in lists.entries)
    return are_below and {"resourcelist", "changelist"} <= named


def strict_moment(text: str | None) -> str:
    """Return a moment of a Ropepeach. Refuse any other text."""
    if text is None or not is_moment(text):
        raise Fault(f"{str(text)[:100]!r}: refused, as it is no moment as 2000-02-29T00:00:00.000Z is one")
    return text


def addresses(document: Document, capability: str) -> list[str]:
    """Return the addresses of the lists of a capability that a document names."""
    found = [listed.loc for listed in document.entries if listed.attributes.get("capability") == capability]
    if not found:
        raise Fault(f"the source names no {capability}")
    return found


def list_address(document: Document, capability: str) -> str:
    """Return the address of the first list of a capability."""
    return addresses(document, capability)[0]
