"""The state of a mirror, in the file `#state`: its source, and how far it has read the source's Change Lists."""
from __future__ import annotations

import json
from collections.abc import Mapping
from typing import Any, NamedTuple

from ropepeach.mirror.tree import Tree
from ropepeach.resync.addresses import address_in
from ropepeach.resync.facts import Facts, is_facts, is_name
from ropepeach.resync.lists import Entry
from ropepeach.resync.moments import is_moment, latest_now, moment_in

STATE = "#state"
# The kind of a source that is read by the lenient rules.
ANY = "any"
# The beginnings of the states of a mirror and of a collection, and more bytes than precede the positions.
FRONTS, LONGEST_FRONT = (b'{"source": ', b'{"collection": '), 4_096
# The longest state in bytes: it has the positions of a thousand lists.
LONGEST_STATE = 8 << 20


class Position(NamedTuple):
    """How far a Change List was read: the moment up to which its changes are here, and the newest moment in it."""

    since: str
    latest: str


class State(NamedTuple):
    """The source; the moment up to which its changes are in the folder, and the newest moment read (None before a
    baseline ends); the digests of the change of that moment (empty for a publication) and of the patterns.

    `newest` may also be a moment whose changes a stopped run was bringing. `is_any` marks a source read by the lenient
    rules. `lists` has its positions in the Change Lists, None if version 0.1.0 kept them in `#known`. `passed` counts
    the skipped entries since the last baseline began. `missing` has the entries of listed resources that were gone.
    """

    source: str
    until: str | None
    newest: str | None
    is_any: bool = False
    mark: str | None = None
    filters: str = ""
    lists: Mapping[str, Position] | None = None
    passed: Mapping[str, int] | None = None
    missing: Mapping[str, Entry] | None = None

    def text(self) -> bytes:
        """Return the bytes of the file."""
        lists = None if self.lists is None else {
            address: [where.since, where.latest] for address, where in self.lists.items()}
        more = {"kind": ANY if self.is_any else None, "mark": self.mark, "filters": self.filters or None,
                "lists": lists, "passed": dict(self.passed or {}) or None,
                "missing": missing_text(self.missing) if self.missing else None}
        return json.dumps({"source": self.source, "until": self.until, "newest": self.newest}
                          | {word: value for word, value in more.items() if value is not None}).encode()

    @staticmethod
    def read(text: bytes) -> State | None:
        """Return the state in the bytes of a file, or None."""
        try:
            found = json.loads(text)
            source, until, newest = found["source"], found["until"], found["newest"]
            mark, filters = found.get("mark"), found.get("filters", "")
            lists, passed = positions_in(found.get("lists")), counts_in(found.get("passed", {}))
            missing = missing_in(found.get("missing", {}))
        except (ValueError, LookupError, TypeError, AttributeError, RecursionError):
            return None
        if not isinstance(source, str) or not all(isinstance(text, str | None) for text in (until, newest, mark)):
            return None
        return State(source, until, newest, found.get("kind") == ANY, mark, str(filters), lists, passed,
                     missing or None)

    def is_true(self) -> bool:
        """Return whether a source may have these moments: version 0.1.0 accepted others."""
        moments = [moment for moment in (self.until, self.newest) if moment is not None]
        if self.is_any:
            sinces = [where.since for where in (self.lists or {}).values()]
            return all(moment_in(moment) is not None for moment in (*moments, *sinces))
        return len(moments) != 1 and all(is_moment(moment) and moment <= latest_now() for moment in moments)


def state_in(tree: Tree) -> State | None:
    """Return the state of a folder, if it has one that can be read."""
    return State.read(tree.read(STATE, LONGEST_STATE)) if tree.is_file(STATE) else None


def positions_in(found: Any) -> dict[str, Position] | None:
    """Return the positions that a state has, if it has any."""
    if found is None:
        return None
    return {str(address): Position(str(since), str(latest)) for address, (since, latest) in found.items()}


def missing_text(missing: Mapping[str, Entry]) -> dict[str, list[str]]:
    """Return the missing resources as a state has them."""
    return {name: [entry.address, entry.moment, (entry.facts or b"").hex(), entry.change, entry.encoding]
            for name, entry in missing.items()}


def missing_in(found: Any) -> dict[str, Entry]:
    """Return the missing resources of a state. Raise ValueError if one has no place or no address."""
    missing = dict[str, Entry]()
    for name, (address, moment, facts, change, encoding) in found.items():
        place = address_in(str(address))
        if place is None or not is_name(name) or not is_facts(bytes.fromhex(facts)):
            raise ValueError(name)
        missing[name] = Entry(name, str(moment), Facts(bytes.fromhex(facts)), str(change), str(address), str(encoding))
    return missing


def counts_in(found: Any) -> dict[str, int]:
    """Return the counts of skipped entries."""
    return {str(why): int(count) for why, count in found.items()}
