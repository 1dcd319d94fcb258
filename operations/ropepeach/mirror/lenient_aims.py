"""The aims of a run of any source other than a Ropepeach, by the lenient rules.

An increment takes the changes at or after the last change read: it repeats that moment, because more changes of it may
have come. Several Capability Lists make one folder, and every Change List has its own position.
"""
from __future__ import annotations

import collections
from collections.abc import Iterator, Sequence

from ropepeach.cli import output
from ropepeach.faults import Fault
from ropepeach.mirror.aims import BASELINE, INCREMENTAL, Aim, Aims, Kept, Wanted
from ropepeach.mirror.catalogue import Catalogue
from ropepeach.mirror.folder import Folder
from ropepeach.mirror.state import Position, State
from ropepeach.resync.addresses import Address
from ropepeach.resync.asking import Asking
from ropepeach.resync.discovery import Discovery, Lists
from ropepeach.resync.dumps import Archive, Dumps
from ropepeach.resync.facts import has_digest
from ropepeach.resync.lenient import LatestChanges, Reading, earliest, end_of
from ropepeach.resync.lists import Dropped, Entry, Gone, StrictRule, Unheld
from ropepeach.resync.moments import Moment, clamped, moment_in

# The number of attempts of a baseline to find lists that meet.
LENIENT_READINGS = 3


class LenientAims(Aims):
    """The aims of a run by the lenient rules."""

    passes = 5

    def __init__(self, address: Address, asking: Asking, folder: Folder, catalogue: Catalogue,
                 has_dumps: bool = False, claimed: str = "") -> None:
        """Take the settings. `claimed` is the base of a source that claims to be a Ropepeach, but has other lists."""
        super().__init__(folder, asking)
        self.claimed = claimed
        self.address, self.asking, self.catalogue, self.has_dumps = address, asking, catalogue, has_dumps
        self.dumps, self.found = Dumps(asking), list[Lists]()
        self.discovery = Discovery(asking)

    def positions(self) -> dict[str, Position]:
        """Return the positions in the Change Lists; they are empty if the records of the files were lost."""
        known, state = self.catalogue.known, self.state
        if self.catalogue.is_lost or self.folder.until is None and state.lists:
            return {}
        # (version 0.1.0 kept them there)
        return known.lists() if state.lists is None else dict(state.lists)

    def passed(self) -> dict[str, int]:
        """Return the entries skipped since the last baseline began."""
        state = self.state
        return self.catalogue.known.passed() if state.lists is None else dict(state.passed or {})

    def aim(self, is_baseline: bool) -> Aim:
        lists = self.found = self.discovery.lists_at(self.address)
        if not is_baseline:
            try:
                return self.increment(lists)
            except Dropped:
                pass
        return self.baseline(lists)

    def increment(self, lists: list[Lists]) -> Aim:
        """Return the changes since the last run. Raise Dropped if no list has them."""
        before = self.positions()
        names = [group.changes for group in lists if group.changes is not None]
        has_all = set(names) <= set(before) if self.discovery.dead else set(names) == set(before)
        if len(names) < len(lists) or not has_all:
            raise Dropped("not every set of resources has a Change List that was read before")
        reading, read = Reading(self.asking), dict[str, LatestChanges]()
        wanted: Wanted = dict(self.state.missing or {})
        for group in lists:
            name = str(group.changes)
            since, latest = moment_in(before[name].since), moment_in(before[name].latest)
            if since is None:
                raise Dropped("the state has a malformed moment")
            changes = read[name] = self.changes(group, since, reading)
            if latest is not None and (changes.latest is None or changes.latest.is_before(latest)):
                raise Dropped(f"{name}: has lost changes since it was read")
            merge(wanted, changes.entries)
        if reading.rule is StrictRule.ORDERED:
            raise Dropped("the parts of a Change List are in no order")
        passed = collections.Counter(self.passed()) | reading.passed
        moment = earliest(clamped(changes.newest) for changes in read.values())
        rule = StrictRule.READ if passed.total() else None
        return self.aimed(INCREMENTAL, self.filtered(wanted), read, moment, passed, rule)

    def aimed(self, way: str, wanted: Wanted, read: dict[str, LatestChanges], moment: Moment | None,
              passed: collections.Counter[str], rule: StrictRule | None, spared: set[str] | None = None,
              dead: Sequence[Gone] = ()) -> Aim:
        """Return the aim with these positions in Change Lists."""
        lists = {name: Position(str(clamped(changes.newest)), str(changes.latest or ""))
                 for name, changes in read.items()}
        dead = [*self.discovery.dead, *dead]
        if dead and lists:
            # (the files of these lists stay)
            lists = self.positions() | lists
        text = None if moment is None else str(moment)
        state = self.state._replace(until=text, newest=text, mark=None, filters=self.patterns(), lists=lists,
                                    passed=dict(passed))
        return Aim(way, wanted, state, text, passed, spared or set(), rule or (StrictRule.HELD if dead else None), dead)

    def baseline(self, lists: list[Lists]) -> Aim:
        """Return the entries of the Resource Lists, with the changes after them."""
        for reading_left in reversed(range(LENIENT_READINGS)):
            try:
                return self.whole(lists, reading_left > 0)
            except (Dropped, Unheld):
                # (the Change List begins after the Resource List, or a part is gone: later lists may meet)
                if not reading_left:
                    raise
        raise AssertionError

    def whole(self, lists: list[Lists], has_more: bool) -> Aim:
        """Return the entries of all lists. Raise Dropped or Gone if lists do not meet and `has_more` readings follow;
        the last reading leaves out the changes.
        """
        reading, read = Reading(self.asking, is_baseline=True), dict[str, LatestChanges]()
        reading.dead = None if has_more else []
        merged = Merged()
        moments: list[Moment | None] = []
        for group in lists:
            try:
                at, entries = (self.dumps.resources(group.resources, reading) if group.is_dump
                               else reading.resources(group.resources))
            except Gone as why:
                if reading.dead is None or len(lists) == 1:
                    raise
                reading.dead.append(why)
                continue
            try:
                since = at or self.newest(group, entries)
                changes = None if group.changes is None or since is None else self.changes(group, since, reading)
            except (Dropped, Gone) as why:
                if has_more:
                    raise
                output.message(f"{why}: the run goes by the Resource List")
                changes = None
            merged.add(entries, at)
            if group.changes is not None and changes is not None:
                read[group.changes] = changes
                merged.add(changes.entries, changes.newest)
            moments.append(at if changes is None or at is None else clamped(changes.newest))
            self.check_claim(entries)
        self.check_passed(reading, merged.wanted)
        if None in moments:
            reading.fail(StrictRule.DATED)
        moment = None if None in moments else earliest(moments)
        if len(read) + len(reading.dead or ()) < len(lists) or reading.rule is StrictRule.ORDERED:
            read = {}
        wanted = self.filtered(merged.wanted)
        spared = self.spared(reading, wanted)
        return self.aimed(BASELINE, wanted, read, moment, reading.passed, reading.rule, spared, reading.dead or ())

    def newest(self, group: Lists, entries: dict[str, Entry]) -> Moment | None:
        """Return the newest moment of the entries of a list without `at`, whose changes are taken from then on."""
        moments = [moment for entry in entries.values() if (moment := moment_in(entry.moment)) is not None]
        if not moments or group.changes is None:
            return None
        self.asking.note(group.resources, "has no `at`: the run takes the changes since its newest moment, and "
                                          "the next run is a baseline")
        return max(moments, key=lambda moment: moment.first)

    def changes(self, group: Lists, since: Moment, reading: Reading) -> LatestChanges:
        """Return the changes of a set since a moment."""
        assert group.changes is not None
        if group.is_change_dump:
            return self.dumps.changes(group.changes, since, reading)
        return reading.changes(group.changes, since)

    def check_passed(self, reading: Reading, wanted: Wanted) -> None:
        """End a run that would skip all entries."""
        if wanted or not reading.passed.total():
            return
        reasons = ", ".join(f"{count:,} {why}" for why, count in sorted(reading.passed.items()))
        remedy = f"; --host {reading.first_elsewhere} allows the first host" if reading.first_elsewhere else ""
        raise Fault(f"{self.address}: all entries of its lists were passed over: {reasons}{remedy}")

    def check_claim(self, entries: dict[str, Entry]) -> None:
        """End a run whose lists have the form of a Ropepeach again."""
        first = next(iter(entries.values()), None)
        if not self.claimed or first is None or first.facts is None:
            return
        if first.address.startswith(f"{self.claimed}/resource/") and has_digest(first.facts):
            raise Fault(f"{self.claimed}: its lists changed meanwhile: run it again")

    def spared(self, reading: Reading, wanted: Wanted) -> set[str]:
        """Mark unlisted files as deleted, except those whose entries may have been skipped. Return the exceptions."""
        spared = set[str]()
        for name in self.all_others():
            if name in wanted:
                continue
            is_doubtful = reading.passed["no address"] or reading.dead or self.discovery.dead
            is_unread = is_doubtful and self.catalogue.known.row(name) is not None
            if end_of(name) in reading.elsewhere or is_unread:
                spared.add(name)
            else:
                wanted[name] = None
        return spared

    def later(self, aim: Aim) -> tuple[Wanted, Aim]:
        later = self.aim(aim.way == BASELINE)
        due = {name: kept for name, kept in later.wanted.items()
               if name not in aim.wanted or aim.wanted[name] != kept}
        if later.way == BASELINE:
            due |= {name: None for name in aim.wanted if name not in later.wanted and name not in later.spared}
        return due, later

    def promised(self, aim: Aim) -> State | None:
        state, before, lists = self.state, self.positions(), aim.state.lists or {}
        if aim.way == BASELINE:
            cleared = state._replace(until=None, newest=None, filters=aim.state.filters, lists={}, passed={})
            return cleared if before or state.until is not None else None
        if all(lists[name].latest == since.latest for name, since in before.items()):
            return None
        return state._replace(lists={name: Position(since.since, lists[name].latest) for name, since in before.items()},
                              passed=self.passed())

    def supplies(self) -> Iterator[tuple[bool | None, Iterator[Archive]]]:
        before = {name: moment_in(position.since) for name, position in self.positions().items()}
        for group in self.found:
            since = before.get(group.changes or "")
            if since is None and group.dump is not None and (self.has_dumps or group.is_dump):
                yield False if group.is_dump else None, self.dumps.of(group.dump, None)
            if group.change_dump is not None and (self.has_dumps or group.is_change_dump):
                yield True if group.is_change_dump else None, self.dumps.of(group.change_dump, since)


class Merged:
    """The entries of several sets of lists. Of two entries of one resource the newer one counts, by their moments; if
    one has no moment, by those of their lists.
    """

    def __init__(self) -> None:
        self.wanted: Wanted = {}
        self.dates: dict[str, Moment | None] = {}

    def add(self, entries: dict[str, Entry], at: Moment | None) -> None:
        """Add the entries of a list of a moment."""
        for name, entry in entries.items():
            other = self.wanted.get(name)
            if isinstance(other, Entry) and (is_older(entry, other) if entry.moment and other.moment
                                             else is_earlier(at, self.dates[name])):
                continue
            self.wanted[name], self.dates[name] = entry, at


def merge(wanted: Wanted, entries: dict[str, Entry]) -> None:
    """Add the entries of a set of lists: of several sets that name a resource the newest counts."""
    for name, entry in entries.items():
        if not is_older(entry, wanted.get(name)):
            wanted[name] = entry


def is_earlier(one: Moment | None, other: Moment | None) -> bool:
    """Return whether a moment is before another one, as far as both are known."""
    return one is not None and other is not None and one.is_before(other)


def is_older(entry: Entry, other: Kept) -> bool:
    """Return whether one entry is of an earlier moment than another."""
    one, two = moment_in(entry.moment), moment_in(other.moment) if isinstance(other, Entry) else None
    return is_earlier(one, two)
