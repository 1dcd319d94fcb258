"""The aim of a mirror's run, by the lists of its source: a baseline or an increment, the wanted entries, and the
position in every Change List after the run.

A baseline takes the Resource List and the changes after it. An increment takes the changes since the last run. A run is
a baseline if no Change List has all changes since the last run, or if a source went back.
"""
from __future__ import annotations

import dataclasses
from collections.abc import Iterable, Iterator, Mapping, Sequence
from typing import TYPE_CHECKING, cast

from ropepeach.faults import Fault
from ropepeach.mirror.folder import Folder
from ropepeach.mirror.state import State
from ropepeach.resync.facts import Check, Facts, check_of, date_of
from ropepeach.resync.lists import Changes, Entry, Gone, Source, StrictRule, kept
from ropepeach.resync.moments import moment_text

if TYPE_CHECKING:
    from ropepeach.resync.asking import Asking
    from ropepeach.resync.dumps import Archive

BASELINE, INCREMENTAL = "baseline", "incremental"
# The strongest value of --require, and the first word of a report that satisfies it.
EXACT = "exact"
# The most resources that a fault names.
NAMED_WEAK = 10
# The entry of a name, or None if the resource is deleted. Of a Ropepeach only the facts are kept, with their moment:
# 50,000 tuples would take three times the memory.
Kept = Facts | Entry | None
Wanted = dict[str, Kept]


@dataclasses.dataclass
class Aim:
    """The aim of a run: baseline or increment, the wanted entry of every name, and the state at its end.

    `moment` is that of the folder, if the lists have one. `passed` counts the skipped entries; `spared` has the names
    of files that stay, because their entries may be among these. `rule` is the first broken rule. `dead` has the
    faults of lists that are gone, while the run goes by the others.
    """

    way: str
    wanted: Wanted
    state: State
    moment: str | None
    passed: Mapping[str, int] = dataclasses.field(default_factory=dict)
    spared: set[str] = dataclasses.field(default_factory=set)
    rule: StrictRule | None = None
    dead: Sequence[Gone] = ()


class Aims:
    """The aims of a run, by the rules of its source."""

    # How often a run reads later lists for missing resources.
    passes: int
    is_dry = False

    def __init__(self, folder: Folder, asked: Source | Asking) -> None:
        """Take the folder and the source."""
        self.folder, self.asked = folder, asked

    @property
    def state(self) -> State:
        """Return the current state of the folder."""
        assert self.folder.state is not None
        return self.folder.state

    def aim(self, is_baseline: bool) -> Aim:
        """Return the aim of the run, without changes. Raise Fault if a list is refused."""
        raise NotImplementedError

    def later(self, aim: Aim) -> tuple[Wanted, Aim]:
        """Return the entries that later lists changed, and the new aim. Raise Dropped if no list has all changes."""
        raise NotImplementedError

    def promised(self, aim: Aim) -> State | None:
        """Return the state to write before the run fetches files, if it differs from that of the folder.

        The next run must be a baseline after a stopped baseline, or if the source has lost the changes that a stopped
        run fetched.
        """
        raise NotImplementedError

    def supplies(self) -> Iterator[tuple[bool | None, Iterator[Archive]]]:
        """Return the dumps of bodies: the archives, and whether the dump is the list of changes (True), of resources
        (False), or neither (None).
        """
        return iter(())

    def patterns(self) -> str:
        """Return the digest of the run's patterns, for the state."""
        return self.folder.filters.digest()

    def filtered(self, wanted: Wanted) -> Wanted:
        """Return the wanted entries of the names that --include and --exclude let in."""
        filters = self.folder.filters
        return {name: kept for name, kept in wanted.items() if filters.has(name)} if filters.rules else wanted

    def all_others(self) -> Iterator[str]:
        """Return the names of all files; a baseline removes those that no list has."""
        if self.folder.is_open and not self.folder.is_new and not self.is_dry:
            self.folder.begin()
        return self.folder.names()


class StrictAims(Aims):
    """The aims of a run of a Ropepeach."""

    passes = 50

    def __init__(self, source: Source, folder: Folder) -> None:
        super().__init__(folder, source)
        self.source = source
        # The newest moment of a resource in the Resource List: a Change List from a cache may lack its change.
        self.listed = ""

    def aim(self, is_baseline: bool) -> Aim:
        state = self.state
        if not is_baseline and self.folder.until is not None and state.newest is not None:
            changes = self.source.changes(self.folder.until)
            if state.newest <= changes.newest and is_one_history(state.mark, changes):
                self.listed = ""
                wanted = self.filtered(wanted_by(changes.entries))
                return self.aimed(INCREMENTAL, wanted, changes, self.folder.until, state.mark)
        at, found, changes = self.source.lists_that_meet(is_dated=True)
        dates = (date_of(facts) for facts in found.values() if facts is not None)
        latest = max((date for date in dates if date is not None), default=None)
        self.listed = "" if latest is None else moment_text(latest)
        return self.aimed(BASELINE, self.whole(cast(Wanted, found), changes), changes, at, "")

    def whole(self, found: Wanted, changes: Changes) -> Wanted:
        """Return the wanted entries of all names by a Resource List and the changes after it."""
        found.update(wanted_by(changes.entries))
        wanted = self.filtered(found)
        for name in self.all_others():
            wanted.setdefault(name)
        return wanted

    def aimed(self, way: str, wanted: Wanted, changes: Changes, since: str, mark: str | None) -> Aim:
        """Return the aim that takes these changes since a moment."""
        last = changes.entries[-1] if changes.entries else None
        until, newest = since if last is None else last.moment, max(changes.newest, self.listed)
        state = self.state._replace(until=until, newest=newest, mark=mark if last is None else mark_of(last),
                                    filters=self.patterns())
        return Aim(way, wanted, state, until)

    def later(self, aim: Aim) -> tuple[Wanted, Aim]:
        assert aim.moment is not None
        changes = self.source.changes(aim.moment)
        wanted = self.filtered(wanted_by(changes.entries))
        return wanted, self.aimed(aim.way, wanted, changes, aim.moment, aim.state.mark)

    def promised(self, aim: Aim) -> State | None:
        state, newest = self.state, aim.state.newest
        if aim.way == BASELINE:
            filters = aim.state.filters
            cleared = state._replace(until=None, newest=None, mark=None, filters=filters)
            return cleared if state.until is not None else None
        is_newer = aim.wanted and newest is not None and (state.newest is None or state.newest < newest)
        return state._replace(newest=newest) if is_newer else None


def wanted_by(entries: Iterable[Entry]) -> Wanted:
    """Return the wanted entry of every name after these changes."""
    return {entry.name: kept(entry) for entry in entries}


def entry_of(name: str, kept: Facts | Entry) -> Entry:
    """Return the entry that is kept of a name."""
    if isinstance(kept, Entry):
        return kept
    date = date_of(kept)
    return Entry(name, "" if date is None else moment_text(date), kept)


def mark_of(entry: Entry) -> str:
    """Return a digest of a change."""
    import hashlib

    return hashlib.sha256(repr((entry.name, entry.moment, entry.facts)).encode()).hexdigest()


def is_one_history(mark: str | None, changes: Changes) -> bool:
    """Return whether a Change List has the change that was read last, as far as it goes back. Moments strictly rise, so
    no change has the moment of a publication.
    """
    if mark is None:
        return True
    if mark == "" or not changes.has_met:
        return not changes.has_met and not (mark and changes.covers)
    return changes.met is None or mark_of(changes.met) == mark


def is_gone(kept: Kept) -> bool:
    """Return whether a resource was deleted."""
    return kept is None or isinstance(kept, Entry) and kept.facts is None


def facts_in(wanted: Wanted) -> Iterator[tuple[str, Facts]]:
    """Yield the names and facts of the resources that are not deleted."""
    for name, kept in wanted.items():
        facts = kept.facts if isinstance(kept, Entry) else kept
        if facts is not None:
            yield name, facts


def entries_in(wanted: Wanted) -> Iterator[Entry]:
    """Yield the entries of the resources that are not deleted."""
    for name, kept in wanted.items():
        if kept is not None and not is_gone(kept):
            yield entry_of(name, kept)


def check_listed(wanted: Wanted, required: Check) -> None:
    """End a run whose lists have resources with less than is required."""
    weak = [entry.address or entry.name for entry in entries_in(wanted)
            if not check_of(entry.choices[0]).is_at_least(required)]
    if weak:
        more = f" and {len(weak) - NAMED_WEAK:,} more" if len(weak) > NAMED_WEAK else ""
        raise Fault(f"{len(weak):,} resources are listed with less than --require {required.value}: "
                    f"{', '.join(weak[:NAMED_WEAK])}{more}; nothing was fetched")
