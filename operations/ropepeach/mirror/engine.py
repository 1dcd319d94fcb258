"""A run of a mirror: read the lists, compare them with the folder, remove and fetch files, and record the result.

A run makes no change before the whole aim is known and allowed. It writes a promise before the first change, and the
rows of files before the moment that covers them. It looks up missing resources in later lists, and retries them.
"""
from __future__ import annotations

import time
from collections.abc import Iterator, Mapping

from ropepeach.cli import output
from ropepeach.cli.progress import Progress
from ropepeach.cli.stops import STOPS
from ropepeach.faults import Fault, Silent, Unusable
from ropepeach.http.limits import Limits, Spent
from ropepeach.http.response import Response
from ropepeach.http.transfers import Transfers
from ropepeach.mirror.aims import (
    BASELINE, EXACT, INCREMENTAL, Aim, Aims, Kept, Wanted, check_listed, entries_in, facts_in, is_gone)
from ropepeach.mirror.bodies import LAST_MODIFIED, TAG, Fetch, field_of
from ropepeach.mirror.catalogue import Catalogue, Row, gone
from ropepeach.mirror.events import CREATED, DELETED, UPDATED, Events, change_between
from ropepeach.mirror.folder import Folder
from ropepeach.resync.asking import DamagedDump, Redirects
from ropepeach.resync.addresses import Hosts, source_at
from ropepeach.resync.facts import (
    LONGEST_KIND, Algorithm, Check, Measure, check_of, facts_of, has_digest, has_length, kind_of, length_of)
from ropepeach.resync.lists import Dropped, Entry, Gone, StrictRule, Unheld

# The number of restarts of a run after changes that it needs were dropped.
RUNS = 10
# The number of changes after which the catalogue is saved, and the most resources that a fault names.
UNSAVED, NAMED_FAULTS = 2_000, 20
# The most missing resources that a state remembers.
MOST_MISSING = 1_000
# The checks of rows that no digest proves.
WEAK = {Check.NOTHING.value, Check.LENGTH.value}
# The cause and the remedy of a resource that is not as listed.
MEANWHILE = "the source changed meanwhile, or its lists are wrong: run it again"


class Engine:
    """A run of one source, which brings a folder to a point of its history.

    `base` is that of a Ropepeach, `hosts` are the allowed hosts of any other source, `required` is the value of
    --require.
    """

    def __init__(self, aims: Aims, folder: Folder, catalogue: Catalogue, transfers: Transfers, limits: Limits,
                 events: Events, base: str = "", hosts: Hosts | None = None, required: str | None = None) -> None:
        self.aims, self.folder, self.catalogue, self.transfers = aims, folder, catalogue, transfers
        self.limits, self.events, self.base, self.hosts, self.required = limits, events, base, hosts, required
        self.stops, self.started = STOPS, time.monotonic()
        self.fetched = self.bytes = self.removed = self.again = 0
        # How many files of earlier runs go; the changes since the catalogue was saved, and how many may be.
        self.lost = self.unsaved = self.saved = 0
        self.wanted: Wanted = {}
        # The faults of the resources that are gone, which the next run requests again.
        self.missing: Mapping[str, Fault] = {}
        # Whether the folder had no files, and has no files of a first pass.
        self.way, self.is_blank = "", False

    def go(self, is_baseline: bool) -> Aim:
        """Do the run, and repeat it if changes that it needs were dropped. Return the aim of the last run."""
        for _ in range(RUNS):
            try:
                return self.once(is_baseline)
            except Dropped as fault:
                is_baseline, why = True, fault
        raise Fault(f"the source drops changes faster than they can be read: {why}")

    def once(self, is_baseline: bool) -> Aim:
        """Do the run, if the Change Lists have all changes that it needs."""
        aim = self.aims.aim(is_baseline)
        self.way, self.wanted = aim.way, aim.wanted
        self.check_required(aim, aim.wanted)
        if aim.way == INCREMENTAL and not aim.wanted and aim.state == self.folder.state:
            return aim
        self.folder.begin()
        self.is_blank = not self.folder.file_count
        self.catalogue.is_baseline = aim.way == BASELINE
        self.check_removals(aim.wanted)
        self.promise(aim)
        try:
            aim, wrong = self.followed(aim)
        except BaseException:
            self.keep()
            raise
        with self.stops:
            self.end(aim, wrong)
        return aim

    def followed(self, aim: Aim) -> tuple[Aim, dict[str, Unheld]]:
        """Bring the wanted resources. Return the last aim, and the faults of the missing ones."""
        due, wrong = aim.wanted, dict[str, Unheld]()
        for _ in range(self.aims.passes):
            missing = self.bring(due)
            wrong = {name: why for name, why in wrong.items() if name not in due} | missing
            if not missing:
                return aim, wrong
            with self.stops:
                self.save()
            self.is_blank = False
            # A missing resource was changed before its request; the lists now show the change.
            due, aim = self.aims.later(aim)
            self.wanted.update(due)
            self.again += sum(name in due for name in missing)
            self.check_required(aim, due)
            self.check_removals(due)
            self.promise(aim)
            wrong = {name: why for name, why in wrong.items() if name not in due}
        if wrong:
            return aim, wrong
        raise Fault("the source changes faster than it can be fetched")

    def promise(self, aim: Aim) -> None:
        """Write the state for a stopped run before any file is fetched."""
        state = self.aims.promised(aim)
        if state is not None and aim.way == BASELINE:
            self.folder.remember(state)
        elif state is not None:
            self.folder.promise(state)

    def check_required(self, aim: Aim, wanted: Wanted) -> None:
        """Raise a Fault if the lists do not have the required checks."""
        if self.required == EXACT:
            rule = self.failed_rule(aim, wanted)
            if rule is not None:
                raise Fault(f"--require exact: {rule.value}; nothing was fetched")
        elif self.required:
            check_listed(wanted, Check(self.required))

    def failed_rule(self, aim: Aim, wanted: Wanted) -> StrictRule | None:
        """Return the first rule that failed, by the lists and by the rows of files that they don't name."""
        if aim.rule is not None or self.hosts is None:
            return aim.rule
        if any(not has_digest(facts) for _, facts in facts_in(wanted)):
            return StrictRule.COMPARED
        if aim.way == INCREMENTAL:
            weak = (row for row in self.catalogue.known.rows() if row.compared in WEAK)
            return StrictRule.COMPARED if any(row.place not in wanted for row in weak) else None
        return None

    def names_to_delete(self, wanted: Wanted) -> list[str]:
        """Return the names of files to delete."""
        return [name for name, kept in wanted.items() if is_gone(kept) and self.folder.is_held(name)]

    def check_removals(self, wanted: Wanted) -> None:
        """Refuse to remove more files of earlier runs than was allowed."""
        if not self.folder.file_count:
            return
        self.lost += len(set(self.names_to_delete(wanted)) - self.folder.absent)
        self.limits.check_removals(self.lost, self.folder.file_count, self.removed)

    def bring(self, wanted: Wanted) -> dict[str, Unheld]:
        """Remove the deleted files, and fetch the others. Return the faults of missing resources."""
        for name, kept in [(name, kept) for name, kept in wanted.items() if is_gone(kept)]:
            with self.stops:
                self.remove(name, kept)
        self.folder.check_room(lambda: ((name, length_of(facts)) for name, facts in facts_in(wanted)))
        done, missing = self.supplied(wanted), dict[str, Unheld]()
        count = size = 0
        for _, facts in facts_in(wanted):
            count, size = count + 1, size + length_of(facts)
        with Progress("fetching", count, size) as bar:
            for fetch, result in self.transfers.each(self.requests(wanted, done, bar)):
                with self.stops:
                    try:
                        self.taken(fetch, fetch.outcome(result))
                    except Unheld as why:
                        if isinstance(why, Gone) and fetch.entry.is_doubtful:
                            self.check_removals({fetch.entry.name: None})
                            self.remove(fetch.entry.name, fetch.entry)
                        else:
                            missing[fetch.entry.name] = why
                    bar.add(1, length_of(fetch.choices[0]))
        return missing

    def requests(self, wanted: Wanted, done: set[str], bar: Progress) -> Iterator[Fetch]:
        """Return the transfers of the wanted resources that neither a dump nor the folder has."""
        for entry in entries_in(wanted):
            self.limits.check_time()
            size = length_of(entry.choices[0])
            fetch = None if entry.name in done else self.request(entry)
            if fetch is None:
                bar.add(1, size)
            else:
                self.limits.check_next(size)
                yield fetch

    def request(self, entry: Entry) -> Fetch | None:
        """Return the transfer of a file, or None if the file is as listed, which is noted."""
        if self.hosts is None:
            url = f"{self.base}/resource/{entry.name}"
            return None if self.is_here(entry, None) else Fetch(url, entry, self.folder)
        row = self.catalogue.row(entry.name)
        row = row if row is not None and row.address == entry.address else None
        if self.is_here(entry, row):
            return None
        known = row if row is not None and self.is_as_known(entry, row) else None
        return Fetch(entry.address, entry, self.folder, Redirects(self.hosts, source_at(entry.address)), known)

    def is_here(self, entry: Entry, row: Row | None) -> bool:
        """Return whether the file of an entry is as listed, which is noted."""
        measure = self.fitting(entry)
        if measure is None:
            return False
        old = row or gone(entry.name)
        self.note(entry, row, measure.size, measure.digest(Algorithm.SHA_256), old.kind, old.tag, old.last)
        return True

    def fitting(self, entry: Entry) -> Measure | None:
        """Return the measure of the file of an entry, if it has a listed digest. Only the source knows the bytes of an
        entry without a digest, or with several changes of one moment.
        """
        if self.is_blank or entry.is_doubtful or entry.others or not has_digest(entry.choices[0]):
            return None
        return self.folder.fitting(entry.name, entry.choices)

    def is_as_known(self, entry: Entry, row: Row) -> bool:
        """Return whether the file of an entry is as it was fetched before, and may still be current."""
        facts = entry.choices[0]
        is_sure = has_digest(facts) and not entry.others
        if not row.sha256 or is_sure or (has_length(facts) and length_of(facts) != row.length):
            return False
        return self.folder.has(row.place, facts_of(row.length, {Algorithm.SHA_256: row.sha256}, ""))

    def taken(self, fetch: Fetch, response: Response | None) -> None:
        """Take a body that fits; None means that the file is still current."""
        known = fetch.known
        if response is None:
            if known is not None:
                self.note(fetch.entry, known, known.length, known.sha256, known.kind, known.tag, known.last)
        elif self.hosts is None:
            self.keep_body(fetch, "")
        else:
            self.keep_body(fetch, response.fields.get("Content-Type")[:LONGEST_KIND],
                           field_of(response, "ETag", TAG), field_of(response, "Last-Modified", LAST_MODIFIED))

    def keep_body(self, fetch: Fetch, kind: str, tag: str = "", last: str = "") -> None:
        """Give a resource a body that fits, unless its file has the same bytes."""
        size, digest = fetch.measure.size, fetch.measure.digest(Algorithm.SHA_256)
        if fetch.known is not None and fetch.known.sha256 == digest:
            fetch.drop()
        else:
            fetch.keep()
        self.fetched, self.bytes = self.fetched + 1, self.bytes + size
        self.note(fetch.entry, None, size, digest, kind, tag, last)

    def note(self, entry: Entry, before: Row | None, length: int, sha256: bytes, kind: str, tag: str = "",
             last: str = "") -> None:
        """Record the row of a file from its entry, bytes and response. `before` is the earlier row, if known."""
        facts = entry.choices[0]
        row = Row(entry.name, entry.address, entry.moment, kind_of(facts) or kind, entry.encoding, length, sha256, tag,
                  last, check_of(facts).value)
        if row == before:
            return
        if self.events.is_wanted:
            before = before or self.catalogue.row(entry.name)
            change = change_between(before, row)
            if before is None and self.catalogue.is_lost and self.way == INCREMENTAL and entry.change != CREATED:
                change = UPDATED
            self.events.note(change, row)
        self.catalogue.put(entry.name, row)
        self.count_unsaved()

    def remove(self, name: str, kept: Kept) -> None:
        """Remove a file and its row; its entry may have its address and the moment of its deletion."""
        is_there = self.folder.remove(name)
        self.removed += is_there
        if self.events.is_wanted:
            before = self.catalogue.row(name)
            if is_there or before is not None:
                address, moment = (kept.address, kept.moment) if isinstance(kept, Entry) else ("", "")
                self.events.note(DELETED, before or gone(name)._replace(address=address, modified=moment))
        self.catalogue.put(name, None)
        self.count_unsaved()

    def count_unsaved(self) -> None:
        """Count a change, and save after many: after more, the longer a save takes."""
        self.unsaved += 1
        if self.unsaved >= max(UNSAVED, self.saved):
            self.save()

    def save(self, is_end: bool = False) -> None:
        """Put fetched files in their places, report the changes, and write the catalogue, in this order."""
        self.folder.place_all()
        if not self.unsaved and not is_end:
            return
        self.events.report()
        self.catalogue.save()
        self.saved, self.unsaved = (self.saved + self.unsaved) // 4, 0

    def keep(self) -> None:
        """Keep the files of a run that ends early."""
        with self.stops:
            try:
                self.save()
            except (OSError, Unusable) as why:
                output.message(f"{self.folder.path}: the last files have no records: {why}")

    def end(self, aim: Aim, wrong: dict[str, Unheld]) -> None:
        """Write the new state; a run that lacks a resource keeps the old one, unless a lenient run remembers it."""
        is_lenient = self.hosts is not None and len(wrong) <= MOST_MISSING
        if wrong and not (is_lenient and all(isinstance(why, Gone) for why in wrong.values())):
            self.save()
            more = [f"and {len(wrong) - NAMED_FAULTS:,} more"] if len(wrong) > NAMED_FAULTS else []
            raise Fault(*list(wrong.values())[:NAMED_FAULTS], *more, MEANWHILE)
        if aim.way == BASELINE:
            self.forget_others(aim)
        self.save(is_end=True)
        self.missing = wrong
        missing = {name: kept for name in wrong if isinstance(kept := self.wanted[name], Entry)}
        self.folder.remember(aim.state._replace(missing=missing or None))

    def forget_others(self, aim: Aim) -> None:
        """Forget the rows of files that are neither in a baseline's lists nor in the folder."""
        if self.catalogue.is_lost:
            return
        others = [row for row in self.catalogue.known.rows()
                  if is_gone(self.wanted.get(row.place)) and row.place not in aim.spared]
        for row in others:
            self.events.note(DELETED, row)
        self.catalogue.known.forget(row.place for row in others)

    def supplied(self, due: Wanted) -> set[str]:
        """Take bodies from dumps, if an option asks for them or they are the list. Return the names."""
        done = set[str]()
        for is_list, archives in self.aims.supplies():
            lacking = dict[str, Fetch]()
            for entry in entries_in(due):
                if entry.name not in done and (bool(entry.change) is is_list or has_digest(entry.choices[0])):
                    fetch = self.request(entry)
                    if fetch is None:
                        done.add(entry.name)
                    else:
                        lacking[entry.name] = fetch
            try:
                # (an archive is fetched only if a body lacks)
                for archive in archives if lacking else ():
                    self.limits.check_time()
                    for name, path, kind in list(archive.files(lacking)):
                        if self.is_filled(lacking[name], archive.pieces(path, lacking[name].limit), kind):
                            done.add(name)
                            del lacking[name]
            except (Silent, Spent, Unusable):
                raise
            except Fault as why:
                output.message(f"{why}: the run goes on without this dump")
        return done

    def is_filled(self, fetch: Fetch, pieces: Iterator[bytes], kind: str) -> bool:
        """Take a body from an archive. Return whether it fits."""
        fetch.begin()
        try:
            for piece in pieces:
                fetch.take(piece)
            is_fit = fetch.measure.size <= fetch.limit and fetch.fits()
            if is_fit:
                self.keep_body(fetch, kind)
        except DamagedDump:
            is_fit = False
        finally:
            fetch.drop()
        return is_fit
