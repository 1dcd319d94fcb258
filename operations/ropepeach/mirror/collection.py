"""Mirror a collection: all sources of a Source Description, into separate folders, several at a time.

The folder of a source is then exactly as the source was at the moment in its line; the whole has no moment. A resource
that moves to another source is put there before it is deleted (ropepeach-grow(1)). So a run removes no file before it
has read all sources after that deletion: it fetches a moved resource first, and the mirror always has one copy or two.
"""
from __future__ import annotations

import argparse
import dataclasses
import functools
import os
import time
from collections.abc import Callable, Iterable
from typing import Any

from ropepeach.cli import output
from ropepeach.collection.workers import Workers, failures
from ropepeach.faults import Fault, Misused, Unusable
from ropepeach.fill.send import KEPT
from ropepeach.http.client import Client, client_of
from ropepeach.http.limits import Limits, SharedCount
from ropepeach.mirror.aims import BASELINE, StrictAims
from ropepeach.mirror.folder import Folder
from ropepeach.mirror.forecast import Forecast
from ropepeach.mirror.report import line_of
from ropepeach.mirror.sources import Sources
from ropepeach.mirror.state import STATE, State
from ropepeach.mirror.whole import Whole, folders_of, is_whole
from ropepeach.resync.facts import Facts, Measure
from ropepeach.resync.filters import Filters
from ropepeach.resync.lists import Dropped, Several, Source
from ropepeach.resync.moments import NEVER

__all__ = ["begin", "run"]

# How often a run reads sources again because others deleted a resource, and how often it restarts with other sources.
PASSES, RESTARTS = 50, 10


class DeferredFolder(Folder):
    """The folder of one source, which keeps deleted files until they are released."""

    def __init__(self, path: str, within: int | None, filters: Filters | None = None) -> None:
        super().__init__(path, within, filters)
        self.removals: dict[str, bool] = {}
        self.gone: set[str] = set()

    def remove(self, name: str) -> bool:
        """Note a name whose file is deleted later. Return whether it is there."""
        self.removals[name] = True
        self.gone.add(name)
        return self.is_held(name)

    def fitting(self, name: str, choices: Iterable[Facts]) -> Measure | None:
        """Return the measure of the file of a name if it fits, and keep it."""
        self.removals.pop(name, None)
        return super().fitting(name, choices)

    def take(self, path: str, name: str, size: int) -> None:
        """Give a name a file that was written, and keep it."""
        self.removals.pop(name, None)
        super().take(path, name, size)

    def promise(self, state: State) -> None:
        """Write a state before the run brings anything, without a moment that waits for its removals."""
        written = self.written_state
        if state.until is None:
            super().promise(state)
        elif written is not None and written.until is not None:
            self.write_state(written._replace(newest=state.newest))
            self.state = state
        else:
            self.state = state

    def remember(self, state: State) -> None:
        """Note a moment, which `release` writes."""
        if state.until is None:
            super().remember(state)
        else:
            self.state, self.is_usable = state, True

    def release(self) -> None:
        """Remove the deleted files, and write the moment."""
        for name in self.removals:
            super().remove(name)
        if self.state is not None and self.state != self.written_state:
            super().remember(self.state)


@dataclasses.dataclass
class Report:
    """The result of a step: whether it was a baseline, the names deleted since the last step, the numbers of files to
    remove and of all files, the lines to print, and the moment.
    """

    is_baseline: bool = False
    gone: set[str] = dataclasses.field(default_factory=set)
    going: int = 0
    file_count: int = 0
    lines: list[str] = dataclasses.field(default_factory=list)
    until: str = ""


class PartRun:
    """A run of one source."""

    def __init__(self, name: str, base: str, arguments: argparse.Namespace, within: int | None,
                 limits: Limits) -> None:
        # (the limit of removals is one of the whole)
        limits = dataclasses.replace(limits, removals=None, is_sure=True)
        arguments = argparse.Namespace(**vars(arguments) | {"url": base})
        self.name, self.arguments = name, arguments
        self.folder = DeferredFolder(os.path.join(arguments.folder, name), within, Filters(arguments.rules))
        self.engine, self.summary = Sources(arguments, self.folder, limits).strict(), ""

    @property
    def source(self) -> Source:
        """Return the source that is read."""
        assert isinstance(self.engine.aims, StrictAims)
        return self.engine.aims.source

    def answer(self, step: Step) -> Report:
        """Do a step."""
        try:
            return step(self)
        finally:
            self.source.client.close()
            self.engine.transfers.close()
            self.engine.catalogue.close()
            if self.folder.is_open:
                self.folder.release_all_but_lock()

    def is_baseline(self) -> bool:
        """Return whether the run begins with a baseline."""
        return self.arguments.baseline or self.folder.until is None

    def foretell(self) -> Report:
        """Return the actions of a run as lines, without changes."""
        found = Forecast(self.engine, self.is_baseline())
        self.folder.check_room(found.lacking.items)
        *lines, summary = found.lines(f"{self.name} ")
        return Report(going=len(found.going), file_count=self.folder.file_count,
                      lines=[*lines, f"{self.name}: {summary}"])

    def begin(self) -> Report:
        """Mirror the source without removals."""
        return self.gone(self.is_baseline())

    def read_on(self, names: set[str]) -> Report:
        """Read later changes because other sources deleted these names."""
        return self.gone(False) if self.is_due(names) else self.report()

    def release(self) -> Report:
        """Remove the deleted files, and write the moment."""
        self.folder.release()
        return self.report([self.summary])

    def gone(self, is_baseline: bool) -> Report:
        """Run, and report the names that were deleted since the last run here."""
        self.folder.gone = set()
        aim = self.engine.go(is_baseline)
        self.summary = line_of(self.engine, aim)
        return dataclasses.replace(self.report(), is_baseline=aim.way == BASELINE, gone=self.folder.gone)

    def report(self, lines: list[str] | None = None) -> Report:
        """Return the number of files to remove, with lines to print."""
        folder = self.folder
        going = sum(folder.is_held(name) for name in folder.removals if name not in folder.absent)
        return Report(going=going, file_count=folder.file_count, lines=lines or [], until=folder.until or "")

    def is_due(self, names: set[str]) -> bool:
        """Return whether the source has newly put one of these names, or any name if the set is empty."""
        try:
            entries = self.source.changes(self.folder.until or NEVER).entries
        except Dropped:
            return True
        return any(entry.facts is not None and (not names or entry.name in names) for entry in entries)


# A step of the run of a source. (It goes to the process of the source by its name.)
Step = Callable[[PartRun], Report]


def bases_at(client: Client) -> list[str]:
    """Return the bases of the sources that a Source Description names."""
    try:
        return [Source(client, is_at_base=True).base]
    except Several as several:
        return several.bases


def begin(arguments: argparse.Namespace, address: str, limits: Limits, folder: Folder) -> int:
    """Mirror a collection into a folder that is no mirror yet."""
    if folder.is_open:
        if folder.tree.is_there(STATE):
            raise Unusable(f"{folder.path}: is a mirror of one source, and {address} names several: take another "
                           f"folder")
        folder.close()
    return run(arguments, address, limits)


def run(arguments: argparse.Namespace, address: str, limits: Limits) -> int:
    """Mirror all sources; repeat if the Source Description changes meanwhile. Return the exit status."""
    if arguments.on_change is not None or arguments.connections > 1:
        raise Misused("--on-change and --connections go with one source: mirror each of a collection by its own base")
    path = os.path.abspath(arguments.folder)
    client = client_of(arguments, address, limits)
    whole = Whole(path, client.address) if is_whole(arguments.folder) else None
    limits = dataclasses.replace(limits, taken=SharedCount())
    for _ in range(RESTARTS):
        parts = folders_of(bases_at(client), client.address, arguments.elsewhere)
        if arguments.dry_run:
            return foretold(arguments, parts, whole, limits)
        whole = whole or Whole(path, client.address)
        try:
            status = once(arguments, client, parts, whole, limits)
        finally:
            whole.drop_if_empty()
        if status is not None:
            return status
    raise Fault("the Source Description names other sources again and again")


def pool_of(arguments: argparse.Namespace, parts: dict[str, str], whole: Whole | None, limits: Limits) -> Workers:
    """Return the processes that mirror these sources."""
    within = whole.lock if whole else None
    return Workers(parts, lambda name: PartRun(name, parts[name], arguments, within, limits).answer,
                   processes=min(len(parts), arguments.jobs))


def foretold(arguments: argparse.Namespace, parts: dict[str, str], whole: Whole | None, limits: Limits) -> int:
    """Print the actions of a run, and whether it would be refused. Return the exit status."""
    with pool_of(arguments, parts, whole, limits) as pool:
        answers = pool.answers_to(dict.fromkeys(parts, PartRun.foretell))
    failed = failures(answers)
    for name, answer in answers.items():
        if name in failed:
            print_failure(name, answer)
            continue
        for line in answer.lines:
            output.result(line)
    check_removals(limits, [answer for name, answer in answers.items() if name not in failed])
    return status_of(failed)


def once(arguments: argparse.Namespace, client: Client, parts: dict[str, str], whole: Whole,
         limits: Limits) -> int | None:
    """Mirror these sources. Return the exit status, or None if the collection has other sources by now."""
    with pool_of(arguments, parts, whole, limits) as pool:
        answers = pool.answers_to(dict.fromkeys(parts, PartRun.begin))
        failed, reports, waiting = failures(answers), dict[str, Report](), set[str]()
        for _ in range(PASSES):
            well = {name: report for name, report in answers.items() if name not in failed}
            reports |= well
            is_baseline = any(report.is_baseline for report in well.values())
            gone = set[str]().union(*(report.gone for report in well.values()))
            waiting |= {name for name, report in well.items() if report.gone}
            if not is_baseline and not gone:
                break
            if gone and set(bases_at(client)) != set(parts.values()):
                return None
            # (a proxy may serve a list that is as old as this)
            time.sleep(KEPT)
            step = functools.partial(PartRun.read_on, names=set() if is_baseline else gone)
            answers = pool.answers_to(dict.fromkeys(well, step))
            failed |= failures(answers)
        else:
            raise Fault("the sources change faster than they can be read")
        # (a source that was not read may have the resources that others deleted)
        ends = [name for name in parts if name not in failed and not (failed and name in waiting)]
        check_removals(limits, [reports[name] for name in ends])
        answers = pool.answers_to(dict.fromkeys(ends, PartRun.release))
        return print_outcome(parts, answers, failed | failures(answers), whole)


def check_removals(limits: Limits, reports: list[Report]) -> None:
    """Refuse to remove more files of the whole than allowed."""
    limits.check_removals(sum(report.going for report in reports), sum(report.file_count for report in reports))


def print_outcome(parts: dict[str, str], answers: dict[str, Any], failed: dict[str, Fault], whole: Whole) -> int:
    """Print the moments of the sources' folders, and the failures. Return the exit status."""
    ended = {name: report for name, report in answers.items() if name not in failed}
    for name in parts:
        if name in ended:
            output.result(f"{name}: {' '.join(ended[name].lines)}")
        elif name in failed:
            print_failure(name, failed[name])
        else:
            output.message(f"{name}: keeps what its source deleted, and its old moment, until the others can be read")
    moments = sorted(report.until for report in ended.values())
    if moments:
        output.result(f"{len(ended):,} of {len(parts):,} sources, each at its own moment, from {moments[0]} "
                      f"to {moments[-1]}")
    for name in whole.others(parts):
        output.message(f"{name}: no source of this name is in the Source Description any more; its folder stays")
    return status_of(failed)


def print_failure(name: str, failed: Fault) -> None:
    """Print why the run of a source failed."""
    first, *more = failed.lines()
    for line in (f"{name}: {first}", *more):
        output.message(line)


def status_of(failed: dict[str, Fault]) -> int:
    """Return the exit status of a run with these failures."""
    return max((int(failure.status) for failure in failed.values()), default=0)
