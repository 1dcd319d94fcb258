"""Fills the sources of a collection from one folder, in parallel, with one connection to each source.

First all sources are read and compared with the files that live in them. If a source does not answer, is too full, or
holds a name that lives in another source, the run ends, and nothing was changed. Then all are changed.
"""
from __future__ import annotations

import argparse
import collections
import enum
import os
import tempfile
from collections.abc import Iterable
from typing import IO, Any

from ropepeach.cli import output
from ropepeach.cli.statuses import Status
from ropepeach.collection.placement import Homes
from ropepeach.collection.settings import CollectionSettings, Member
from ropepeach.collection.workers import Workers, answers_of, check_answers, failure_lines, failures
from ropepeach.collection.show import Astray, astray_lines, check_member_base
from ropepeach.disk import formula
from ropepeach.faults import Fault, Unusable
from ropepeach.fill.files import Files, Kinds
from ropepeach.fill.source import KnownSource
from ropepeach.fill.plan import FillPlan, check_deletions, files_of, published
from ropepeach.fill.send import Sending
from ropepeach.http.client import client_of


def placed(folder: Files, collection: CollectionSettings, jobs: int) -> dict[str, IO[str]]:
    """Return a file of names for every source: the files that live there."""
    try:
        return listed_by_home(folder, collection, jobs)
    except OSError as fault:
        raise Unusable(f"{tempfile.gettempdir()}: cannot write the lists of names: {fault.strerror} (set TMPDIR to "
                       "another folder)") from None


def listed_by_home(folder: Files, collection: CollectionSettings, jobs: int) -> dict[str, IO[str]]:
    """List the names of all sources. As many workers as processors or jobs share the top entries of the folder."""
    files: dict[str, IO[str]] = {name: tempfile.TemporaryFile("w+", encoding="ascii") for name in collection.members}
    counts = collections.Counter[str]()
    entries = list(folder.entries())
    processes = min(jobs, len(os.sched_getaffinity(0)))

    def lines_of_share(number: int) -> dict[str, str]:
        """Return the names in one worker's share of the entries, by the source in which they live."""
        return lines_by_home(folder, entries[number::processes], collection.homes)

    for found in answers_of(range(processes), lines_of_share).values():
        if isinstance(found, Fault):
            raise found
        for home, lines in found.items():
            files[home].write(lines)
            counts[home] += lines.count("\n")
    for name in collection.members:
        if counts[name] > formula.MOST_RESOURCES:
            raise Fault(f"{counts[name]:,} files of FOLDER live in {name}, and a source holds "
                        f"{formula.MOST_RESOURCES:,} at most: add sources to {collection.path}, then `ropepeach grow "
                        f"{collection.path}`")
        files[name].flush()
    return files


def lines_by_home(folder: Files, entries: Iterable[str], homes: Homes) -> dict[str, str]:
    """Return the names of some entries of the folder, and of all entries below, as lines by the source of the name."""
    names = collections.defaultdict(list)
    for name in folder.names_of(entries, iter):
        names[homes.of(name)].append(f"{name}\n")
    return {home: "".join(lines) for home, lines in names.items()}


class FillStep(enum.Enum):
    """The messages to the worker of a source. The last one is `FORESEE` or `CHANGE`."""

    COMPARE = enum.auto()
    FORESEE = enum.auto()
    CHANGE = enum.auto()


class FillPart:
    """A run for one source, in its worker."""

    def __init__(self, collection: CollectionSettings, name: str, arguments: argparse.Namespace,
                 listed: IO[str]) -> None:
        self.homes, self.name, self.arguments = collection.homes, name, arguments
        self.member, self.listed = collection.members[name], listed
        again = [other for other in arguments.again if self.homes.of(other) == name]
        self.plan = FillPlan(files_of(arguments), Kinds(arguments.types), again, arguments.skip_unlawful)

    def answer(self, step: FillStep) -> Any:
        """Do a step. The memory is written when the last step ends, or when one fails."""
        steps = {FillStep.COMPARE: self.compare, FillStep.FORESEE: self.foresee, FillStep.CHANGE: self.change}
        is_over = True
        try:
            answer = steps[step]()
            is_over = step is not FillStep.COMPARE
            return answer
        finally:
            if is_over and self.plan.memory:
                self.plan.memory.close()

    def compare(self) -> dict[str, Any]:
        """Find the changes to make. Return figures, and the names in a wrong source."""
        self.listed.seek(0)
        self.plan.scan(line.rstrip("\n") for line in sorted(self.listed))
        self.source = KnownSource(client_of(self.arguments, self.member.address))
        check_member_base(self.member, self.source)
        self.at, self.is_published = self.plan.compare_with(self.source, self.source.remember(self.arguments))
        if self.arguments.repair:
            self.plan.look_at_bodies(self.source)
        self.plan.check_room(self.source.base, self.arguments.room)
        if self.plan.files and os.path.exists(self.member.file):
            check_file(self.member, self.plan.collection(), len(self.plan.changed) + len(self.plan.gone))
        homes = ((name, self.homes.of(name)) for name in self.plan.gone)
        astray = [Astray(name, self.name, home) for name, home in homes if home != self.name]
        return {"files": self.plan.files, "held": self.plan.resource_count, "gone": len(self.plan.gone),
                "astray": astray}

    def foresee(self) -> tuple[list[str], bool]:
        """Return a line for every change that the run would make, and whether it leaves out files."""
        return [*(f"delete {self.name} {name}" for name in self.plan.gone),
                *(f"put {self.name} {name}" for name in self.plan.changed)], bool(self.plan.missed)

    def change(self) -> tuple[str, dict[str, int], bool, str | None]:
        """Make the changes. Return the summary, its figures, whether files were left out, and why it ended early."""
        sending = Sending(self.source, self.at, self.arguments.publish, self.plan.acknowledged)
        end, why = "ended early", None
        try:
            self.plan.send(sending)
            end = published(self.arguments, sending, self.is_published)
        except Fault as fault:
            why = str(fault)
        return self.plan.summary(sending, end), self.plan.figures(sending), bool(self.plan.missed), why


def check_file(member: Member, bodies: formula.Holdings, changes: int) -> None:
    """Refuse bodies that the file of a source cannot hold together with this many changes."""
    changes = min(formula.MOST_CHANGES, changes)
    needed = formula.used(bodies, len(member.base), changes) * formula.BLOCK
    size = min(os.stat(member.file).st_size, formula.MOST_BYTES)
    if needed > size:
        raise Fault(f"{member.file} is too small: it has {size:,} bytes, and {bodies.count:,} resources with "
                    f"{changes:,} changes need {needed:,}")


def run(arguments: argparse.Namespace) -> int:
    """Fill all sources. Return the exit status."""
    collection = CollectionSettings(arguments.url)
    files = placed(files_of(arguments), collection, arguments.jobs)
    with Workers(collection.members, lambda name: FillPart(collection, name, arguments, files[name]).answer,
                 arguments.jobs) as workers:
        answers = check_answers(workers.answers_to(dict.fromkeys(collection.members, FillStep.COMPARE)))
        astray = [stray for answer in answers.values() for stray in answer["astray"]]
        if astray:
            raise Fault(*astray_lines(collection, astray, arguments), "nothing was changed")
        gone, total, count = (sum(answer[word] for answer in answers.values()) for word in ("gone", "held", "files"))
        check_deletions(arguments, gone, total, count)
        if arguments.dry_run:
            return print_forecast(workers.answers_to(dict.fromkeys(answers, FillStep.FORESEE)))
        return changed(workers.answers_to(dict.fromkeys(answers, FillStep.CHANGE)))


def print_forecast(answers: dict[str, Any]) -> int:
    """Print the changes to make. Return the exit status."""
    for lines, _ in check_answers(answers).values():
        for line in lines:
            output.result(line)
    return Status.UNUSABLE if any(is_missed for _, is_missed in answers.values()) else Status.DONE


def changed(answers: dict[str, Any]) -> int:
    """Print the summaries of all sources. Return the exit status."""
    failed = failures(answers)
    is_early = is_missed = False
    for name, answer in answers.items():
        if name in failed:
            for line in failure_lines({name: answer}):
                output.message(line)
            continue
        summary, figures, is_left, why = answer
        is_early, is_missed = is_early or bool(why), is_missed or is_left
        output.summary(f"{name}: {summary}", source=name, **figures)
        if why:
            output.message(f"{name}: {why}")
    if failed or is_early:
        return Status.ENDED_EARLY
    return Status.UNUSABLE if is_missed else Status.DONE
