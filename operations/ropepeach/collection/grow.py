"""Moves resources of a collection to the sources in which they live, after a source was added.

FILE names all sources, also the new one. A name lives in the source of the greatest weight (ropepeach-collection(1)),
so one more source takes about one name of n + 1, and no name moves between the other sources. The sources' lists show
which names have to move, so nothing is remembered between two runs.

First all sources are asked. The run ends, and nothing was changed, if a source does not answer, if one would hold too
much, if the Source Description does not name all sources, or if two sources hold different bytes of a name. Then
resources are put to the source in which they live. When all puts are acknowledged, they are deleted from the other
source. So at every moment one source or two of them hold a resource. Resources that others put to the new source
meanwhile stay. An interrupted run is resumed by the same command. Nobody else should change the sources meanwhile.
"""
from __future__ import annotations

import argparse
import os
from collections.abc import Iterator
from typing import Any

from ropepeach.cli import numbers, output
from ropepeach.cli.statuses import Status
from ropepeach.collection import add_option_of_jobs
from ropepeach.collection.fill import check_file
from ropepeach.collection.settings import CollectionSettings
from ropepeach.collection.workers import Answering, Workers, check_answers
from ropepeach.collection.show import NAMES_SHOWN, Astray, SourceContents, asked_source
from ropepeach.disk import formula
from ropepeach.faults import Fault
from ropepeach.fill.send import MOST_GROUPED, PutOrDelete, Sending
from ropepeach.http.client import add_options, client_of, error_text
from ropepeach.resync.facts import Facts, kind_of, length_of
from ropepeach.resync.lists import DESCRIPTION_PATH, Dropped, Entry, Source

# The statuses of a name that is held, and of one that is not.
HELD, ABSENT = 200, 404


def add_arguments(parser: argparse.ArgumentParser) -> None:
    """Add the arguments of the command."""
    parser.add_argument("file", metavar="FILE", help="the collection, such as collection.toml, with the new source")
    parser.add_argument("--dry-run", action="store_true", help="print the moves, and make none")
    parser.add_argument("--max-delete", type=numbers.number, metavar="N",
                        help="move nothing if more than N would be moved, and so deleted where they are")
    parser.add_argument("--no-publish", dest="publish", action="store_false",
                        help="publish nothing, and end where a history is full")
    add_option_of_jobs(parser)
    add_options(parser)


def check_description(collection: CollectionSettings, arguments: argparse.Namespace) -> None:
    """Refuse to move resources to a source that mirrors do not find."""
    # (--help needs no libcurl)
    from ropepeach.mirror.collection import bases_at

    bases = bases_at(client_of(arguments, collection.address))
    missing = [member.base for member in collection.members.values() if member.base not in bases]
    if missing:
        raise Fault(f"{collection.address}{DESCRIPTION_PATH}: the Source Description does not name "
                    f"{' '.join(missing)}: let the site serve the one that `ropepeach collection` makes, so that "
                    f"mirrors find what moves there; nothing was changed")


class GrowPart:
    """A run for one source, in its worker, one message per step."""

    def __init__(self, collection: CollectionSettings, name: str, arguments: argparse.Namespace) -> None:
        self.collection, self.name, self.arguments = collection, name, arguments
        self.member = collection.members[name]
        self.steps: Iterator[Answering] = iter([self.read, self.compare, self.take, self.drop])

    def answer(self, message: Any) -> Any:
        """Do the next step."""
        return next(self.steps)(message)

    def read(self, _: object) -> tuple[int, list[Astray]]:
        """Read the lists. Return the number of resources, and those that do not live here."""
        contents = SourceContents(self.collection, self.name, self.arguments)
        self.resources, self.source, self.newest = contents.facts, contents.source, contents.newest
        self.sending = Sending(self.source, contents.at, self.arguments.publish)
        return len(self.resources), contents.astray()

    def compare(self, coming: list[Astray]) -> int:
        """Refuse resources that this source has with other bytes or has no room for. Return the number of puts."""
        differing = [astray for astray in coming if self.resources.get(astray.name, astray.facts) != astray.facts]
        if differing:
            raise Fault(differing_line([(astray.name, astray.holder, self.name) for astray in differing]))
        self.coming = [astray for astray in coming if astray.name not in self.resources]
        count = len(self.resources) + len(self.coming)
        if count > formula.MOST_RESOURCES:
            raise Fault(f"is full: it would hold {count:,} resources, and a source holds "
                        f"{formula.MOST_RESOURCES:,} at most; add more sources")
        if self.coming and os.path.exists(self.member.file):
            resources = [*self.resources.items(), *((astray.name, astray.facts) for astray in self.coming)]
            bodies = formula.holdings_of((name, length_of(facts), kind_of(facts)) for name, facts in resources)
            check_file(self.member, bodies, len(self.coming))
        return len(self.coming)

    def take(self, _: object) -> int:
        """Read resources from the sources that hold them, and put them here. Return the number of puts, after all
        are acknowledged. A resource that another client put here meanwhile is newer, and stays.
        """
        holders: dict[str, Source] = {}
        for start in range(0, len(self.coming), MOST_GROUPED):
            due = self.coming[start : start + MOST_GROUPED]
            for holder in {astray.holder for astray in due} - holders.keys():
                holders[holder] = asked_source(self.collection.members[holder], self.arguments)
            bodies = [holders[astray.holder].resource(astray.name, astray.facts) for astray in due]
            for astray, body in zip(due, bodies):
                if self.is_new(astray.name):
                    self.sending.add(PutOrDelete(astray.name, body, kind_of(astray.facts)))
            self.sending.flush()
        self.check_overwritten()
        if self.sending.put and self.arguments.publish:
            self.sending.publish()
        return self.sending.put

    def is_new(self, name: str) -> bool:
        """Return whether a name has not been put here since the lists were read."""
        answer = self.source.client.ask("HEAD", f"/resource/{name}")
        if answer.status == HELD:
            output.message(f"{name}: was put here meanwhile, and stays as it is")
        elif answer.status != ABSENT:
            raise Fault(f"HEAD {self.source.client.address}/resource/{name}: {error_text(answer)}")
        return answer.status == ABSENT

    def check_overwritten(self) -> None:
        """Raise a fault if somebody else put or deleted a name between `is_new` and our put."""
        if not self.sending.put:
            return
        try:
            entries = self.source.changes(self.newest).entries
        except Dropped as why:
            output.message(f"what others put meanwhile can't be seen: {why}")
            return
        wrong = overwritten(entries, {astray.name: astray.facts for astray in self.coming})
        if wrong:
            raise Fault(f"{len(wrong):,} names were changed here at the moment at which older bytes were put: "
                        f"deposit them again: {' '.join(wrong[:NAMES_SHOWN])}")

    def drop(self, going: list[str]) -> int:
        """Delete resources that other sources have acknowledged, unless they were changed here since they were read.
        Return how many were deleted.
        """
        changed = {entry.name for entry in self.source.changes(self.newest).entries} if going else set()
        staying = [name for name in going if name in changed]
        for name in going:
            if name not in changed:
                self.sending.add(PutOrDelete(name))
        self.sending.flush()
        if self.sending.deleted and self.arguments.publish:
            self.sending.publish()
        if staying:
            raise Fault(f"{len(staying):,} names were changed meanwhile, and stay here: run it again: "
                        f"{' '.join(staying[:NAMES_SHOWN])}")
        return self.sending.deleted


def overwritten(entries: list[Entry], taken: dict[str, Facts]) -> list[str]:
    """Return the names whose last change is our put, after somebody else's change."""
    last = {entry.name: entry.facts for entry in entries}
    others = {entry.name for entry in entries if entry.name in taken and entry.facts != taken[entry.name]}
    return sorted(name for name in others if last[name] == taken[name])


def differing_line(pairs: list[tuple[str, str, str]]) -> str:
    """Return a line about names that two sources hold with different bytes."""
    more = f", and {len(pairs) - NAMES_SHOWN:,} more" if len(pairs) > NAMES_SHOWN else ""
    names = "; ".join(f"{name} is held by {first} and by {second}" for name, first, second in pairs[:NAMES_SHOWN])
    return f"with different bytes: {names}{more}: look which is right, and delete the other one; nothing was changed"


def coming_to(collection: CollectionSettings, all_astray: list[Astray]) -> dict[str, list[Astray]]:
    """Return the resources that every source gets. If several sources hold one, one of them gives it."""
    coming: dict[str, list[Astray]] = {name: [] for name in collection.members}
    known, differing = dict[str, Astray](), []
    for astray in all_astray:
        other = known.setdefault(astray.name, astray)
        if other is astray:
            coming[astray.home].append(astray)
        elif other.facts != astray.facts:
            differing.append((astray.name, other.holder, astray.holder))
    if differing:
        raise Fault(differing_line(differing))
    return coming


def check_moves(limit: int | None, count: int) -> None:
    """Refuse to move more resources than is allowed."""
    if limit is not None and count > limit:
        raise Fault(f"{count:,} resources would be moved, more than --max-delete {limit:,}: nothing was changed")


def run(arguments: argparse.Namespace) -> int:
    """Move all resources. Return the exit status."""
    collection = CollectionSettings(arguments.file)
    check_description(collection, arguments)

    with Workers(collection.members, lambda name: GrowPart(collection, name, arguments).answer,
                 arguments.jobs) as workers:
        answers = check_answers(workers.answers_to())
        all_astray = [stray for _, names in answers.values() for stray in names]
        check_moves(arguments.max_delete, len(all_astray))
        due = check_answers(workers.answers_to(coming_to(collection, all_astray)))
        total = sum(count for count, _ in answers.values())
        output.result(f"{len(all_astray):,} of {total:,} are where they do not live; {sum(due.values()):,} "
                      f"have to be put")
        if arguments.dry_run:
            for astray in all_astray:
                output.result(f"move {astray.holder} {astray.home} {astray.name}")
            return Status.DONE
        put = check_answers(workers.answers_to(dict.fromkeys(answers, "take")))
        going = {name: [gone.name for gone in astray] for name, (_, astray) in answers.items()}
        deleted = check_answers(workers.answers_to(going))
    for name in answers:
        if put[name] or deleted[name]:
            output.result(f"{name}: {put[name]:,} put, {deleted[name]:,} deleted")
    return Status.DONE
