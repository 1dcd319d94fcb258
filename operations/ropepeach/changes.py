"""The changes of any source, for Python programs: `from ropepeach.changes import changes`.

It sends the requests of `ropepeach mirror`, within the same limits, and writes no file. It works in the main thread.
"""
from __future__ import annotations

import dataclasses
import time
from collections.abc import Iterator, Sequence

from ropepeach.faults import Misused
from ropepeach.http.client import PATIENCE, Client
from ropepeach.http.limits import LONGEST_RUN, Limits
from ropepeach.http.transfers import Transfers
from ropepeach.resync.addresses import Hosts, own_host, source_at
from ropepeach.resync.asking import Asking
from ropepeach.resync.discovery import Discovery, Lists
from ropepeach.resync.dumps import Dumps
from ropepeach.resync.facts import FRONT, Facts, algorithms_of, digest_of, has_length, kind_of, length_of
from ropepeach.resync.lenient import Reading
from ropepeach.resync.lists import Dropped, Entry
from ropepeach.resync.moments import moment_in


@dataclasses.dataclass(frozen=True)
class SourceChange:
    """A change of a resource: `listed`, `created`, `updated` or `deleted`; its address and moment; its listed facts."""

    change: str
    address: str
    moment: str | None
    length: int | None
    digests: dict[str, str]
    kind: str


def changes(url: str, since: str | None = None, hosts: Sequence[str] = (), patience: float = PATIENCE,
            duration: float = LONGEST_RUN) -> Iterator[SourceChange]:
    """Yield the latest change of every resource at or after a W3C Datetime, or without one all entries of the Resource
    Lists.

    Raise `ropepeach.resync.lists.Dropped` if no Change List has all changes since then, and another
    `ropepeach.faults.Fault` if a list is missing or refused.
    """
    address = source_at(url)
    limits = Limits(time.monotonic() + duration)
    asking = Asking(Hosts([own_host(address), *hosts]),
                    lambda origin: Client(origin, patience, limits=limits),
                    Transfers(address.origin, patience, limits=limits))
    try:
        reading = Reading(asking)
        for lists in Discovery(asking).lists_at(address):
            yield from map(change_of, entries_since(reading, lists, since))
    finally:
        asking.close()


def entries_since(reading: Reading, lists: Lists, since: str | None) -> list[Entry]:
    """Return the entries of the lists of one set of resources."""
    if since is None:
        dumps = Dumps(reading.asking)
        read = dumps.resources(lists.resources, reading) if lists.is_dump else reading.resources(lists.resources)
        return list(read[1].values())
    moment = moment_in(since)
    if moment is None:
        raise Misused(f"{since[:100]!r} is no moment of W3C Datetime")
    if lists.changes is None:
        raise Dropped(f"{lists.resources}: has no Change List beside it")
    return list(reading.changes(lists.changes, moment).entries.values())


def change_of(entry: Entry) -> SourceChange:
    """Return an entry as a change."""
    facts = entry.facts or Facts(bytes(FRONT))
    digests = {algorithm.word: (digest_of(facts, algorithm) or b"").hex()
               for algorithm in algorithms_of(facts)}
    return SourceChange(entry.change or "listed", entry.address, entry.moment or None,
                        length_of(facts) if has_length(facts) else None, digests, kind_of(facts))
