"""The changes that a run of `ropepeach fill` must make to a source: the names to put and to delete, and the size of the
disk that the source would need.
"""
from __future__ import annotations

import argparse
import hashlib
import re
from array import array
from collections.abc import Iterable, Iterator

from ropepeach.cli import output
from ropepeach.cli.numbers import UNITS
from ropepeach.cli.progress import Progress
from ropepeach.disk import formula
from ropepeach.disk.formula import LONGEST_BODY
from ropepeach.faults import Fault
from ropepeach.fill.files import Files, Kinds, Stamp, Unfit, Unlawful, path_of, shown_path, stamps_in
from ropepeach.fill.memory import Memory
from ropepeach.fill.source import KnownSource
from ropepeach.fill.send import PutOrDelete, Sending
from ropepeach.http.client import error_text
from ropepeach.resync.facts import Algorithm, Facts, digest_of, fit, kind_of, length_of
from ropepeach.resync.filters import Filters
from ropepeach.resync.lists import Source

# The facts of resources by their names.
Held = dict[str, Facts | None]
# The word of a source for a body without its recorded SHA-256.
DAMAGED = "Damaged"


def files_of(arguments: argparse.Namespace) -> Files:
    """Return the files of FOLDER."""
    return Files(arguments.folder, arguments.links, Filters(arguments.rules))


def in_units(size: int) -> str:
    """Return a number of bytes with a unit."""
    for name in ("GiB", "MiB", "KiB"):
        if size >= UNITS[name]:
            return f"{size / UNITS[name]:.1f} {name}"
    return f"{size} bytes"


def sha256_of(facts: Facts) -> bytes | None:
    """Return the SHA-256 that a list has of a body, if it has one."""
    return digest_of(facts, Algorithm.SHA_256)


def held_by(source: Source) -> tuple[Held, str, bool]:
    """Return the resources of a source, the moment of its Resource List, and whether that list has all of them."""
    at, resources, changes = source.lists_that_meet()
    before: Held = {}
    for entry in changes.entries:
        before.setdefault(entry.name, resources.get(entry.name))
        resources.pop(entry.name, None)
        if entry.facts is not None:
            resources[entry.name] = entry.facts
    return resources, at, all(resources.get(name) == facts for name, facts in before.items())


class FillPlan:
    """The changes that a run must make to a source."""

    def __init__(self, folder: Files, kinds: Kinds, again: Iterable[str] = (), is_skipping: bool = False) -> None:
        """The names in `again` are put in any case. A run that skips does not name files that cannot be resources."""
        self.folder, self.kinds, self.again, self.is_skipping = folder, kinds, set(again), is_skipping
        self.memory: Memory | None = None
        # The files that can be resources, in the order of their names: the names as lines of a text, and the
        # packed stamps. (Lists of them would take five times the memory.)
        self.text, self.packed, self.files = "", bytearray(), 0
        # The reasons of the other files.
        self.unfit: dict[str, Unfit] = {}
        self.changed: list[str] = []
        self.sizes = array("Q")
        self.gone: list[str] = []
        self.left_out: set[str] = set()
        # How many files are the same, and how many of them a later run need not read.
        self.same = self.known = self.resource_count = self.missed = 0

    def scan(self, names: Iterable[str]) -> None:
        """Look at the files of these names, in byte order, without reading them. Raise a fault if they are too many."""
        found, self.packed, self.unfit = self.folder.scan(names)
        self.text, self.files = "\n".join(found), len(found)
        if self.files > formula.MOST_RESOURCES:
            raise Fault(f"FOLDER has {self.files:,} files, and a source holds {formula.MOST_RESOURCES:,} at most: "
                        f"split it (operations/docs/OPERATING.md)")

    def names(self) -> Iterator[str]:
        """Yield the names of the files that can be resources, in order."""
        return (line[0] for line in re.finditer(".+", self.text))

    def leave_out(self, name: str, why: Unfit) -> None:
        """Leave out a file that cannot be a resource, and say why."""
        self.left_out.add(name)
        if not (self.is_skipping and isinstance(why, Unlawful)):
            self.missed += 1
            output.message(f"left out {shown_path(path_of(name))}: {why}")

    def digest(self) -> str:
        """Return a digest of the names, the stamps, and the options that decide which files are the same."""
        options = [self.folder.is_following, self.folder.filters.digest(),
                   [(pattern.pattern, kind) for pattern, kind in self.kinds.patterns]]
        digest = hashlib.sha256(f"{options!r}\n{self.text}\n".encode())
        digest.update(self.packed)
        return digest.hexdigest()

    def compare_with(self, source: KnownSource, memory: Memory) -> tuple[str, bool]:
        """Compare the files with the resources of a source. Return the moment of its Resource List, and whether that
        list has all resources.

        If an earlier run found no changes, and the files and the documents of the source are unchanged since, there are
        no changes to make.
        """
        self.memory, digest = memory, self.digest()
        head, *lines = memory.settled() or [""]
        documents = [(address, sha256) for address, _, sha256 in (line.partition(" ") for line in lines)]
        is_as_then = head == digest and not self.unfit and not self.again
        if is_as_then and source.has_unchanged(documents):
            self.same = self.resource_count = self.files
            return "", True
        resources, at, is_published = held_by(source)
        self.compare(resources, memory)
        if is_published and not self.gone and not self.unfit and self.known == self.files:
            memory.remember_unchanged([digest, *(" ".join(document) for document in source.read)])
        return at, is_published

    def compare(self, resources: Held, memory: Memory | None = None) -> None:
        """Find the files that are new or changed, and the resources without a file. Empties `resources`."""
        resources = self.filtered(resources)
        self.resource_count, self.memory = len(resources), memory
        missing = self.again.difference(self.names(), self.unfit)
        if missing:
            raise Fault(*(f"--again {name}: FOLDER has no such file, or --exclude leaves it out; nothing was changed"
                          for name in sorted(missing)))
        if memory:
            memory.begin()
        for name, why in self.unfit.items():
            resources.pop(name, None)
            self.leave_out(name, why)
        with Progress("comparing", self.files, sum(stamp.size for stamp in stamps_in(self.packed))) as bar:
            for name, stamp in zip(self.names(), stamps_in(self.packed)):
                try:
                    self.compare_file(name, stamp, resources.pop(name, None))
                except Unfit as why:
                    self.leave_out(name, why)
                else:
                    bar.add(1, stamp.size)
        below = tuple(f"{name}/" for name in self.left_out)
        self.gone = sorted(name for name in resources if not name.startswith(below))

    def filtered(self, resources: Held) -> Held:
        """Return the resources that --exclude does not leave out. The others stay unchanged."""
        has = self.folder.filters.has
        if not self.folder.filters.rules:
            return resources
        return {name: facts for name, facts in resources.items() if has(path_of(name))}

    def compare_file(self, name: str, stamp: Stamp, facts: Facts | None) -> None:
        """Note whether a file has the bytes of the resource of its name."""
        digest = self.memory.digest(name, stamp) if self.memory else None
        is_known = (digest is not None and facts is not None and digest == sha256_of(facts)
                    and stamp.size == length_of(facts))
        if not is_known:
            self.folder.check_readable(name)
        if name in self.again or facts is None or self.differs(name, stamp.size, facts, is_known):
            self.changed.append(name)
            self.sizes.append(stamp.size)
        else:
            self.same += 1

    def differs(self, name: str, size: int, facts: Facts, is_known: bool) -> bool:
        """Return whether a file differs from its resource. A file that is known to be equal is not read."""
        kind = self.kinds.given_to(name)
        if size != length_of(facts) or (kind and kind != kind_of(facts)):
            return True
        if is_known:
            self.known += 1
            return False
        reading = self.folder.read(name)
        if not fit(facts, reading.body):
            return True
        digest = sha256_of(facts)
        if self.memory and digest is not None and reading.is_still:
            self.known += self.memory.note(name, reading.stamp, digest, reading.moment)
        return False

    def look_at_bodies(self, source: KnownSource) -> None:
        """Ask the source for all bodies that would stay, and put the damaged ones again."""
        changed = set(self.changed)
        names = [name for name in self.names() if name not in changed and name not in self.left_out]
        with Progress("asking", len(names)) as bar:
            for name in names:
                if is_damaged(source, name):
                    output.message(f"damaged {name}: put again")
                    self.changed.append(name)
                    self.sizes.append(self.folder.status(name).st_size)
                    self.same -= 1
                bar.add()

    def check_room(self, base: str, size: int | None) -> None:
        """Refuse a folder that a disk of this size cannot hold, if a size is given."""
        if self.files and size is not None:
            needed = formula.needed(self.collection(), len(base))
            if needed > min(size, formula.MOST_BYTES):
                raise Fault(f"FOLDER needs a disk of {needed:,} bytes, with a third of it free: --room has "
                            f"{size:,}")

    def collection(self) -> formula.Holdings:
        """Return the files as the formula for the size of a disk wants them."""
        return formula.holdings_of((name, stamp.size, self.kinds.of(name))
                                   for name, stamp in zip(self.names(), stamps_in(self.packed)))

    def send(self, sending: Sending) -> None:
        """Delete the resources without a file, which makes room, and put the files that are new or changed."""
        with Progress("changing", len(self.gone) + len(self.changed), sum(self.sizes)) as bar:
            for name in self.gone:
                sending.add(PutOrDelete(name))
                bar.add()
            sending.flush()
            for name, size in zip(self.changed, self.sizes):
                try:
                    reading = self.folder.read_unchanged(name)
                    sending.add(PutOrDelete(name, reading.body, self.kinds.of(name), reading))
                except Unfit as why:
                    self.leave_out(name, why)
                bar.add(1, size)
            sending.flush()

    def acknowledged(self, change: PutOrDelete) -> None:
        """Remember a file that the source has acknowledged."""
        if self.memory and change.reading and change.body is not None:
            digest = hashlib.sha256(change.body).digest()
            self.memory.note(change.name, change.reading.stamp, digest, change.reading.moment)

    def print_summary(self, sending: Sending, end: str) -> None:
        """Print the summary of the run, with its end."""
        output.summary(self.summary(sending, end), **self.figures(sending))

    def figures(self, sending: Sending) -> dict[str, int]:
        """Return the figures of the summary."""
        return {"put": sending.put, "bytes_put": sending.size, "deleted": sending.deleted, "same": self.same,
                "left_out": len(self.left_out)}

    def summary(self, sending: Sending, end: str) -> str:
        """Return the summary of the run, with its end, in a line."""
        return (f"{sending.put:,} put ({in_units(sending.size)}), {sending.deleted:,} deleted, {self.same:,} the same, "
                f"{len(self.left_out):,} left out; {end}")


def check_deletions(arguments: argparse.Namespace, gone: int, total: int, files: int) -> None:
    """Refuse to delete more resources than is allowed: FOLDER may be a wrong one."""
    if arguments.max_delete is not None:
        if gone > arguments.max_delete:
            raise Fault(f"{gone:,} of {total:,} resources would be deleted, more than --max-delete "
                        f"{arguments.max_delete:,}: nothing was changed")
    elif 2 * gone > total and not arguments.yes and not (arguments.allow_empty and not files):
        raise Fault(f"{gone:,} of {total:,} resources would be deleted, more than half: is FOLDER the right "
                    f"one? (--yes deletes them)")


def is_damaged(source: KnownSource, name: str) -> bool:
    """Return whether the source says that a body does not have its recorded SHA-256."""
    path = f"/resource/{name}"
    answer = source.client.ask("GET", path, limit=LONGEST_BODY)
    if answer.status == 500 and error_text(answer).endswith(DAMAGED):
        return True
    if answer.status != 200:
        raise Fault(f"GET {source.client.address}{path}: {error_text(answer)}; nothing was changed")
    return False


def published(arguments: argparse.Namespace, sending: Sending, is_published: bool) -> str:
    """Publish if the Resource List lacks resources. Return the end of the report."""
    if not (sending.put or sending.deleted) and is_published:
        return "published before"
    if not arguments.publish:
        return "not published"
    sending.publish()
    return sending.published
