"""Read all files of a mirror, and report missing, rotten and strange ones.

A file is compared with its length and digest at the end of the last run, and if URL is given, also with the current
lists of the source. A file that is as the last run left it, but not as the source lists it now, is "behind": the next
run updates it. The mirror has no record of a strange file.

With --repair the folder is repaired by a baseline of `ropepeach mirror`: it fetches missing and rotten files, removes
strange ones, and has the same checks and limits. The folder is then as new as its source.
"""
from __future__ import annotations

import argparse
import collections
import enum
import os
import time
from collections.abc import Iterator
from typing import TYPE_CHECKING, NamedTuple

from ropepeach.cli import numbers, output
from ropepeach.cli.progress import Progress
from ropepeach.cli.statuses import Status
from ropepeach.faults import Fault, Misused, Unusable
from ropepeach.http.client import add_options
from ropepeach.http.limits import LONGEST_RUN, Limits
from ropepeach.mirror.aims import entries_in, is_gone
from ropepeach.mirror.catalogue import Row, records_in
from ropepeach.mirror.folder import Folder
from ropepeach.mirror.state import STATE, State, state_in
from ropepeach.mirror.tree import tree_at
from ropepeach.mirror.whole import COLLECTION_FILE
from ropepeach.resync import filters
from ropepeach.resync.facts import Algorithm, Facts, facts_of, has_digest
from ropepeach.resync.filters import Filters

if TYPE_CHECKING:
    from ropepeach.mirror.sources import Sources


class Kind(enum.Enum):
    """The state of a file."""

    WELL = "well"
    MISSING = "missing"
    ROTTEN = "rotten"
    STRANGE = "strange"
    BEHIND = "behind"
    UNSURE = "without a digest"


WRONG = Kind.MISSING, Kind.ROTTEN, Kind.STRANGE
# Files of these kinds are listed by name.
NAMED_KINDS = *WRONG, Kind.BEHIND
# The numbers of files by kind, and their `bytes`.
Counts = collections.Counter[str]


class Finding(NamedTuple):
    """The kind of a file, its place, and its bytes."""

    kind: Kind
    place: str
    size: int


class CheckedMirror(NamedTuple):
    """A mirror of one source: its folder, its state, and the front of its lines."""

    path: str
    state: State
    front: str = ""

    @property
    def is_unfinished(self) -> bool:
        """Return whether a baseline of a Ropepeach did not end, so that there are no records of its files."""
        return not self.state.is_any and self.state.until is None


def add_arguments(parser: argparse.ArgumentParser) -> None:
    """Add the arguments of the subcommand."""
    parser.add_argument("folder", metavar="FOLDER", help="the folder of a mirror")
    parser.add_argument("url", metavar="URL", nargs="?",
                        help="compare also with what this source lists now, which is the mirror's")
    parser.add_argument("--repair", action="store_true", help="put right what is wrong, as a baseline does")
    parser.add_argument("--host", action="append", default=[], metavar="HOST",
                        help="ask this host too, as `ropepeach mirror --host` does")
    parser.add_argument("--max-delete", type=numbers.number, metavar="N",
                        help="repair nothing if more than N files would be removed (half of the mirror)")
    parser.add_argument("--yes", action="store_true", help="remove also more than half of the mirror")
    filters.add_patterns(parser, "resources")
    add_options(parser)


def run(arguments: argparse.Namespace) -> int:
    """Check a mirror, and return the exit status."""
    parts = mirrors_in(arguments.folder)
    if arguments.url is not None and (len(parts) != 1 or parts[0].front):
        raise Misused("URL goes with the mirror of one source: check each folder of a collection by itself")
    for part in parts:
        if (arguments.url is not None or arguments.repair) and part.state.filters != Filters(arguments.rules).digest():
            raise Unusable(f"{part.path}: its last run had other patterns: give its --include and --exclude")
    # (a repair ends a baseline that did not end)
    is_due = arguments.repair and any(part.is_unfinished for part in parts)
    counts = Counts() if is_due else check_mirrors(parts, arguments, is_shown=True)
    if is_due or (arguments.repair and is_wrong(counts)):
        status = repaired(arguments, parts)
        if status != Status.DONE:
            return status
        counts = check_mirrors(mirrors_in(arguments.folder), arguments, is_shown=False)
        print_summary(counts, "after the repair ")
    return Status.DAMAGED if is_wrong(counts) else Status.DONE


def mirrors_in(path: str) -> list[CheckedMirror]:
    """Return the mirror that a folder is, or the mirrors in the folder of a collection."""
    if not os.path.lexists(os.path.join(path, COLLECTION_FILE)):
        return [CheckedMirror(path, remembered(path))]
    names = sorted(entry.name for entry in os.scandir(path) if entry.is_dir(follow_symlinks=False)
                   and os.path.lexists(os.path.join(entry.path, STATE)))
    return [CheckedMirror(os.path.join(path, name), remembered(os.path.join(path, name)), f"{name} ") for name in names]


def remembered(path: str) -> State:
    """Return the state of the mirror in a folder. Raise Unusable without one."""
    with tree_at(path) as tree:
        state = state_in(tree)
    if state is None:
        raise Unusable(f"{path}: is no mirror")
    return state


def check_mirrors(parts: list[CheckedMirror], arguments: argparse.Namespace, is_shown: bool) -> Counts:
    """Check mirrors, and return the counts of their files."""
    counts = Counts()
    for part in parts:
        folder = Folder(part.path, filters=Filters(arguments.rules))
        try:
            for kind, place, size in findings_in(folder, part, arguments):
                counts[kind.value] += 1
                counts["bytes"] += size
                if is_shown and kind in NAMED_KINDS:
                    output.result(f"{kind.value} {part.front}{place}", finding=kind.value,
                                  path=f"{part.front.strip()}/{place}" if part.front else place)
        finally:
            folder.close()
    if is_shown:
        print_summary(counts)
    return counts


def findings_in(folder: Folder, part: CheckedMirror, arguments: argparse.Namespace) -> Iterator[Finding]:
    """Return the findings of all files."""
    if arguments.url is not None:
        limits = Limits(time.monotonic() + LONGEST_RUN)
        # (its --help needs no libcurl)
        from ropepeach.mirror.sources import Sources

        return against_lists(folder, Sources(as_mirror(arguments, arguments.url), folder, limits))
    if part.is_unfinished:
        raise Fault(f"{part.path}: its last baseline did not end: run `ropepeach mirror` again, or give URL")
    return against_known(folder)


def against_known(folder: Folder) -> Iterator[Finding]:
    """Yield the findings of all files by the records of the last run."""
    known = records_in(folder.tree)
    with Progress("checking", known.count()) as bar:
        for row in known.rows():
            size = folder.length(row.place)
            if is_as_known(folder, row):
                kind = Kind.WELL if row.sha256 else Kind.UNSURE
            else:
                kind = Kind.ROTTEN if folder.is_held(row.place) else Kind.MISSING
            yield Finding(kind, row.place, size)
            bar.add(1, size)
    for place in folder.names():
        if known.row(place) is None:
            yield Finding(Kind.STRANGE, place, folder.length(place))
    known.close()


def against_lists(folder: Folder, sources: Sources) -> Iterator[Finding]:
    """Yield the findings of all files by the current lists of the source, and by the records of the last run."""
    aims = sources.of_folder().aims
    aims.is_dry = True
    wanted = aims.aim(True).wanted
    sources.catalogue.close()
    known = records_in(folder.tree)
    with Progress("checking", sum(not is_gone(kept) for kept in wanted.values())) as bar:
        for entry in entries_in(wanted):
            place, size = entry.name, folder.length(entry.name)
            yield Finding(kind_of_listed(folder, known.row(place), place, entry.choices), place, size)
            bar.add(1, size)
    for place in folder.names():
        if is_gone(wanted.get(place)):
            row = known.row(place)
            is_behind = row is not None and is_as_known(folder, row)
            yield Finding(Kind.BEHIND if is_behind else Kind.STRANGE, place, folder.length(place))
    known.close()


def kind_of_listed(folder: Folder, row: Row | None, place: str, choices: tuple[Facts, ...]) -> Kind:
    """Return the kind of a file for which the source lists one of these facts."""
    if not folder.is_held(place):
        return Kind.BEHIND if row is None else Kind.MISSING
    is_fit = folder.fitting(place, choices) is not None
    if is_fit and all(map(has_digest, choices)):
        return Kind.WELL
    if row is None:
        return Kind.UNSURE if is_fit else Kind.ROTTEN
    if not is_as_known(folder, row):
        return Kind.ROTTEN
    return Kind.BEHIND if not is_fit else Kind.WELL if row.sha256 else Kind.UNSURE


def is_as_known(folder: Folder, row: Row) -> bool:
    """Return whether a file is as the last run left it."""
    return folder.has(row.place, facts_of(row.length, {Algorithm.SHA_256: row.sha256} if row.sha256 else {}, ""))


def is_wrong(counts: Counts) -> bool:
    """Return whether a file needs repair."""
    return any(counts[kind.value] for kind in WRONG)


def print_summary(counts: Counts, front: str = "") -> None:
    """Print the counts."""
    words = [kind.value for kind in Kind]
    kinds = ", ".join(f"{counts[word]:,} {word}" for word in words)
    output.summary(f"{front}{sum(counts[word] for word in words):,} files ({counts['bytes']:,} bytes): {kinds}",
                   **{word.replace(" ", "_"): counts[word] for word in (*words, "bytes")})


def repaired(arguments: argparse.Namespace, parts: list[CheckedMirror]) -> int:
    """Mirror by a baseline, and return its exit status."""
    from ropepeach.mirror import command, whole

    url = arguments.url or (whole.address_of_collection(arguments.folder) if parts[0].front else parts[0].state.source)
    return command.run(as_mirror(arguments, url, "--baseline"))


def as_mirror(arguments: argparse.Namespace, url: str, *words: str) -> argparse.Namespace:
    """Return the arguments of `ropepeach mirror` for a URL, with those that `check` has too."""
    from ropepeach.mirror import command

    parser = argparse.ArgumentParser()
    command.add_arguments(parser)
    defaults = parser.parse_args([*words, "--", url, arguments.folder])
    return argparse.Namespace(**vars(defaults) | vars(arguments) | {"url": url})
