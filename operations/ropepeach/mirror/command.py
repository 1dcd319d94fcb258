"""Mirror a source into a folder, as a destination of the ResourceSync Framework (ANSI/NISO Z39.99-2017).

It reads the source's lists, fetches the missing and changed resources, compares each with its listed length and
digests, and removes deleted ones. The source may be a Ropepeach, or any other source or sitemap: URL is its base or
host, a Source Description, a list, or a page that links to one. A run with exit status 0 leaves the folder of a
Ropepeach exactly as the source was at the moment that the run prints; for other sources it prints whether the
folder is exactly as listed, or why not. A run may be stopped at any moment: the next one resumes.
operations/docs/DESTINATIONS.md explains how a mirror stays in sync.

The first run is a baseline: it takes the Resource List and the changes after it. Later runs are incremental: they
take the changes since the last run. A run is a baseline again if the Change List begins after the state of the
folder, no longer has changes that were read from it, or drops changes that the run needs.

A resource NAME of a Ropepeach lies in FOLDER/NAME, byte for byte, with folders for its `/` and each `%` unchanged;
while another name lies below it, in FOLDER/NAME#. Resources of other sources lie in FOLDER/HOST/PATH. Media types
are not kept. A baseline removes all other files except those whose names begin with `#`, so the first one needs a
new or an empty folder. Symbolic links below FOLDER are not followed.
"""
from __future__ import annotations

import argparse
import math
import time
from typing import TYPE_CHECKING
from urllib.parse import urlsplit

from ropepeach.cli import numbers, output
from ropepeach.cli.statuses import Status
from ropepeach.faults import Fault, Misused, Unusable
from ropepeach.http.client import add_options
from ropepeach.http.limits import LONGEST_RUN, Limits
from ropepeach.resync import filters
from ropepeach.resync.lists import DESCRIPTION_PATH

if TYPE_CHECKING:
    from ropepeach.mirror.aims import Aim
    from ropepeach.mirror.engine import Engine

# The values of --require, the strongest last (facts.py, report.py).
REQUIRED = ["length", "md5", "sha-1", "sha-256", "sha-512", "exact"]
# The default number of sources of a collection that a run reads at the same time.
JOBS = 32
# The most files that a message names.
NAMED_SPARED = 20


def add_arguments(parser: argparse.ArgumentParser) -> None:
    """Add the arguments of the subcommand."""
    parser.add_argument("url", metavar="URL",
                        help="the source: its base or host, as https://source.example.org, its Source Description, "
                             "a list, a sitemap, or a page that links to one")
    folder = parser.add_argument("folder", metavar="[FOLDER]",
                                 help="the folder of the mirror; it is made if there is none (the last part of URL's "
                                      "path, or else its host)")
    # (with nargs="?" argparse takes no FOLDER after an option)
    folder.required = False
    parser.add_argument("--list", action="store_true",
                        help="print the facts of each file of FOLDER, and send no request; no URL is needed")
    parser.add_argument("--connections", type=numbers.connections, default=1, metavar="N",
                        help="fetch at this many connections to each host at once (1)")
    parser.add_argument("--on-change", metavar="COMMAND",
                        help="run COMMAND after the run, with a line of JSON on its standard input for each file "
                             "that was created, updated or deleted")
    way = parser.add_mutually_exclusive_group()
    way.add_argument("--baseline", action="store_true", help="read the Resource List, and all files")
    way.add_argument("--incremental", action="store_true", help="refuse to begin with a baseline")
    parser.add_argument("--dry-run", action="store_true", help="print what would be done, and do nothing")
    parser.add_argument("--max-delete", type=numbers.number, metavar="N",
                        help="remove nothing if more than N would be removed (half of the mirror)")
    parser.add_argument("--yes", action="store_true", help="remove also more than half of the mirror")
    parser.add_argument("--max-bytes", type=numbers.size, default=math.inf, metavar="SIZE",
                        help="take no more than this from sources, as 10GiB")
    parser.add_argument("--max-duration", type=numbers.seconds, default=LONGEST_RUN, metavar="SECONDS",
                        help=f"how long the run may take ({LONGEST_RUN:,})")
    parser.add_argument("--elsewhere", action="store_true",
                        help="mirror also the sources on other hosts that a Source Description of several sources "
                             "names")
    parser.add_argument("--jobs", type=numbers.count, default=JOBS, metavar="N",
                        help=f"read this many of several sources at the same time ({JOBS})")
    filters.add_patterns(parser, "resources")
    parser.add_argument("--require", choices=REQUIRED, metavar="CHECK",
                        help="refuse lists that have a resource with less than this, before anything is changed: "
                             f"{', '.join(REQUIRED[:-1])}; or lists by which the folder would not be exact: exact")
    parser.add_argument("--host", action="append", default=[], metavar="HOST",
                        help="take also lists and resources of this host, as example.org or example.org:8080 "
                             "(only those of the URL's host)")
    parser.add_argument("--ignore-missing", action="store_true",
                        help="exit with status 0 although listed resources of a source of other software are gone")
    parser.add_argument("--dumps", action="store_true",
                        help="take bodies from the source's dumps, where the lists have a digest of them")
    # (accepted as before; the form of the source decides)
    parser.add_argument("--any-source", action="store_true", help=argparse.SUPPRESS)
    add_options(parser)


def run(arguments: argparse.Namespace) -> int:
    """Mirror a source, and return the exit status. A fault of the system names the folder."""
    if arguments.folder is None and not arguments.list:
        arguments.folder = folder_of(arguments.url)
    try:
        return mirrored(arguments)
    except BrokenPipeError:
        raise
    except OSError as fault:
        raise Unusable(f"{arguments.folder or arguments.url}: {fault.strerror or fault}") from None


def folder_of(url: str) -> str:
    """Return the default folder of a source: the last part of its path, or else its host."""
    try:
        parts = urlsplit(url.removesuffix(DESCRIPTION_PATH))
        host = parts.hostname or ""
    except ValueError:
        host = ""
    names = [name for name in parts.path.split("/") if name not in ("", ".", "..")] if host else []
    name = names[-1] if names else host
    if not name or name.startswith(("#", "-")):
        raise Misused(f"{url}: has no name that a folder may have: name FOLDER too")
    return name


def mirrored(arguments: argparse.Namespace) -> int:
    """Mirror a source, and return the exit status."""
    # (late imports, so that commands which need less start faster)
    if arguments.list:
        from ropepeach.mirror import listing

        return listing.run(arguments)
    from ropepeach.mirror.sources import Sources, source_base
    from ropepeach.mirror.whole import is_whole
    from ropepeach.resync.lists import OtherForm, Several

    limits = Limits(time.monotonic() + arguments.max_duration, arguments.max_bytes, arguments.max_delete,
                    arguments.yes)
    if is_whole(arguments.folder):
        from ropepeach.mirror import collection

        return collection.run(arguments, source_base(arguments.url), limits)
    from ropepeach.mirror.folder import Folder

    folder = Folder(arguments.folder, filters=filters.Filters(arguments.rules))
    sources = Sources(arguments, folder, limits)
    try:
        try:
            return brought(sources.found() if folder.is_new else sources.of_folder(), arguments)
        except OtherForm:
            return brought(sources.lenient(), arguments)
    except Several:
        from ropepeach.mirror import collection

        return collection.begin(arguments, source_base(arguments.url), limits, folder)
    finally:
        sources.catalogue.close()
        folder.close()


def brought(engine: Engine, arguments: argparse.Namespace) -> int:
    """Do a run of one source, or with --dry-run print its actions. Return the exit status."""
    is_baseline = arguments.baseline or engine.folder.until is None
    if arguments.dry_run:
        from ropepeach.mirror.forecast import Forecast

        found = Forecast(engine, is_baseline)
        for line in found.lines():
            output.result(line)
        found.check()
        return Status.DONE
    from ropepeach.mirror.report import describe

    try:
        aim = engine.go(is_baseline)
    except Fault:
        engine.events.hand_over_what_is_left()
        raise
    describe(engine, aim)
    engine.events.hand_over()
    return status_after(engine, aim, arguments.ignore_missing)


def status_after(engine: Engine, aim: Aim, ignores_missing: bool) -> int:
    """Name the lists and resources that are gone, and the files that stay. Return the exit status."""
    faults = [*aim.dead, *engine.missing.values()]
    for why in faults[:NAMED_SPARED]:
        output.message(str(why))
    if len(faults) > NAMED_SPARED:
        output.message(f"and {len(faults) - NAMED_SPARED:,} more")
    is_missing = aim.dead or (engine.missing and not ignores_missing)
    if not aim.spared:
        return Status.ENDED_EARLY if is_missing else Status.DONE
    more = f" and {len(aim.spared) - NAMED_SPARED:,} more" if len(aim.spared) > NAMED_SPARED else ""
    output.message(f"{len(aim.spared):,} files stay, as their entries may be among those that were not read: "
                   f"{', '.join(sorted(aim.spared)[:NAMED_SPARED])}{more}")
    return Status.ENDED_EARLY
