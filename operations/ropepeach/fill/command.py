"""Makes a source hold exactly the files of a folder, over HTTP, and publishes it.

It puts files that the source lacks, puts files of another length or SHA-256 again, and deletes resources without a
file. It reads the source's lists to know its resources. A file with the same size, times and inode as in an earlier run
is not read again: its remembered SHA-256 is compared with the one in the list. --check reads all files. The name of a
resource is the path of its file below FOLDER, percent-encoded. Its media type is that of the first pattern in --types
that fits the name; then the type is compared too. Otherwise the ending of the name decides the type. The run publishes
if the Resource List does not have all resources, and where the source's history is full.

Files that cannot be resources are named and left out: names of more than 240 bytes, files of more than 16,777,216
bytes, unreadable files, files that change while they are read, links, and all else that is no regular file. Resources
of such names, or below them, stay. With --links a link counts as the file that it leads to, if that lies inside FOLDER.

Changes go in groups of 16, and a group is applied whole or not at all: an interrupted run is resumed by the same
command. Nobody else should change the source meanwhile.
"""
from __future__ import annotations

import argparse
import contextlib

from ropepeach.cli import numbers, output
from ropepeach.cli.named import address_named
from ropepeach.cli.statuses import Status
from ropepeach.collection import add_option_of_jobs, is_collection
from ropepeach.faults import Fault
from ropepeach.fill.files import Kinds
from ropepeach.fill.memory import Memory
from ropepeach.fill.source import KnownSource
from ropepeach.fill.plan import FillPlan, check_deletions, files_of, published
from ropepeach.fill.send import Sending
from ropepeach.http.client import add_options, client_of
from ropepeach.resync import filters


def add_arguments(parser: argparse.ArgumentParser) -> None:
    """Add the arguments of the command."""
    parser.add_argument("folder", metavar="FOLDER")
    parser.add_argument("url", metavar="URL",
                        help="where the source is served, such as http://127.0.0.1:8080, the name of a source "
                             "here, or the file of a collection")
    parser.add_argument("--dry-run", action="store_true", help="print the changes, and make none")
    parser.add_argument("--check", action="store_true",
                        help="read all files, also those that did not change since the last run")
    parser.add_argument("--again", metavar="NAME", action="append", default=[],
                        help="put this again, also if the source has it; for several names give the option again")
    parser.add_argument("--repair", action="store_true",
                        help="ask the source for all bodies, and put the damaged ones again")
    parser.add_argument("--publish", action=argparse.BooleanOptionalAction, default=True,
                        help="publish at the end, and where the history is full")
    parser.add_argument("--max-delete", type=numbers.number, metavar="N",
                        help="delete nothing if more than N would be deleted (half of the resources)")
    parser.add_argument("--yes", action="store_true", help="delete also more than half of the resources")
    parser.add_argument("--allow-empty", action="store_true", help=argparse.SUPPRESS)
    parser.add_argument("--links", action="store_true", help="follow links to files that lie inside FOLDER")
    parser.add_argument("--skip-unlawful", action="store_true",
                        help="leave out silently, and count, what cannot be a resource")
    parser.add_argument("--types", metavar="FILE",
                        help="media types by name: lines of a pattern and a type, such as data/* text/csv")
    parser.add_argument("--room", type=numbers.size, metavar="SIZE",
                        help="refuse a folder that a disk of this size cannot hold")
    filters.add_patterns(parser, "files, which are neither put nor deleted,")
    add_option_of_jobs(parser)
    add_options(parser)


def run(arguments: argparse.Namespace) -> int:
    """Fill a source, or the sources of a collection. Return the exit status."""
    if is_collection(arguments.url):
        from ropepeach.collection import fill

        return fill.run(arguments)
    folder = files_of(arguments)
    plan = FillPlan(folder, Kinds(arguments.types), arguments.again, arguments.skip_unlawful)
    client = client_of(arguments, address_named(arguments.url))
    plan.scan(folder.names())
    source = KnownSource(client)
    with contextlib.closing(source.remember(arguments)) as memory:
        return filled(arguments, plan, source, memory)


def filled(arguments: argparse.Namespace, plan: FillPlan, source: KnownSource, memory: Memory) -> int:
    """Compare and fill a source. Return the exit status."""
    at, is_published = plan.compare_with(source, memory)
    if arguments.repair:
        plan.look_at_bodies(source)
    sending = Sending(source, at, arguments.publish, plan.acknowledged)
    if arguments.dry_run:
        for line in [*(f"delete {name}" for name in plan.gone), *(f"put {name}" for name in plan.changed)]:
            output.result(line)
        plan.print_summary(sending, f"{len(plan.changed):,} to put, {len(plan.gone):,} to delete")
    plan.check_room(source.base, arguments.room)
    check_deletions(arguments, len(plan.gone), plan.resource_count, plan.files)
    if not arguments.dry_run:
        try:
            plan.send(sending)
            end = published(arguments, sending, is_published)
        except Fault:
            plan.print_summary(sending, "ended early")
            raise
        plan.print_summary(sending, end)
    return Status.UNUSABLE if plan.missed else Status.DONE
