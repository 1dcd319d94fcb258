"""Estimates the disk size for a source of the files of FOLDER: SIZE for `rs_source format`, in bytes.

Standard output has only SIZE. It follows the formula of operations/docs/OPERATING.md ("How large a disk"), with a third
of the disk free. Standard error lists its parts, and names each file that cannot be a resource. No file is read.
"""
from __future__ import annotations

import argparse
from collections.abc import Iterator

from ropepeach.cli import numbers, output
from ropepeach.cli.statuses import Status
from ropepeach.disk import formula
from ropepeach.faults import Fault
from ropepeach.fill.files import Files, Kinds, Unfit, path_of, shown_path

# The address of a source in the table of operations/docs/OPERATING.md.
USUAL_BASE = "https://source.example.org"
MIB = 1_048_576


def add_arguments(parser: argparse.ArgumentParser) -> None:
    """Add the arguments of the command."""
    parser.add_argument("folder", metavar="FOLDER", help="the folder whose files become resources")
    parser.add_argument("--base", default=USUAL_BASE, metavar="URL", help=f"the address of the source ({USUAL_BASE})")
    parser.add_argument("--changes", type=numbers.change_count, default=formula.MOST_CHANGES, metavar="N",
                        help="the number of kept changes (50,000)")
    parser.add_argument("--links", action="store_true", help="follow links to files that lie inside FOLDER")
    parser.add_argument("--types", metavar="FILE", help="media types by name, as for `ropepeach fill`")


def bodies_in(folder: Files, kinds: Kinds) -> tuple[formula.Holdings, int]:
    """Return the figures of the files that can be resources, and the number of the others, which are named."""
    left_out = []

    def fitting() -> Iterator[tuple[str, int, str]]:
        """Yield the files that can be resources."""
        for name in folder.names():
            try:
                size = folder.status(name).st_size
                folder.check_readable(name)
            except Unfit as why:
                left_out.append(name)
                output.message(f"left out {shown_path(path_of(name))}: {why}")
            else:
                yield name, size, kinds.of(name)

    return formula.holdings_of(fitting()), len(left_out)


def size_of(bodies: formula.Holdings, base: str, changes: int) -> int:
    """Return the bytes of a disk for these bodies, in whole blocks."""
    return formula.blocks_of(formula.needed(bodies, len(base), changes)) * formula.BLOCK


def run(arguments: argparse.Namespace) -> int:
    """Print SIZE; return the exit status."""
    bodies, left_out = bodies_in(Files(arguments.folder, arguments.links), Kinds(arguments.types))
    used = formula.used(bodies, len(arguments.base), arguments.changes)
    size = size_of(bodies, arguments.base, arguments.changes)
    output.message(f"{bodies.count:,} files of {bodies.bytes:,} bytes, the longest of {bodies.longest:,}; "
                   f"names of {bodies.name} and types of {bodies.kind} bytes; {arguments.changes:,} changes kept: "
                   f"{used:,} blocks of {formula.BLOCK} bytes, with the free third {-(-size // MIB):,} MiB")
    if bodies.count > formula.MOST_RESOURCES:
        raise Fault(f"too much for one source: it holds {formula.MOST_RESOURCES:,} resources at most; "
                    "split the folder (operations/docs/OPERATING.md)")
    if size > formula.MOST_BYTES:
        raise Fault(f"too much for one source: of a disk {formula.MOST_BYTES:,} bytes are used at most; "
                    "split the folder (operations/docs/OPERATING.md)")
    output.result(str(size), size=size, files=bodies.count, bytes=bodies.bytes, left_out=left_out)
    return Status.UNUSABLE if left_out else Status.DONE
