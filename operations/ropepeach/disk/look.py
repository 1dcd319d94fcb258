"""Shows how full a source's file is, what it holds, and whether it follows the rules of docs/DISK.md.

The file may be served meanwhile: it is only read, and not locked. The output is the state of one moment; its
last line says if the source changed before the end of the reading. Bodies are not read: the command
`verify` of a script compares them with their digests.
"""
from __future__ import annotations

import argparse
import dataclasses
import os
from collections.abc import Iterator, Mapping, Sequence
from typing import Any

from ropepeach.cli import numbers, output
from ropepeach.cli.files import write_file
from ropepeach.cli.named import file_named
from ropepeach.cli.statuses import Status
from ropepeach.disk import file as disk_file, formula, installed, room as disk_room
from ropepeach.disk.formats import MOST_ITEMS, USES, Image, NotRead, items_of
from ropepeach.disk.formula import BLOCK
from ropepeach.disk.room import BlockRun
from ropepeach.faults import Unusable
from ropepeach.resync.moments import moment_text


def add_arguments(parser: argparse.ArgumentParser) -> None:
    """Add the arguments of the command."""
    parser.add_argument("file", metavar="FILE",
                        help="the file of a source, such as /var/lib/ropepeach/source.disk, or the name of a source "
                             "here")
    parser.add_argument("--log", action="store_true",
                        help="read FILE as the site's log of changes: print each change and its client")
    parser.add_argument("--put", type=numbers.body_size, metavar="SIZE",
                        help="print how many more puts of this many bytes fit")
    parser.add_argument("--picture", metavar="FILE.svg", help="draw a map of the blocks into this file")


def block_facts(source: Image, runs: Sequence[BlockRun]) -> dict[str, Any]:
    """Return the figures of the blocks: used, free, and by use."""
    used = {kind: sum(extent.blocks for extent in source.extents if extent.kind == kind) for kind in USES}
    total = sum(used.values())
    longest = max((run.blocks for run in runs), default=0)
    return {"all": source.blocks, "used": total, "free": source.blocks - total, "longest_free_run": longest, "of": used}


def source_facts(path: str, source: Image, put: int | None) -> dict[str, Any]:
    """Return the figures of a source, by their names in JSON."""
    header, status = source.header, os.stat(path)
    held = formula.holdings_of((record.name, record.length, record.kind) for record in items_of(source.catalogue))
    changes = len(items_of(source.changes))
    parts = -(-changes // header.limit)
    facts = {
        "file": path, "base": header.base, "version": source.root.version,
        "generation": source.root.generation,
        "block_size": BLOCK, "blocks": block_facts(source, disk_room.free_runs(source.extents, source.blocks)),
        "resources": held.count, "bytes": held.bytes, "most_resources": MOST_ITEMS,
        "changes": changes, "most_changes": MOST_ITEMS, "changes_begin": moment_text(header.begin),
        "item_limit": header.limit, "parts": parts, "first_part": header.first,
        "publications": header.number, "published": moment_text(header.at),
        "published_resources": len(items_of(source.published)),
        "formatted": moment_text(header.start), "last": moment_text(header.last),
        "readings": source.tries, "changed_meanwhile": source.is_changed,
        "size": status.st_size, "not_reserved": formula.unreserved(status),
    }
    if put is not None:
        count, word = disk_room.puts_that_fit(source, put, held.name, held.kind)
        facts["put"] = {"size": put, "fit": count, "then": word, "name": held.name, "type": held.kind}
    return facts


def fact_lines(facts: Mapping[str, Any]) -> Iterator[str]:
    """Yield the figures as lines for a person."""
    blocks, publications = facts["blocks"], facts["publications"]
    longest = blocks["longest_free_run"]
    plural = "s" if facts["parts"] != 1 else ""
    parts = (f"{facts['parts']:,} part{plural} of up to {facts['item_limit']:,}, "
             f"the first is number {facts['first_part']}")
    yield (f"{facts['file']}: a source at {facts['base']}, version {facts['version']}, "
           f"generation {facts['generation']}")
    share = blocks["used"] / blocks["all"]
    yield f"blocks: {blocks['used']:,} used of {blocks['all']:,} ({share:.1%}), {blocks['free']:,} free"
    yield f"longest free run: {longest:,} blocks ({longest * BLOCK:,} bytes)"
    if facts["not_reserved"]:
        yield f"not reserved: {facts['not_reserved']:,} bytes (fallocate --length {facts['size']} {facts['file']})"
    yield "used for: " + ", ".join(f"{kind} {count:,}" for kind, count in blocks["of"].items())
    yield f"resources: {facts['resources']:,} of {MOST_ITEMS:,} ({facts['bytes']:,} bytes)"
    yield f"changes kept: {facts['changes']:,} of {MOST_ITEMS:,}, since {facts['changes_begin']}; {parts}"
    latest = f"{publications}, the latest at {facts['published']}, of {facts['published_resources']:,} resources"
    yield f"publications: {latest if publications else 'none'}"
    yield f"last command: {facts['last']}"
    if put := facts.get("put"):
        yield (f"puts of {put['size']:,} bytes: {put['fit']:,} more fit, then {put['then']} "
               f"(new names of {put['name']} bytes behind all others, media types of {put['type']})")
    if program := facts.get("program"):
        yield installed.Installed(**program).text
    if facts["changed_meanwhile"] or facts["readings"] > 1:
        yield (f"the file changed while it was read ({facts['readings']} readings); "
               f"this is the state of generation {facts['generation']}")


def write_picture(path: str, name: str, source: Image, facts: Mapping[str, Any]) -> None:
    """Draw the map of the blocks into a file."""
    from ropepeach.disk import picture as disk_picture

    title = f"{os.path.basename(name)}, generation {facts['generation']}"
    write_file(path, disk_picture.drawn(title, source.extents, source.blocks, facts["blocks"]["longest_free_run"]))


def run(arguments: argparse.Namespace) -> int:
    """Print the state of the file; return the exit status."""
    if arguments.log:
        from ropepeach.disk import change_log

        return change_log.print_changes(arguments.file)
    arguments.file = file_named(arguments.file)
    try:
        with disk_file.File(arguments.file) as file:
            source = file.read()
    except NotRead as why:
        raise type(why)(f"{arguments.file}: {why.word}{why}") from None
    except OSError as fault:
        raise Unusable(f"{arguments.file}: can't be read: {fault.strerror}") from None
    facts, program = source_facts(arguments.file, source, arguments.put), installed.program()
    facts["program"] = dataclasses.asdict(program) if program else None
    if arguments.picture:
        write_picture(arguments.picture, arguments.file, source, facts)
    output.results(fact_lines(facts), facts)
    return Status.DONE
