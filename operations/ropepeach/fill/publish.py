"""Publishes what a source holds, if its Resource List is not that.

A publication that changes nothing would drop parts of the Change List, so none is made then.
"""
from __future__ import annotations

import argparse

from ropepeach.cli import output
from ropepeach.cli.named import address_named
from ropepeach.cli.statuses import Status
from ropepeach.fill.plan import held_by
from ropepeach.fill.send import Sending
from ropepeach.http.client import add_options, client_of
from ropepeach.resync.lists import Source


def add_arguments(parser: argparse.ArgumentParser) -> None:
    """Add the arguments of the command."""
    parser.add_argument("url", metavar="URL",
                        help="where the source is served, such as http://127.0.0.1:8080, or the name of a source here")
    parser.add_argument("--dry-run", action="store_true", help="print whether a publication is due, and make none")
    add_options(parser)


def run(arguments: argparse.Namespace) -> int:
    """Publish or not, and print which."""
    source = Source(client_of(arguments, address_named(arguments.url)))
    held, at, is_published = held_by(source)
    if is_published:
        output.result(f"nothing changed since the publication of {at}", published=at)
    elif arguments.dry_run:
        output.result(f"a publication of {len(held):,} resources is due; the last one is of {at}", published=at)
    else:
        sending = Sending(source, at, may_publish=True)
        sending.publish()
        output.result(sending.published, published=sending.at)
    return Status.DONE
