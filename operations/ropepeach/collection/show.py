"""Sets up a collection of several sources under one Source Description, and shows its state.

FILE names the address of the whole and all sources: operations/docs/OPERATING.md has an example. With --into
it writes the files that the sources need, and sends no request: NAME.env for each source, which the unit
ropepeach@NAME reads; collection.nginx, the site of nginx; and resourcesync.xml, the Source Description that
the site serves. Without --into it asks all sources whether they are served at their bases, how many resources
they hold, and whether each name is in the source in which it lives.

A name lives in the source of the greatest weight: the SHA-256 of the source's name, a zero byte and the name.
"""
from __future__ import annotations

import argparse
import os
from typing import NamedTuple
from urllib.parse import urlsplit

from ropepeach.admin.machine import CACHES
from ropepeach.admin.site_text import WHOLE_PATH, Served, Site, tls_of
from ropepeach.admin.steps import cache_steps, carry_out
from ropepeach.cli import output
from ropepeach.cli.files import write_file
from ropepeach.cli.statuses import Status
from ropepeach.collection import add_option_of_jobs
from ropepeach.collection.settings import CollectionSettings, Member
from ropepeach.collection.workers import answers_of, check_answers
from ropepeach.disk import formula
from ropepeach.faults import Fault, Misused
from ropepeach.fill.files import text_lines
from ropepeach.http.client import add_options, client_of
from ropepeach.resync.facts import Facts
from ropepeach.resync.lists import Source

# The most names that a message has of those that are in a wrong source.
NAMES_SHOWN = 10
# The number of connections that a program serves before it ends and its unit starts it again.
COUNT = 1_000_000_000
DESCRIPTION_FILE, SITE_FILE = "resourcesync.xml", "collection.nginx"
SITE_HEAD = """Made by `ropepeach collection` from {path}: change that file, and make this one again.
The site of nginx in front of the sources of a collection."""
DESCRIPTION_HEAD = """<?xml version="1.0" encoding="UTF-8"?>
<urlset xmlns="http://www.sitemaps.org/schemas/sitemap/0.9" xmlns:rs="http://www.openarchives.org/rs/terms/">
<rs:md capability="description"/>
"""
PLACE = '<url><loc>{base}/capabilitylist.xml</loc><rs:md capability="capabilitylist"/></url>\n'


def add_arguments(parser: argparse.ArgumentParser) -> None:
    """Add the arguments of the command."""
    parser.add_argument("file", metavar="FILE", help="the collection, such as collection.toml")
    parser.add_argument("--into", metavar="FOLDER",
                        help="write the settings of units, the site and the Source Description into a folder")
    parser.add_argument("--names", metavar="NAMES",
                        help="print the source in which each name of a file of lines lives; - is standard input")
    parser.add_argument("--dry-run", action="store_true", help="with --into: name the files, and write none")
    add_option_of_jobs(parser)
    add_options(parser)


class Astray(NamedTuple):
    """A name in a source in which it does not live: that source, the source in which it lives, and its facts."""

    name: str
    holder: str
    home: str
    facts: Facts = Facts(b"")


def check_member_base(member: Member, source: Source) -> None:
    """Refuse a source that does not call itself by its base."""
    if source.base != member.base:
        raise Fault(f"{member.address}: the source calls itself {source.base}, and the file of the collection says "
                    f"{member.base}")


def asked_source(member: Member, arguments: argparse.Namespace) -> Source:
    """Return a source of a collection, which must name itself by its base."""
    source = Source(client_of(arguments, member.address))
    check_member_base(member, source)
    return source


class SourceContents:
    """The resources of a source of a collection, by its lists."""

    def __init__(self, collection: CollectionSettings, name: str, arguments: argparse.Namespace) -> None:
        self.name, self.homes = name, collection.homes
        self.source = asked_source(collection.members[name], arguments)
        self.at, listed, changes = self.source.lists_that_meet()
        now = listed | {entry.name: entry.facts for entry in changes.entries}
        self.facts = {name: facts for name, facts in now.items() if facts is not None}
        self.newest = changes.newest
        self.is_published = self.facts == listed

    def astray(self) -> list[Astray]:
        """Return the names that do not live here."""
        homes = ((name, self.homes.of(name)) for name in self.facts)
        return [Astray(name, self.name, home, self.facts[name]) for name, home in homes if home != self.name]

    def summary(self) -> str:
        """Return a line about the source."""
        published = "all published" if self.is_published else "with changes since the publication of"
        return f"{len(self.facts):,} held at {self.source.base}, {published} {self.at}"


def astray_lines(collection: CollectionSettings, astray: list[Astray], arguments: argparse.Namespace) -> list[str]:
    """Return lines about names in a wrong source, with the remedy. Look up the first names in their right sources."""
    lines = [f"{len(astray):,} names are where they do not live; `ropepeach grow {collection.path}` moves them"]
    for name, holder, home, _ in astray[:NAMES_SHOWN]:
        holders = {holder, *(other.holder for other in astray if other.name == name)}
        client = client_of(arguments, collection.members[home].address)
        if client.ask("HEAD", f"/resource/{name}").status == 200:
            holders.add(home)
        lines.append(f"{name}: is held by {' and '.join(sorted(holders))}, and lives in {home}")
    return [*lines, *([f"and {len(astray) - NAMES_SHOWN:,} more"] if len(astray) > NAMES_SHOWN else [])]


def unit_settings(member: Member) -> str:
    """Return the settings of the unit of a source: its file, its port, and the number of connections that it serves."""
    return (f"# Made by `ropepeach collection`: the source {member.name}, served at {member.base}\n"
            f"FILE={member.file}\nPORT={member.listener.rpartition(':')[2]}\nCOUNT={COUNT}\n")


def description_of(collection: CollectionSettings) -> str:
    """Return the Source Description of the whole (Z39.99, section 8.1) with the Capability Lists of all sources."""
    places = "".join(PLACE.format(base=member.base) for member in collection.members.values())
    return DESCRIPTION_HEAD + places + "</urlset>\n"


def collection_site(collection: CollectionSettings, folder: str) -> str:
    """Return the site of nginx, whose Source Description is in a folder."""
    place = urlsplit(collection.address)
    is_safe, host = place.scheme == "https", place.hostname or ""
    sources = tuple(Served(f"ropepeach_{collection.name}.{member.name}", member.listener,
                           member.base.removeprefix(collection.address)) for member in collection.members.values())
    return Site(SITE_HEAD.format(path=collection.path), collection.name, host,
                place.port or (443 if is_safe else 80), sources, collection.near,
                tls_of(host, collection.files) if is_safe else None, f"{folder}/{DESCRIPTION_FILE}",
                collection.rules).text()


def write_files(collection: CollectionSettings, folder: str, is_dry: bool) -> None:
    """Write all files into a folder, each in one step. A dry run only names them."""
    texts = {f"{member.name}.env": unit_settings(member) for member in collection.members.values()}
    texts |= {DESCRIPTION_FILE: description_of(collection),
              SITE_FILE: collection_site(collection, os.path.abspath(folder))}
    # (the file of a source may be another one, with parts of the same paths)
    emptying = cache_steps(CACHES / f"ropepeach-{collection.name}")
    if is_dry:
        for name in texts:
            output.result(f"write {os.path.join(folder, name)}")
        return
    os.makedirs(folder, exist_ok=True)
    for name, text in texts.items():
        write_file(os.path.join(folder, name), text)
    if emptying and os.geteuid():
        output.message(f"empty {CACHES}/ropepeach-{collection.name} as root if a source has another file than before")
    else:
        carry_out(emptying)
    output.result(f"{len(collection.members):,} sources: their settings, {SITE_FILE} and {DESCRIPTION_FILE} "
                  f"are in {folder}")


def show(collection: CollectionSettings, arguments: argparse.Namespace) -> None:
    """Ask all sources, and print a line about each. Raise a fault if names are in a wrong source."""

    def ask(name: str) -> tuple[str, list[Astray]]:
        """Return a line about a source, and the names that do not live there."""
        contents = SourceContents(collection, name, arguments)
        return contents.summary(), contents.astray()

    found = check_answers(answers_of(collection.members, ask, arguments.jobs))
    for name, (summary, _) in found.items():
        output.result(f"{name}: {summary}")
    output.result(f"{len(found):,} sources of {formula.MOST_RESOURCES:,} resources at most each")
    astray = [stray for _, names in found.values() for stray in names]
    if astray:
        raise Fault(*astray_lines(collection, astray, arguments))


def run(arguments: argparse.Namespace) -> int:
    """Write the files, or show the state. Return the exit status."""
    if arguments.dry_run and not arguments.into:
        raise Misused("--dry-run goes with --into: nothing else writes")
    collection = CollectionSettings(arguments.file)
    if arguments.names:
        for name in text_lines("/dev/stdin" if arguments.names == "-" else arguments.names):
            output.result(f"{collection.homes.of(name)} {name}")
    elif arguments.into:
        if not WHOLE_PATH.fullmatch(os.path.abspath(arguments.into)):
            raise Misused(f"--into: {arguments.into!r}: the path of a folder has letters, digits and ._~+@/-")
        write_files(collection, arguments.into, arguments.dry_run)
    else:
        show(collection, arguments)
    return Status.DONE
