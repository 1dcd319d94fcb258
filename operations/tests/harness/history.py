"""Simulate the history of a source: resources that are created, updated and deleted, and lists that follow later.

A change takes effect at once: the source serves other bytes. Its lists have the change after `announce` or `publish`. A
history has one clock in seconds; two changes may have the same moment.
"""
from __future__ import annotations

import dataclasses
import os.path
import time
from collections.abc import Mapping, Sequence

from operations.tests.harness.documents import document
from operations.tests.harness.server import Server
from operations.tests.harness.source import FakeSource, OwnSource, Style, describe

# The second at which histories begin, long ago.
BEGINNING = 1_357_203_600
Files = dict[str, bytes]


@dataclasses.dataclass(frozen=True)
class Kind:
    """A kind of source: the styles of its sets, whether it is a source of this project or a plain sitemap, and whether
    responses have `ETag` and `Last-Modified`.
    """

    styles: tuple[Style, ...]
    is_own: bool = False
    is_sitemap: bool = False
    has_tags: bool = True

    @property
    def resources(self) -> str:
        """Return the common prefix of the paths of resources, and of no list."""
        return os.path.commonprefix([style.resources for style in self.styles])

    @property
    def has_digests(self) -> bool:
        """Return whether all lists have digests."""
        return all(style.digests for style in self.styles)

    @property
    def has_changes(self) -> bool:
        """Return whether Change Lists have the changes after the Resource Lists."""
        return all(style.has_changes and style.has_at for style in self.styles) and not self.is_sitemap

    @property
    def has_change_parts(self) -> bool:
        """Return whether a Change List of other software may have parts."""
        return not self.is_own and any(style.change_part for style in self.styles)

    @property
    def is_whole(self) -> bool:
        """Return whether a reader of its lists gets a consistent state, even if they change meanwhile."""
        style = self.styles[0]
        return len(self.styles) == 1 and self.has_digests and self.has_changes and not style.part + style.change_part


@dataclasses.dataclass(frozen=True)
class Change:
    """A change: its second, the name, its word in lists, and the new bytes, or None."""

    second: int
    name: str
    word: str
    body: bytes | None


def moment(second: int, is_own: bool = False) -> str:
    """Return the text of a moment; other software writes moments in varying forms."""
    if is_own:
        return time.strftime("%Y-%m-%dT%H:%M:%S.000Z", time.gmtime(second))
    if second % 3 == 0:
        return time.strftime("%Y-%m-%dT%H:%M:%S+01:00", time.gmtime(second + 3_600))
    return time.strftime("%Y-%m-%dT%H:%M:%SZ" if second % 3 == 1 else "%Y-%m-%dT%H:%M:%S.0Z", time.gmtime(second))


class SetHistory:
    """The history of one set of resources."""

    def __init__(self, source: FakeSource, kind: Kind) -> None:
        self.source, self.kind = source, kind
        self.files: Files = {}
        self.changes: list[Change] = []
        # The content of the Resource List, its second, and the second at which the Change List begins.
        self.listed: Files = {}
        self.at = self.start = BEGINNING
        # All pairs of a name and bytes since the beginning.
        self.ever: set[tuple[str, bytes]] = set()

    def put(self, second: int, name: str, body: bytes) -> None:
        """Put a resource."""
        self.changes.append(Change(second, name, "updated" if name in self.files else "created", body))
        self.files[name] = body
        self.ever.add((name, body))
        self.source.put_resource(name, body)

    def delete(self, second: int, name: str) -> None:
        """Delete a resource."""
        del self.files[name]
        self.changes.append(Change(second, name, "deleted", None))
        del self.source.server.responses[self.source.style.resources + name]

    def text(self, second: int) -> str:
        """Return the text of a moment."""
        return moment(second, self.kind.is_own)

    def publish(self, second: int, keeps: bool) -> None:
        """Write the current Resource List; the Change List begins there, or keeps its changes."""
        self.listed, self.at = dict(self.files), second
        if not keeps:
            self.start = second
            # (changes of the same second stay: a reader cannot know which of them the Resource List has)
            self.changes = [change for change in self.changes if change.second >= second]
        self.write()

    def announce(self, second: int) -> None:
        """Update the lists with all changes up to now: in the Change List, or else in a new Resource List."""
        if self.kind.has_changes:
            self.write()
        else:
            self.publish(second, keeps=False)

    def write(self) -> None:
        """Write all lists."""
        modified = {change.name: self.text(change.second) for change in self.changes if change.second <= self.at}
        entries = [self.source.resource(name, body, modified.get(name, self.text(self.at)))
                   for name, body in self.listed.items()]
        if self.kind.is_sitemap:
            self.source.put_list("sitemap.xml", document(entries))
            return
        self.source.put_resource_list(entries, self.text(self.at))
        if self.source.style.has_changes:
            changes = [self.source.change(change.name, change.word, self.text(change.second), change.body)
                       for change in self.changes]
            self.source.put_change_list(changes, self.text(self.start))
        self.source.put_capability_list()


class History:
    """The history of a source of one set or several, on a server without other responses."""

    def __init__(self, server: Server, kind: Kind) -> None:
        self.server, self.kind, self.second = server, kind, BEGINNING
        server.responses, server.requests, server.actions = {}, [], []
        server.has_tags = server.has_dates = kind.has_tags
        sources = [OwnSource(server) if kind.is_own else FakeSource(server, style) for style in kind.styles]
        self.sets = [SetHistory(source, kind) for source in sources]
        if not kind.is_sitemap:
            describe(*sources)
        # The states of the lists in order.
        self.announced: list[dict[str, bytes]] = []
        self.publish(keeps=False)

    @property
    def url(self) -> str:
        """Return the address to mirror."""
        return self.sets[0].source.list_url("sitemap.xml") if self.kind.is_sitemap else self.server.base

    def state(self) -> dict[str, bytes]:
        """Return the resources by address."""
        return {one.source.url(name): body for one in self.sets for name, body in one.files.items()}

    def advance(self, seconds: int) -> int:
        """Advance the clock, and return the second; moments of a source of this project strictly rise."""
        self.second += seconds or int(self.kind.is_own)
        return self.second

    def second_for(self, one: SetHistory, name: str, seconds: int) -> int:
        """Return the second of the next change of a name. Where lists have digests, a name changes at most once a
        second: no list shows which of two changes with the same moment is newer.
        """
        last = next((change for change in reversed(one.changes) if change.name == name), None)
        is_twice = last is not None and last.second == self.second and bool(one.source.style.digests)
        return self.advance(seconds or int(is_twice))

    def put(self, number: int, name: str, body: bytes, seconds: int) -> None:
        """Put a resource into a set."""
        one = self.sets[number % len(self.sets)]
        one.put(self.second_for(one, name, seconds), name, body)

    def delete(self, number: int, position: int, seconds: int) -> None:
        """Delete one of a set's resources, if there is any."""
        one = self.sets[number % len(self.sets)]
        if one.files:
            name = sorted(one.files)[position % len(one.files)]
            one.delete(self.second_for(one, name, seconds), name)

    def announce(self) -> None:
        """Update the lists with all changes."""
        for one in self.sets:
            one.announce(self.second)
        self.noted()

    def publish(self, keeps: bool) -> None:
        """Write new Resource Lists."""
        second = self.advance(0)
        for one in self.sets:
            one.publish(second, keeps)
        self.noted()

    def noted(self) -> None:
        """Record the current state of the lists."""
        self.announced.append(self.state())

    def do(self, changes: Sequence[tuple[int, str, bytes | None]], is_published: bool,
           hasty: Sequence[tuple[int, str, bytes | None]] = ()) -> None:
        """Put and delete (None) resources, and update the lists; then put and delete those of `hasty`."""
        for change in changes:
            self.one(*change)
        if is_published:
            self.publish(keeps=False)
        else:
            self.announce()
        for change in hasty:
            self.one(*change)

    def one(self, number: int, name: str, body: bytes | None) -> None:
        """Put or delete (None) a resource, a second later."""
        one = self.sets[number % len(self.sets)]
        if body is not None:
            self.put(number, name, body, 1)
        elif name in one.files:
            one.delete(self.advance(1), name)

    def place(self, address: str) -> str:
        """Return the path of a file in a mirror, without the mark for a path with others below it."""
        if self.kind.is_own:
            return address.removeprefix(f"{self.server.base}/resource/")
        return f"http+{address.removeprefix('http://')}"

    def ever(self) -> set[tuple[str, bytes]]:
        """Return all pairs of a path and bytes since the beginning."""
        return {(self.place(one.source.url(name)), body) for one in self.sets for name, body in one.ever}


def laid_out(files: Mapping[str, bytes]) -> Files:
    """Return the files of a mirror's folder: a path with others below it ends in `#`."""
    return {f"{path}#" if any(other.startswith(f"{path}/") for other in files) else path: body
            for path, body in files.items()}
