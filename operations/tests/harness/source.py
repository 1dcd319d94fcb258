"""Serve a fake source on a fake server: the documents of one or several sets of resources, in any style."""
from __future__ import annotations

import dataclasses
import hashlib
from collections.abc import Iterable, Mapping, Sequence

from operations.tests.harness.documents import archive, digests_of, document, entry, index, link
from operations.tests.harness.server import Server

FIRST, SECOND, THIRD, FOURTH = (f"2013-01-03T{hour:02}:00:00Z" for hour in (9, 10, 11, 12))
WELL_KNOWN = "/.well-known/resourcesync"


@dataclasses.dataclass(frozen=True)
class Style:
    """The style of a set: the paths of its lists and resources, and the attributes of entries.

    `has_at` writes `at` of the Resource List and its parts, `is_dated` the moments of resources. A list is an index
    with parts of `part` entries; 0 writes one document. `dump` is `beside` (a dump and lists), `alone` (a dump instead
    of the Resource List), or empty.
    """

    lists: str = "/rs/"
    resources: str = "/data/"
    digests: tuple[str, ...] = ("sha-256",)
    has_length: bool = True
    kind: str = "text/plain"
    has_at: bool = True
    is_dated: bool = True
    has_changes: bool = True
    part: int = 0
    change_part: int = 0
    dump: str = ""


# A style whose entries have only an address and a moment.
BARE = Style(digests=(), has_length=False, kind="")


class FakeSource:
    """A set of resources of a source on a server. `describe` names several sets in one Source Description."""

    def __init__(self, server: Server, style: Style = Style()) -> None:
        self.server, self.style = server, style
        self.base = server.base

    def url(self, name: str) -> str:
        """Return the address of a resource."""
        return f"{self.base}{self.style.resources}{name}"

    def list_url(self, name: str) -> str:
        """Return the address of a document, as `resourcelist.xml`."""
        return f"{self.base}{self.style.lists}{name}"

    def put_resource(self, name: str, body: bytes) -> None:
        """Serve a resource, without a change of the lists."""
        self.server.put(self.style.resources + name, body)

    def put_list(self, name: str, body: bytes) -> None:
        """Serve a document."""
        self.server.put(self.style.lists + name, body)

    def facts(self, body: bytes) -> dict[str, str]:
        """Return the attributes of a body in lists of the style."""
        return {"hash": digests_of(body, self.style.digests), "type": self.style.kind,
                "length": str(len(body)) if self.style.has_length else ""}

    def resource(self, name: str, body: bytes, modified: str = FIRST, **more: str) -> str:
        """Return the entry of a resource."""
        return entry(self.url(name), modified if self.style.is_dated else "", **self.facts(body) | more)

    def change(self, name: str, word: str, moment: str, body: bytes | None = None) -> str:
        """Return the entry of a change: `created`, `updated` or `deleted`."""
        facts = {} if body is None else self.facts(body)
        return entry(self.url(name), "" if body is None else moment, change=word, datetime=moment, **facts)

    def up(self) -> str:
        """Return the link of a list to its Capability List."""
        return link("up", self.list_url("capabilitylist.xml"))

    def list_in_parts(self, name: str, entries: Sequence[str], size: int, head: Mapping[str, str],
                      part_facts: Sequence[Mapping[str, str]] = ()) -> None:
        """Serve a list, in parts of `size` entries below an index unless `size` is 0."""
        capability = name.removesuffix(".xml")
        if not size:
            self.put_list(name, document(entries, links=self.up(), capability=capability, **head))
            return
        pieces = [entries[at:at + size] for at in range(0, len(entries), size)] or [[]]
        facts = [*part_facts, *([head] * len(pieces))][:len(pieces)]
        parts = []
        for number, (piece, own) in enumerate(zip(pieces, facts)):
            part = f"{capability}-{number}.xml"
            self.put_list(part, document(piece, links=link("index", self.list_url(name)), capability=capability, **own))
            parts.append(entry(self.list_url(part), tag="sitemap", **own))
        self.put_list(name, index(parts, links=self.up(), capability=capability, **head))

    def put_resource_list(self, entries: Sequence[str], at: str = FIRST) -> None:
        """Serve the Resource List."""
        self.list_in_parts("resourcelist.xml", entries, self.style.part, {"at": at if self.style.has_at else ""})

    def put_change_list(self, changes: Sequence[str], start: str = FIRST) -> None:
        """Serve the Change List, which begins at a moment."""
        self.list_in_parts("changelist.xml", changes, self.style.change_part, {"from_": start})

    def put_capability_list(self, *capabilities: str) -> None:
        """Serve the Capability List, by default with the capabilities of the style."""
        style = self.style
        named = capabilities or (*["resourcelist"] * (style.dump != "alone"), *["changelist"] * style.has_changes,
                                 *["resourcedump"] * bool(style.dump))
        entries = [entry(self.list_url(f"{name}.xml"), capability=name) for name in named]
        self.put_list("capabilitylist.xml", document(entries, capability="capabilitylist"))

    def put_dump(self, archives: Mapping[str, bytes], at: str = FIRST) -> None:
        """Serve the Resource Dump, with digests and lengths of its archives, and the archives themselves."""
        entries = []
        for name, packed in archives.items():
            self.put_list(name, packed)
            entries.append(entry(self.list_url(name), at, type="application/zip", length=str(len(packed)),
                                 hash=digests_of(packed, ["sha-256"])))
        self.put_list("resourcedump.xml", document(entries, links=self.up(), capability="resourcedump", at=at))

    def archive(self, files: Mapping[str, bytes], at: str = FIRST) -> bytes:
        """Return an archive of the Resource Dump."""
        paths = {f"resources/{number}": body for number, body in enumerate(files.values())}
        entries = [self.resource(name, body, at, path=f"/{path}")
                   for (name, body), path in zip(files.items(), paths)]
        return archive(paths, document(entries, capability="resourcedump-manifest", at=at))

    def hold(self, files: Mapping[str, bytes], at: str = FIRST, changes: Sequence[str] = (), start: str = FIRST,
             listed: Mapping[str, bytes] | None = None) -> None:
        """Serve exactly these files, with all lists of the style; `listed` overrides the Resource List's entries."""
        self.server.responses = {path: response for path, response in self.server.responses.items()
                                 if not path.startswith(self.style.resources)}
        for name, body in files.items():
            self.put_resource(name, body)
        listed = files if listed is None else listed
        self.put_resource_list([self.resource(name, body) for name, body in listed.items()], at)
        if self.style.has_changes:
            self.put_change_list(changes, start)
        if self.style.dump:
            self.put_dump({"dump.zip": self.archive(listed, at)}, at)
        self.put_capability_list()
        describe(self)

    def later(self, files: Mapping[str, bytes], changes: Sequence[str]) -> None:
        """Serve these files now, with a new Change List and the old Resource List."""
        for path in [path for path in self.server.responses if path.startswith(self.style.resources)]:
            del self.server.responses[path]
        for name, body in files.items():
            self.put_resource(name, body)
        self.put_change_list(changes)


def describe(*sources: FakeSource) -> None:
    """Serve the Source Description of one or several sets."""
    entries = [entry(source.list_url("capabilitylist.xml"), capability="capabilitylist") for source in sources]
    sources[0].server.put(WELL_KNOWN, document(entries, capability="description"))


class OwnSource(FakeSource):
    """A source in the form of this project: BASE/resource/NAME, moments of 24 bytes that strictly rise."""

    def __init__(self, server: Server) -> None:
        super().__init__(server, Style("/", "/resource/", ("md5", "sha-256")))
        self.files: dict[str, bytes] = {}
        self.changes: list[str] = []
        self.clock = 0

    def moment(self) -> str:
        """Return the next moment."""
        self.clock += 1
        return f"2013-01-03T09:{self.clock // 60:02}:{self.clock % 60:02}.000Z"

    def put(self, files: Mapping[str, bytes]) -> None:
        """Put resources; list a change for every one."""
        for name, body in files.items():
            word = "updated" if name in self.files else "created"
            self.files[name] = body
            self.changes.append(self.change(name, word, self.moment(), body))
        self.write()

    def delete(self, *names: str) -> None:
        """Delete resources; list a change for every one."""
        for name in names:
            del self.files[name]
            self.changes.append(self.change(name, "deleted", self.moment()))
        self.write()

    def write(self) -> None:
        """Serve the resources, the initial Resource List, which is empty, and the Change List."""
        start = "2013-01-03T09:00:00.000Z"
        self.hold(self.files, start, self.changes, start, listed={})


def sha256(body: bytes) -> str:
    """Return the SHA-256 of a body, as --json and --on-change write it."""
    return hashlib.sha256(body).hexdigest()


def only(names: Iterable[str], files: Mapping[str, bytes]) -> dict[str, bytes]:
    """Return the files of these names."""
    return {name: files[name] for name in names}
