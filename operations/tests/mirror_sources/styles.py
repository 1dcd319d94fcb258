"""Styles of sources: valid ones, and sources with deviations that real software has."""
from __future__ import annotations

import dataclasses
import gzip
import re
from collections.abc import Callable, Iterable, Mapping

from operations.tests.harness.documents import archive, document, entry, page
from operations.tests.harness.server import Response, Server
from operations.tests.harness.source import BARE, FIRST, WELL_KNOWN, FakeSource, Style, describe

Alter = Callable[[FakeSource], object]


@dataclasses.dataclass(frozen=True)
class Row:
    """A style: the documents before and after `alter`, which is called after each publication.

    `url` is the path that is mirrored. `says` is in the messages of the first run. `kept` are names that the lists
    give up but the mirror keeps, with status 1. `is_later` serves changes by the Change List, else by a new list.
    """

    name: str
    style: Style = Style()
    kind: type[FakeSource] = FakeSource
    alter: tuple[Alter, ...] = ()
    url: str = ""
    options: tuple[str, ...] = ()
    says: str = ""
    status: int = 0
    names: tuple[str, str, str] = ("a", "b/c", "d")
    is_later: bool = True
    killed_at: str = ""


def of_list(source: FakeSource, name: str) -> bytes:
    """Return the body of a list."""
    found = source.server.responses[source.style.lists + name]
    assert isinstance(found, Response)
    return found.body


def rewritten(old: str, new: str | Callable[[re.Match[str]], str],
              lists: str = r"(resource|change)list.*\.xml") -> Alter:
    """Return an alteration that replaces a pattern in the lists."""

    def alter(source: FakeSource) -> None:
        """Rewrite the lists."""
        for path, found in [*source.server.responses.items()]:
            if path.startswith(source.style.lists) and re.search(lists, path) and isinstance(found, Response):
                text = found.body.decode()
                source.server.put(path, dataclasses.replace(found, body=re.sub(old, new, text).encode()))

    return alter


def answered(change: Callable[[Response], Response], front: str = "/data/") -> Alter:
    """Return an alteration that changes the responses below a path."""

    def alter(source: FakeSource) -> None:
        """Change the responses."""
        for path, found in [*source.server.responses.items()]:
            if path.startswith(front) and isinstance(found, Response):
                source.server.put(path, change(found))

    return alter


def put(path: str, body: str) -> Alter:
    """Return an alteration that serves a document, in which BASE stands for the base."""

    def alter(source: FakeSource) -> None:
        """Serve the document."""
        source.server.put(path, body.replace("BASE", source.base))

    return alter


def absent(*paths: str) -> Alter:
    """Return an alteration that serves nothing at some paths."""
    return lambda source: [source.server.responses.pop(path, None) for path in paths]


def packed(response: Response) -> Response:
    """Return a response that is always packed."""
    return Response(gzip.compress(response.body, mtime=0), fields={"Content-Encoding": "gzip"})


class CodedDigests(FakeSource):
    """A source whose lists have the length and the digests of the coded bodies."""

    def facts(self, body: bytes) -> dict[str, str]:
        return super().facts(gzip.compress(body, mtime=0))


class OnlyDumps(FakeSource):
    """A source with a Resource Dump and a Change Dump, and no lists."""

    def hold(self, files: Mapping[str, bytes], at: str = FIRST, changes: Iterable[str] = (), *_: object,
             **more: object) -> None:
        self.put_dump({"dump.zip": self.archive(files, at)}, at)
        self.later(files, list(changes))
        self.put_capability_list("resourcedump", "changedump")
        describe(self)

    def later(self, files: Mapping[str, bytes], changes: Iterable[str]) -> None:
        paths = {name: f"changes/{number}" for number, name in enumerate(files)}
        entries = [change if 'change="deleted"' in change or name_of(self, change) not in paths
                   else change.replace("<rs:md ", f'<rs:md path="/{paths[name_of(self, change)]}" ')
                   for change in changes]
        wanted = {paths[name]: files[name] for name in {name_of(self, change) for change in changes} & files.keys()}
        packed = archive(wanted, document(entries, capability="changedump-manifest", from_=FIRST))
        self.put_list("changes.zip", packed)
        self.put_list("changedump.xml", document(
            [entry(self.list_url("changes.zip"), type="application/zip", length=str(len(packed)), from_=FIRST)],
            links=self.up(), capability="changedump", from_=FIRST))


def name_of(source: FakeSource, change: str) -> str:
    """Return the name of an entry."""
    return change.partition("<loc>")[2].partition("</loc>")[0].removeprefix(source.url(""))


class Two(FakeSource):
    """Two sets of the same resources: the second one has the first Resource List for ever, and no Change List."""

    def hold(self, files: Mapping[str, bytes], *rest: object, **more: object) -> None:
        super().hold(files, *rest, **more)  # type: ignore[arg-type]
        second = FakeSource(self.server, dataclasses.replace(self.style, lists="/second/", has_changes=False))
        if "/second/resourcelist.xml" not in self.server.responses:
            second.put_resource_list([second.resource(name, body) for name, body in files.items()])
        second.put_capability_list()
        describe(self, second)


def aliased(source: FakeSource) -> None:
    """Serve resources by the other spellings of their names too."""
    for path, found in [*source.server.responses.items()]:
        for old, new in (("~", "%7E"), ("%C3%A9", "%c3%a9")):
            source.server.responses.setdefault(path.replace(old, new), found)


def only_text(source: FakeSource) -> None:
    """Serve a sitemap of one address a line."""
    names = [path for path in source.server.responses if path.startswith(source.style.resources)]
    source.server.put("/urls.txt", "".join(f"{source.base}{name}\r\n" for name in names))


def in_utf_16(source: FakeSource) -> None:
    """Serve the lists in UTF-16."""
    for name in ("resourcelist.xml", "changelist.xml"):
        text = of_list(source, name).decode().replace('encoding="UTF-8"', 'encoding="UTF-16"')
        source.put_list(name, text.encode("utf-16"))


def with_robots(comment: str) -> tuple[Alter, ...]:
    """Return alterations: a host whose robots.txt names the Resource List."""
    return put("/robots.txt", f"Sitemap: BASE/rs/resourcelist.xml{comment}\n"), absent(WELL_KNOWN)


def once(*first: Response) -> Callable[[FakeSource], None]:
    """Return an alteration after which each list, and each resource, is preceded by these responses."""

    def alter(source: FakeSource) -> None:
        """Put the responses."""
        for path, found in [*source.server.responses.items()]:
            if isinstance(found, Response) and path.startswith(("/data/", "/rs/resourcelist")):
                source.server.put(path, [*first, found])

    return alter


DOCTYPE = '<!DOCTYPE urlset SYSTEM "http://www.sitemaps.org/sitemap.dtd">\n'


def linked(source: FakeSource) -> None:
    """Serve a page with several fields `Link`."""
    target = f'<{source.list_url("capabilitylist.xml")}>; rel="resourcesync"'
    source.server.put("/page", Response(page("").encode(), fields={"Link": '</s.css>; rel="preload"', "link": target}))


NO_CHANGES = Style(has_changes=False)
ROWS = (
    Row("valid"),
    Row("bare", BARE),
    Row("in parts", Style(part=1, change_part=1)),
    Row("a dump alone", Style(dump="alone")),
    Row("no moments", Style(has_at=False, has_changes=False)),
    Row("packed bodies", alter=(answered(packed),)),
    Row("packed bodies without digests", BARE, alter=(answered(packed),)),
    Row("digests of packed bodies", kind=CodedDigests, alter=(answered(packed),)),
    Row("only dumps", kind=OnlyDumps, killed_at="/rs/changes.zip"),
    Row("two sets", kind=Two),
    Row("two sets, bare", kind=Two, style=Style(is_dated=False)),
    Row("tildes", names=("~a", "b/c", "d"), alter=(rewritten("~", "%7E", "change"), aliased)),
    Row("lower case escapes", names=("%C3%A9", "b/c", "d"), alter=(rewritten("%C3%A9", "%c3%a9", "change"), aliased)),
    Row("raw spaces", names=("a%20b", "b/c", "d"), alter=(rewritten("a%20b", "a b"),)),
    Row("raw letters", names=("%C3%9C", "b/c", "d"), alter=(rewritten("%C3%9C", "Ü"),)),
    Row("fragments", alter=(rewritten("</loc>", "#top</loc>"),)),
    Row("relative names", alter=(rewritten(r"<loc>http://[^/]*/data/", "<loc>../data/"),)),
    Row("fields Link", alter=(linked,), url="/page"),
    Row("a comment in robots.txt", alter=with_robots(" # ours")),
    Row("long comments", alter=(rewritten(r"\?>\n", f"?>\n<!--{'x' * 6_000}-->\n"),), url="/rs/resourcelist.xml"),
    Row("early hints", alter=(answered(lambda found: dataclasses.replace(found, is_early=True), "/"),)),
    Row("retry later", alter=(once(Response(status=429, fields={"Retry-After": "1"})),)),
    Row("unavailable", alter=(once(Response(status=503, fields={"Retry-After": "1"})),)),
    Row("a page at the well-known place", alter=(*with_robots(""), put(WELL_KNOWN, page("")))),
    Row("no offsets", alter=(rewritten("00Z", "00"),)),
    Row("offsets without a colon", alter=(rewritten("00Z", "00+0000"),)),
    Row("no from", alter=(rewritten(' from="[^"]*"', "", "change"),)),
    Row("no at", Style(has_at=False)),
    Row("a missing change list", alter=(absent("/rs/changelist.xml"),), is_later=False),
    Row("twice", NO_CHANGES, alter=(rewritten("(<url>.*)", r"\1\n\1", "resource"),)),
    Row("twice with other types", NO_CHANGES,
        alter=(rewritten("(<url>.*)text/plain(.*)", r"\1text/plain\2\n\1text/html\2", "resource"),)),
    Row("text", Style(digests=(), has_length=False, kind="", has_changes=False), alter=(only_text,), url="/urls.txt"),
    Row("UTF-16", alter=(in_utf_16,)),
    Row("a document type", alter=(rewritten(r"\?>\n", "?>\n" + DOCTYPE),)),
    # (nobody named these)
    Row("CDATA", alter=(rewritten("<loc>(.*?)</loc>", r"<loc><![CDATA[\1]]></loc>"),)),
    Row("a prefix", alter=(rewritten(r"<(/?)(url|urlset|loc|lastmod)\b", r"<\1s:\2"), rewritten("xmlns=", "xmlns:s="))),
    Row("a blank line first", alter=(rewritten(r"\A", "\n"),)),
    Row("capital digests", alter=(rewritten(r"sha-256:([0-9a-f]+)", lambda found: found[0].upper()),)),
    Row("digests without a hyphen", alter=(rewritten("sha-256:", "sha256:"),)),
    Row("capital words", alter=(rewritten('change="([a-z]+)"', lambda found: f'change="{found[1].upper()}"'),)),
    Row("images", alter=(rewritten("</url>", "<i:image xmlns:i='urn:i'><i:loc>x</i:loc></i:image></url>"),)),
    Row("empty moments", BARE, alter=(rewritten("<lastmod>.*?</lastmod>", "<lastmod/>", "resource"),)),
    Row("capital schemes", alter=(rewritten("<loc>http:", "<loc>HTTP:"),)),
    Row("queries", names=("?id=1&b=2", "b/c", "?id=3")),
    Row("lists as HTML", alter=(answered(lambda found: dataclasses.replace(
        found, fields={"Content-Type": "text/html"}), "/rs/"),)),
)
