"""Make sources of other software as static files, with documents in the styles of five programs, and serve them as
nginx does.

The styles are written from memory; none of the programs was run. They differ in the paths of lists, and in the moments,
digests and lengths of entries.
"""
from __future__ import annotations

import dataclasses
import gzip
import hashlib
from collections.abc import Sequence

from operations.tests.harness import documents
from operations.tests.harness.server import Response, Server
from operations.tests.harness.source import FIRST



@dataclasses.dataclass
class Style:
    """The form of lists: folders of lists and resources, digests, and whether there are lengths, types and `at`."""

    lists: str = "/"
    resources: str = "/"
    hashes: tuple[str, ...] = ()
    has_length: bool = False
    kind: str = ""
    has_at: bool = True
    has_changes: bool = True
    has_description: bool = True
    has_dump: bool = False
    has_list: bool = True


STYLES = {
    "resync": Style(hashes=("md5",), has_length=True),
    "dspace": Style("/resourcesync/", "/bitstream/123456789/1/", ("md5",), True, "application/pdf",
                    has_dump=True),
    "hyrax": Style("/", "/concern/works/", has_length=False),
    "sitemap": Style("/", "/pages/", ("sha-1", "sha-512"), has_at=False, has_changes=False,
                     has_description=False),
    "dumps": Style("/rs/", "/data/", ("sha-256", "md5"), True, "text/plain", has_dump=True),
}


def md(**attributes: str) -> str:
    """Return an `rs:md` of the attributes that have a value."""
    return documents.md(attributes)


def urlset(head: str, entries: Sequence[str]) -> bytes:
    """Return a document."""
    return documents.document(entries, links=head)


def url(loc: str, lastmod: str = "", inner: str = "") -> str:
    """Return an entry."""
    return documents.entry(loc, lastmod).replace("</url>", f"{inner}</url>")


def facts(style: Style, body: bytes, **more: str) -> str:
    """Return the attributes of a body in a style."""
    length = str(len(body)) if style.has_length else ""
    return md(**more, hash=documents.digests_of(body, style.hashes), length=length, type=style.kind)


def archive(style: Style, base: str, files: dict[str, bytes], at: str = FIRST, kind: str = "resource",
            changes: dict[str, str] | None = None) -> bytes:
    """Return an archive of a dump: a manifest, and the files. `changes` has the words for changes of the files."""
    more = lambda name: {"change": changes[name], "datetime": at} if changes else {}
    entries = [url(f"{base}{style.resources}{name}", at, facts(style, body, path=f"/resources/{number}", **more(name)))
               for number, (name, body) in enumerate(files.items())]
    head = md(capability=f"{kind}dump-manifest", **{"at" if kind == "resource" else "from": at})
    return documents.archive({f"resources/{number}": body for number, body in enumerate(files.values())},
                             urlset(head, entries))


def dump(style: Style, base: str, archives: dict[str, bytes], at: str = FIRST, kind: str = "resource",
         ) -> dict[str, bytes]:
    """Return the document of a dump, and its archives, by path."""
    entries = [url(f"{base}{style.lists}{name}", at,
                   md(hash=f"md5:{hashlib.md5(data).hexdigest()}", length=str(len(data)), type="application/zip"))
               for name, data in archives.items()]
    head = md(capability=f"{kind}dump", **{"at" if kind == "resource" else "from": at})
    return {f"{style.lists}{kind}dump.xml": urlset(head, entries)} | {
        style.lists + name: data for name, data in archives.items()}


def lists_of(style: Style, base: str, files: dict[str, bytes], at: str = FIRST,
             changes: list[str] | None = None) -> dict[str, bytes]:
    """Return the documents and files of a source, by path. The changes are entries from `url`."""
    where, up = base + style.lists, f'<rs:ln rel="up" href="{base}{style.lists}capabilitylist.xml"/>'
    capabilities = ["resourcelist"] * style.has_list + ["changelist"] * style.has_changes
    capabilities += ["resourcedump"] * style.has_dump
    listed = [url(f"{base}{style.resources}{name}", at, facts(style, body)) for name, body in files.items()]
    head = up + md(capability="resourcelist", at=at if style.has_at else "") if style.has_description else ""
    texts = {style.lists + "resourcelist.xml": urlset(head, listed)}
    if style.has_changes:
        texts[style.lists + "changelist.xml"] = urlset(up + md(capability="changelist", **{"from": at}),
                                                       changes or [])
    if style.has_description:
        entries = [url(f"{where}{capability}.xml", inner=md(capability=capability)) for capability in capabilities]
        texts[style.lists + "capabilitylist.xml"] = urlset(md(capability="capabilitylist"), entries)
        lists = [url(f"{where}capabilitylist.xml", inner=md(capability="capabilitylist"))]
        texts["/.well-known/resourcesync"] = urlset(md(capability="description"), lists)
    else:
        texts["/robots.txt"] = f"User-agent: *\nSitemap: {where}resourcelist.xml\n".encode()
    if style.has_dump:
        texts |= dump(style, base, {"dump.zip": archive(style, base, files, at)}, at)
    return texts | {style.resources + name: body for name, body in files.items()}


class Static(Server):
    """Serve files by path, documents with gzip. `fields` has more header fields by path; a path with the field
    `Location` has the status `redirect`.
    """

    def __init__(self) -> None:
        super().__init__()
        self.files: dict[str, bytes] = {}
        self.fields: dict[str, list[tuple[str, str]]] = {}
        self.redirect = 302

    def hold(self, style: Style, files: dict[str, bytes], at: str = FIRST,
             changes: list[str] | None = None) -> None:
        """Serve exactly these files, with lists of a style."""
        self.files = lists_of(style, self.base, files, at, changes)

    def statuses(self, front: str = "/") -> dict[str, int]:
        """Return the last status of every path requested since the last call."""
        requests, self.requests = self.requests, []
        return {request.path: request.status for request in requests if request.path.startswith(front)}

    def response_to(self, path: str) -> Response:
        """Return the response for a path."""
        fields = dict(self.fields.get(path, []))
        if "Location" in fields:
            return Response(b"", self.redirect, fields)
        body = self.files.get(path)
        if body is None:
            return super().response_to(path)
        if body.startswith(b"<?xml"):
            return Response(gzip.compress(body, mtime=0), fields=fields | {"Content-Encoding": "gzip"})
        return Response(body, fields=fields)
