"""Serve a source that lies: a test writes its responses by path, and it counts the sent bytes."""
from __future__ import annotations

import hashlib
import time
from collections.abc import Callable, Iterable, Iterator, Mapping, Sequence
from typing import Any

from operations.tests.harness.server import Answer, RawServer, Request

Response = Callable[[], Iterable[bytes]]
SPACES = 'xmlns="http://www.sitemaps.org/schemas/sitemap/0.9" xmlns:rs="http://www.openarchives.org/rs/terms/"'
HEAD = f'<?xml version="1.0" encoding="UTF-8"?>\n<{{}} {SPACES}>\n'
MOMENT = "2000-02-29T00:00:00.001Z"


def listed(capability: str, entries: Iterable[str], root: str = "urlset", attributes: str = "") -> bytes:
    """Return a document of these entries."""
    return f'{HEAD.format(root)}<rs:md capability="{capability}"{attributes}/>\n{"".join(entries)}</{root}>\n'.encode()


def entry(loc: str, body: bytes = b"body", length: int | str | None = None, hashes: str | None = None,
          moment: str = MOMENT) -> str:
    """Return an entry of a Resource List, or of a Change List for a change at a moment."""
    hashes = (f"md5:{hashlib.md5(body).hexdigest()} sha-256:{hashlib.sha256(body).hexdigest()}"
              if hashes is None else hashes)
    length = len(body) if length is None else length
    return (f'<url><loc>{loc}</loc><lastmod>{moment}</lastmod><rs:md hash="{hashes}" length="{length}" '
            'type="a/b"/></url>\n')


def gone(loc: str, moment: str) -> str:
    """Return an entry of a Change List for a deletion."""
    return f'<url><loc>{loc}</loc><rs:md change="deleted" datetime="{moment}"/></url>\n'


def pointed(loc: str, capability: str) -> str:
    """Return an entry that links to a document of a capability."""
    return f'<url><loc>{loc}</loc><rs:md capability="{capability}"/></url>\n'


def answered(body: bytes, status: str = "200 OK", fields: str = "", length: int | str | None = None) -> bytes:
    """Return the bytes of a response."""
    length_field = f"Content-Length: {len(body) if length is None else length}\r\n" if length != "" else ""
    head = (f"HTTP/1.1 {status}\r\nContent-Type: application/xml\r\n{length_field}Connection: close\r\n"
            f"{fields}\r\n")
    return head.encode("latin-1") + body


class Liar(RawServer):
    """A Ropepeach with responses in `answers` by path: bytes, or a function that returns chunks of bytes."""

    def __init__(self) -> None:
        super().__init__(self.answer)
        self.answers: dict[str, Any] = {}
        base, at = self.base, f' at="{MOMENT}"'
        pointer = lambda name, capability: pointed(f"{base}/{name}", capability)
        self.documents({
            "/.well-known/resourcesync": listed("description", [pointer("capabilitylist.xml", "capabilitylist")]),
            "/capabilitylist.xml": listed("capabilitylist", [pointer("resourcelist.xml", "resourcelist"),
                                                             pointer("changelist.xml", "changelist")]),
            "/changelist.xml": listed("changelist", [], attributes=f' from="{MOMENT}"'), "/resource/a": b"body"})
        self.resources([entry(f"{base}/resource/a")], attributes=at)

    def documents(self, texts: Mapping[str, bytes]) -> None:
        """Serve texts at these paths."""
        self.answers |= {path: answered(text) for path, text in texts.items()}

    def resources(self, entries: Iterable[str], root: str = "urlset", attributes: str = f' at="{MOMENT}"') -> None:
        """Serve a Resource List of these entries."""
        self.documents({"/resourcelist.xml": listed("resourcelist", entries, root, attributes)})

    def answer(self, request: Request) -> Answer:
        """Return the response to a request; the connection closes after it."""
        response = self.answers.get(request.path, answered(b"NoSuchDocument\n", "404 Not Found"))
        return Answer(response() if callable(response) else [response], "close")


def in_parts(liar: Liar, entries: Sequence[str], limit: int = 5_000) -> None:
    """Serve a Resource List of these entries, in parts of this size."""
    parts = [entries[at : at + limit] for at in range(0, len(entries), limit)]
    names = [f"/resourcelist/1/{number}.xml" for number in range(len(parts))]
    liar.resources([f'<sitemap><loc>{liar.base}{name}</loc><rs:md at="{MOMENT}"/></sitemap>\n' for name in names],
                   "sitemapindex")
    liar.documents({name: listed("resourcelist", part, attributes=f' at="{MOMENT}"')
                    for name, part in zip(names, parts)})


def changed(liar: Liar, *parts: list[str], start: str = MOMENT,
            bounds: Sequence[tuple[str | None, str | None]] | None = None) -> None:
    """Serve a Change List of these entries; with bounds, in parts with these bounds."""
    names = [f"/changelist/{number}.xml" for number in range(len(bounds or []))]
    ends = [f' until="{last}"' if last is not None else "" for _, last in bounds or []]
    pointers = []
    for name, (first, last) in zip(names, bounds or []):
        attributes = "".join(f' {word}="{moment}"'
                             for word, moment in (("from", first), ("until", last)) if moment is not None)
        pointers.append(f'<sitemap><loc>{liar.base}{name}</loc><rs:md{attributes}/></sitemap>\n')
    head = listed("changelist", pointers or parts[0], "sitemapindex" if bounds else "urlset", f' from="{start}"')
    liar.documents({"/changelist.xml": head} | {name: listed("changelist", part, attributes=f' from="{MOMENT}"{end}')
                                                for name, part, end in zip(names, parts, ends)})


def collected(liar: Liar, sources: Iterable[str] | Mapping[str, Mapping[str, bytes]]) -> None:
    """Serve a collection of sources with these files, or with `a` if only their names are given."""
    texts: dict[str, bytes] = {}
    for name in sources:
        base, files = f"{liar.base}/{name}", sources[name] if isinstance(sources, dict) else {"a": b"body"}
        pointer = lambda path, capability, base=base: pointed(f"{base}/{path}", capability)
        texts |= {
            f"/{name}/.well-known/resourcesync": listed("description",
                                                        [pointer("capabilitylist.xml", "capabilitylist")]),
            f"/{name}/capabilitylist.xml": listed(
                "capabilitylist", [pointer("resourcelist.xml", "resourcelist"), pointer("changelist.xml", "changelist")]
            ),
            f"/{name}/changelist.xml": listed("changelist", [], attributes=f' from="{MOMENT}"'),
            f"/{name}/resourcelist.xml": listed("resourcelist",
                                                [entry(f"{base}/resource/{path}", body)
                                                 for path, body in files.items()],
                                                attributes=f' at="{MOMENT}"')}
        texts |= {f"/{name}/resource/{path}": body for path, body in files.items()}
    whole = [pointed(f"{liar.base}/{name}/capabilitylist.xml", "capabilitylist") for name in sources]
    liar.documents(texts | {"/.well-known/resourcesync": listed("description", whole)})


def dripping(head: bytes, piece: bytes, seconds: float = 0.05) -> Response:
    """Return a response whose chunks arrive slowly, for longer than any client waits."""

    def pieces() -> Iterator[bytes]:
        yield head
        for _ in range(600):
            time.sleep(seconds)
            yield piece

    return pieces


def flooding(head: bytes, piece: bytes = bytes(65_536)) -> Response:
    """Return an endless response."""

    def pieces() -> Iterator[bytes]:
        yield head
        while True:
            yield piece

    return pieces
