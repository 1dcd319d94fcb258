"""Documents in the form of Sitemap 0.9 with the elements of ResourceSync (ANSI/NISO Z39.99-2017).

A document has no document type (so no entity is expanded), and limits on its bytes, its elements and its entries. It
may be packed by gzip.
"""
from __future__ import annotations

import re
import zlib
from collections.abc import Callable, Mapping
from typing import NamedTuple
from xml.parsers import expat

from ropepeach.faults import Fault
from ropepeach.http.coding import MOST_MEMBERS

SITEMAP = "http://www.sitemaps.org/schemas/sitemap/0.9"
RS = "http://www.openarchives.org/rs/terms/"
# The beginning of the namespaces of the framework's terms, and the names of the elements of lists.
RS_FRONT, LISTING = "http://www.openarchives.org/rs", frozenset(("url", "sitemap", "urlset", "sitemapindex"))
URLSET, INDEX, URL, PART = (f"{SITEMAP}}}{name}" for name in ("urlset", "sitemapindex", "url", "sitemap"))
LOC, LASTMOD, MD, LINK = f"{SITEMAP}}}loc", f"{SITEMAP}}}lastmod", f"{RS}}}md", f"{RS}}}ln"
# The elements of most lists.
KNOWN_TAGS = frozenset((URLSET, INDEX, URL, PART, LOC, LASTMOD, MD, LINK))
# Sitemap 0.9 allows 50,000 entries a document. An entry of a Ropepeach has at most three elements, others a dozen.
MOST_ENTRIES = 50_000
MOST_ELEMENTS, MOST_ELEMENTS_OF_OTHERS = 4 * MOST_ENTRIES + 100, 12 * MOST_ENTRIES + 100
# The longest document after unpacking, in bytes.
LONGEST_UNPACKED = 52_428_800
GZIP, UTF_16 = b"\x1f\x8b", (b"\xff\xfe", b"\xfe\xff")
# The bytes of a document before and in its root, and what may precede the root.
LONGEST_PROLOGUE = 65_536
PROLOGUE = re.compile(rb"(?:\xef\xbb\xbf)?(?:\s+|<\?.*?\?>|<!--.*?-->|<!DOCTYPE[^>\[]*>)*+", re.DOTALL)
# The packed bytes that are taken at once.
PACKED_PIECE = 65_536


class Listed(NamedTuple):
    """An entry of a document, unchanged: its address, the attributes of its `rs:md`, and its `lastmod`."""

    loc: str
    attributes: Mapping[str, str]
    modified: str | None


class Document:
    """A document: its address, the attributes of its head, its links by relation, and its entries.

    If the reader of a list takes the entries as they come, `entries` stays empty. It does not get pointers of an index.
    """

    def __init__(self, address: str) -> None:
        self.address, self.is_index = address, False
        self.attributes: Mapping[str, str] = {}
        self.links: list[tuple[str, str]] = []
        self.entries: list[Listed] = []
        # Entries of the other kind: a `sitemap` in a `urlset`, or a `url` in an index.
        self.strays = 0

    @property
    def capability(self) -> str:
        """Return the capability, or an empty text for a plain sitemap."""
        return self.attributes.get("capability", "")

    def link(self, relation: str) -> str | None:
        """Return the target of the first link of a relation."""
        return next((target for name, target in self.links if name == relation), None)


Take = Callable[[Document, Listed], None]


class Forbidden(Exception):
    """A document type in a document."""


class Builder:
    """Builds a document from the events of the parser."""

    def __init__(self, document: Document, take: Take | None, most_elements: int) -> None:
        self.document, self.take, self.most_elements = document, take, most_elements
        self.depth = self.elements = self.entries = 0
        # The address, the moment and the attributes of the entry; the text and the depth of the element.
        self.loc: str | None = None
        self.modified: str | None = None
        self.attributes: Mapping[str, str] | None = None
        self.texts: list[str] = []
        self.has_head, self.is_list, self.collecting = False, False, 0

    def start(self, tag: str, attributes: dict[str, str]) -> None:
        """Begin an element."""
        self.depth += 1
        self.elements += 1
        if tag not in KNOWN_TAGS:
            check_space(self.document.address, tag)
        if self.elements > self.most_elements:
            self.refuse_many()
        depth = self.depth
        if depth == 3:
            if tag == MD:
                if self.attributes is None:
                    self.attributes = attributes
            elif tag == LOC or tag == LASTMOD:
                self.texts.clear()
                self.collecting = 3
        elif depth == 2:
            self.start_second(tag, attributes)
        elif depth == 1:
            self.is_list, self.document.is_index = tag in (URLSET, INDEX), tag == INDEX
        else:
            self.collecting = 0
            if tag == URL or tag == PART:
                raise Fault(f"{self.document.address}: refused, as it has an entry within another element")

    def start_second(self, tag: str, attributes: dict[str, str]) -> None:
        """Begin an element of the root: an entry, the head's description, or a link."""
        if tag == URL or tag == PART:
            self.entries += 1
            if self.entries > MOST_ENTRIES:
                self.refuse_many()
            self.loc = self.modified = self.attributes = None
        elif tag == MD:
            if not self.has_head:
                self.has_head, self.document.attributes = True, attributes
        elif tag == LINK:
            self.document.links.append((attributes.get("rel", ""), attributes.get("href", "")))

    def refuse_many(self) -> None:
        """Refuse a document with more entries, or elements, than a list may have."""
        raise Fault(f"{self.document.address}: refused, as it has more than {MOST_ENTRIES:,} entries")

    def text(self, text: str) -> None:
        """Collect the text of an address or a moment."""
        if self.collecting == self.depth:
            self.texts.append(text)

    def end(self, tag: str) -> None:
        """End an element; an entry goes to the reader of the list."""
        depth, self.depth = self.depth, self.depth - 1
        if depth == 3:
            if tag == LOC:
                if self.loc is None:
                    self.loc = "".join(self.texts)
            elif tag == LASTMOD and self.modified is None:
                self.modified = "".join(self.texts)
            self.collecting = 0
        elif depth == 2 and (tag == URL or tag == PART):
            entry = Listed(self.loc or "", self.attributes or {}, self.modified)
            document = self.document
            if (tag == PART) != document.is_index:
                document.strays += 1
            elif self.take is None or tag == PART:
                document.entries.append(entry)
            else:
                self.take(document, entry)


def document_in(address: str, body: bytes, take: Take | None = None,
                most_elements: int = MOST_ELEMENTS_OF_OTHERS, has_type: bool = False) -> Document:
    """Return the document in some bytes. `take` gets the entries of a list as they are read, with the document so far.

    Raise Fault if the bytes are no document, or one with a document type or too many entries. With `has_type` it may
    have a document type that declares nothing.
    """
    document = Document(address)
    builder = Builder(document, take, most_elements)
    parser = expat.ParserCreate(namespace_separator="}")
    parser.buffer_text = True
    parser.StartElementHandler, parser.EndElementHandler = builder.start, builder.end
    parser.CharacterDataHandler = builder.text
    parser.StartDoctypeDeclHandler = forbid_subset if has_type else forbid
    parser.SkippedEntityHandler = forbid
    try:
        parser.Parse(body, True)
    except (Forbidden, expat.ExpatError, ValueError, LookupError) as fault:
        word = {Forbidden: "DTDForbidden", expat.ExpatError: "ParseError"}.get(type(fault), type(fault).__name__)
        raise Fault(f"{address}: refused, as it is no document: {word}") from None
    if not builder.is_list:
        raise Fault(f"{address}: refused, as it is no document of Sitemap 0.9")
    return document


def forbid(*_: object) -> None:
    """Refuse a document type, before any of its entities is declared."""
    raise Forbidden


def forbid_subset(_name: str, _system: str | None, _public: str | None, has_subset: int) -> None:
    """Refuse a document type with declarations of its own; one without is never read."""
    if has_subset:
        raise Forbidden


def is_text_sitemap(body: bytes) -> bool:
    """Return whether bytes look like a sitemap of one address a line (Sitemap 0.9)."""
    return re.match(rb"(?:\xef\xbb\xbf)?\s*https?://[!-~]+\s*(?:[\r\n]|\Z)", body[:4_096], re.IGNORECASE) is not None


def text_sitemap(address: str, body: bytes, take: Take | None) -> Document:
    """Return the document in a sitemap of one address a line; `take` gets the entries."""
    document = Document(address)
    lines = [line for line in body.decode("utf-8-sig", "replace").splitlines() if line.strip()]
    if len(lines) > MOST_ENTRIES:
        raise Fault(f"{address}: refused, as it has more than {MOST_ENTRIES:,} entries")
    for line in lines:
        listed = Listed(line.strip(), {}, None)
        if take is None:
            document.entries.append(listed)
        else:
            take(document, listed)
    return document


def check_space(address: str, tag: str) -> None:
    """Refuse an element of a list in another namespace, which would be ignored."""
    space, _, name = tag.rpartition("}")
    is_listing = name in LISTING and space != SITEMAP
    if is_listing or (name in ("md", "ln") and space.startswith(RS_FRONT) and space != RS):
        raise Fault(f"{address}: refused, as its {name} is of the namespace {space[:200]!r}, and not of "
                    f"{SITEMAP if name in LISTING else RS}")


def unpacked(address: str, body: bytes) -> bytes:
    """Return the bytes of a document, which may be packed by gzip once or twice."""
    for _ in range(2):
        if not body.startswith(GZIP):
            break
        body = gunzipped(address, body)
    return body


def gunzipped(address: str, body: bytes) -> bytes:
    """Return the unpacked members of gzip. Raise Fault for too many bytes or members."""
    pieces, size, at, packed = list[bytes](), 0, 0, memoryview(body)
    for _ in range(MOST_MEMBERS):
        if packed[at:at + len(GZIP)] != GZIP:
            return b"".join(pieces)
        member = zlib.decompressobj(zlib.MAX_WBITS | 16)
        while not member.eof:
            part = packed[at:at + PACKED_PIECE]
            if not part:
                raise Fault(f"{address}: refused, as it is cut: its packed bytes have no end")
            try:
                pieces.append(member.decompress(part, LONGEST_UNPACKED + 1 - size))
            except zlib.error as fault:
                raise Fault(f"{address}: refused, as it can't be unpacked: {fault}") from None
            at, size = at + len(part) - len(member.unused_data), size + len(pieces[-1])
            if size > LONGEST_UNPACKED:
                raise Fault(f"{address}: refused, as it unpacks to more than {LONGEST_UNPACKED:,} bytes")
    raise Fault(f"{address}: refused, as it has more than {MOST_MEMBERS:,} members of gzip")


def is_markup(body: bytes) -> bool:
    """Return whether bytes look like a document of a source, not like a page."""
    if body.startswith(UTF_16):
        body = body[:2 * LONGEST_PROLOGUE].decode("utf-16", "ignore").encode()
    front = PROLOGUE.sub(b"", body[:LONGEST_PROLOGUE], count=1)
    return front.startswith(b"<") and b"sitemaps.org/schemas/sitemap" in front[:4_096]
