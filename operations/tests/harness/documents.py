"""Write documents of ANSI/NISO Z39.99-2017 and Sitemap 0.9, valid or not."""
from __future__ import annotations

import hashlib
import io
import zipfile
from collections.abc import Iterable, Mapping
from xml.sax.saxutils import escape, quoteattr

NAMESPACES = ('xmlns="http://www.sitemaps.org/schemas/sitemap/0.9" '
              'xmlns:rs="http://www.openarchives.org/rs/terms/"')
BYTE_ORDER_MARK = b"\xef\xbb\xbf"


def digests_of(body: bytes, algorithms: Iterable[str]) -> str:
    """Return the value of the attribute `hash`, for algorithms as `md5` or `sha-256`."""
    return " ".join(f"{name}:{hashlib.new(name.replace('-', ''), body).hexdigest()}" for name in algorithms)


def md(attributes: Mapping[str, str]) -> str:
    """Return an `rs:md` of the attributes that have a value, or ""; `from_` is written as `from`."""
    words = "".join(f" {name.rstrip('_')}={quoteattr(value)}" for name, value in attributes.items() if value)
    return f"<rs:md{words}/>" if words else ""


def link(relation: str, target: str) -> str:
    """Return an `rs:ln`."""
    return f"<rs:ln rel={quoteattr(relation)} href={quoteattr(target)}/>"


def entry(address: str, modified: str = "", tag: str = "url", **attributes: str) -> str:
    """Return an entry of a document: `url`, or `sitemap` in an index."""
    moment = f"<lastmod>{modified}</lastmod>" if modified else ""
    return f"<{tag}><loc>{escape(address)}</loc>{moment}{md(attributes)}</{tag}>\n"


def document(entries: Iterable[str], root: str = "urlset", links: str = "", **attributes: str) -> bytes:
    """Return a document; without attributes it is a plain sitemap."""
    head = f'<?xml version="1.0" encoding="UTF-8"?>\n<{root} {NAMESPACES}>\n{links}{md(attributes)}\n'
    return f"{head}{''.join(entries)}</{root}>\n".encode()


def index(entries: Iterable[str], links: str = "", **attributes: str) -> bytes:
    """Return an index of documents."""
    return document(entries, "sitemapindex", links, **attributes)


def page(head: str, body: str = "", is_closed: bool = True) -> str:
    """Return an HTML page; `is_closed` writes the end tag of its head, which HTML makes optional."""
    end = "</head>" if is_closed else ""
    return f"<!doctype html>\n<html><head><title>A page</title>{head}{end}\n<body>{body}</body></html>\n"


def archive(files: Mapping[str, bytes], manifest: bytes) -> bytes:
    """Return a ZIP of a dump, uncompressed: files by path, and the manifest."""
    packed = io.BytesIO()
    with zipfile.ZipFile(packed, "w", zipfile.ZIP_STORED) as file:
        for path, body in files.items():
            file.writestr(path, body)
        file.writestr("manifest.xml", manifest)
    return packed.getvalue()
