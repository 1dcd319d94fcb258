"""Links to a source in pages, header fields and robots.txt: section 6.3 of ANSI/NISO Z39.99-2017."""
from __future__ import annotations

import re
from html.parser import HTMLParser

# The first bytes of a page, which must contain its head.
LONGEST_HEAD = 65_536
# The relation of a link whose target is a Capability List or a Source Description.
RELATION = "resourcesync"
LINK_FIELD = re.compile(r"<([^<>]{1,2048})>((?:\s*;\s*[A-Za-z*-]+\s*=\s*(?:\"[^\"]*\"|[^\s\",;]+))*)")


class Head(HTMLParser):
    """The links of a page's head that lead to a source."""

    def __init__(self) -> None:
        super().__init__()
        self.targets: list[str] = []
        self.is_over = False

    def handle_starttag(self, tag: str, attrs: list[tuple[str, str | None]]) -> None:
        self.is_over = self.is_over or tag == "body"
        words = dict(attrs)
        is_link = tag in ("link", "rs:ln") and not self.is_over
        if is_link and RELATION in (words.get("rel") or "").lower().split():
            self.targets.append(words.get("href") or "")

    def handle_endtag(self, tag: str) -> None:
        self.is_over = self.is_over or tag == "head"


def links_of_page(body: bytes) -> list[str]:
    """Return the targets of the links of a page's head that lead to a source."""
    head = Head()
    head.feed(body[:LONGEST_HEAD].decode("utf-8", "replace"))
    return head.targets


def links_of_fields(text: str) -> list[str]:
    """Return the targets of the links of a field `Link` that lead to a source (RFC 8288)."""
    targets = []
    for target, words in LINK_FIELD.findall(text[:LONGEST_HEAD]):
        for relation in re.findall(r";\s*rel\s*=\s*(?:\"([^\"]*)\"|([^\s\",;]+))", words, re.IGNORECASE)[:1]:
            if RELATION in "".join(relation).lower().split():
                targets.append(target)
    return targets


def sitemaps_of(body: bytes) -> list[str]:
    """Return the sitemaps that a robots.txt names (RFC 9309, Sitemap 0.9)."""
    lines = body.decode("utf-8", "replace").splitlines()
    # (a comment follows a `#`)
    return [line.partition(":")[2].partition("#")[0].strip() for line in lines
            if line.partition(":")[0].strip().lower() == "sitemap"]
