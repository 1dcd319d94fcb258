"""A source whose list documents `ropepeach fill` may remember from an earlier run."""
from __future__ import annotations

import argparse
import hashlib
from collections.abc import Sequence

from ropepeach.fill.memory import Digested, Memory
from ropepeach.http.client import Client
from ropepeach.resync.lists import Source, Unheld
from ropepeach.resync.sitemaps import Document, Listed, Take


class KnownSource(Source):
    """A source whose documents may be remembered."""

    def __init__(self, client: Client) -> None:
        self.memory: Memory | None = None
        # The documents of this run, in the order in which they were read.
        self.read: list[Digested] = []
        super().__init__(client)

    def remember(self, arguments: argparse.Namespace) -> Memory:
        """Open the memory of this source and FOLDER, and return it. It is closed at the end of a run."""
        self.memory = Memory(self.base, arguments.folder, arguments.check, arguments.dry_run)
        return self.memory

    def bytes_at(self, address: str, limit: int) -> bytes:
        """Return the bytes of a document, and note their digest."""
        text = super().bytes_at(address, limit)
        self.read.append((address, hashlib.sha256(text).hexdigest()))
        return text

    def has_unchanged(self, documents: Sequence[Digested]) -> bool:
        """Return whether all documents of an earlier run have the same bytes now. The first of them are those that this
        run has read. The others are read from the last one on: the Change List, which changes most often.
        """
        count = len(self.read)
        if self.read != documents[:count]:
            return False
        try:
            return all(self.is_unchanged(*document) for document in reversed(documents[count:]))
        except Unheld:
            return False
        finally:
            del self.read[count:]

    def is_unchanged(self, address: str, digest: str) -> bool:
        """Return whether a document has this SHA-256."""
        self.bytes_at(address, self.client.longest)
        return self.read[-1][1] == digest

    def document(self, address: str, take: Take | None = None) -> Document:
        """Return a document; `take` gets the entries of a list as they come."""
        memory = self.memory
        if memory is None or take is None:
            return super().document(address, take)
        text = self.bytes_at(address, self.client.longest)
        digest = bytes.fromhex(self.read[-1][1])
        remembered = memory.document(digest)
        if remembered is not None:
            head, entries = remembered
            document = remembered_document(address, head)
            for loc, attributes, modified in entries:
                take(document, Listed(loc, attributes, modified))
            return document
        rows: list[Listed] = []
        wanted = take

        def keep(document: Document, listed: Listed) -> None:
            """Record an entry for the next run, and pass it to the caller."""
            rows.append(listed)
            wanted(document, listed)

        document = self.parsed(address, text, keep)
        memory.keep(digest, head_of(document), rows)
        return document


def head_of(document: Document) -> bytes:
    """Return a document without the entries of a list, as it is kept."""
    import json

    return json.dumps([document.is_index, document.attributes, document.links, document.entries]).encode()


def remembered_document(address: str, text: bytes) -> Document:
    """Return the document that was kept so."""
    import json

    document = Document(address)
    document.is_index, document.attributes, links, entries = json.loads(text)
    document.links = [(relation, target) for relation, target in links]
    document.entries = [Listed(*entry) for entry in entries]
    return document
