"""Where a name of a collection lives: rendezvous hashing of its bytes over the names of the sources.

The weight of a source for a name is the SHA-256 of the source's name, a zero byte and the resource's name,
read as a number. The source of the greatest weight has the name. So one more source takes only the names for
which its weight is the greatest: about one of n + 1. No name moves between the other sources.
"""
from __future__ import annotations

import hashlib
from collections.abc import Iterable


class Homes:
    """The sources of a collection by their names."""

    def __init__(self, sources: Iterable[str]) -> None:
        self.fronts = [(source.encode() + b"\0", source) for source in sorted(sources)]

    def of(self, name: str) -> str:
        """Return the source in which a name lives."""
        text, greatest, home = name.encode(), b"", ""
        for front, source in self.fronts:
            weight = hashlib.sha256(front + text).digest()
            if weight > greatest:
                greatest, home = weight, source
        return home
