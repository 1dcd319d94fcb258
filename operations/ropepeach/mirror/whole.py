"""The folder of a mirror of a collection: the address of the collection, and the folders of its sources."""
from __future__ import annotations

import json
import os
import re
import urllib.parse

from ropepeach.cli.files import replaced
from ropepeach.faults import Fault, Unusable
from ropepeach.mirror.folder import INCOMING
from ropepeach.mirror.state import LONGEST_FRONT
from ropepeach.mirror.tree import Tree, lock_folder, tree_at
from ropepeach.resync.facts import is_name

# The file at the top of a mirror of a collection: the address of the whole.
COLLECTION_FILE = "#collection"
# The form of a base (docs/SCRIPT.md), and the most sources of a Source Description.
BASE, MOST_SOURCES = re.compile(r"https?://[A-Za-z0-9.:/_~-]{1,120}(?<!/)"), 1_000


def is_whole(folder: str) -> bool:
    """Return whether a folder is a mirror of a collection."""
    return os.path.lexists(os.path.join(folder, COLLECTION_FILE))


def address_of_collection(folder: str) -> str:
    """Return the address of the collection that a folder mirrors."""
    with tree_at(folder) as tree:
        return marked(tree)


def marked(tree: Tree) -> str:
    """Return the address of the collection in the folder's `#collection`. Raise Unusable if it is unreadable."""
    try:
        return str(json.loads(tree.read(COLLECTION_FILE, LONGEST_FRONT))["collection"])
    except (ValueError, LookupError, TypeError, RecursionError):
        raise Unusable(f"{tree.shown(COLLECTION_FILE)}: can't be read") from None


class Whole:
    """The locked folder of the whole, which may be a mirror of only one collection."""

    def __init__(self, path: str, address: str) -> None:
        """Make and lock the folder. Raise Unusable if another run has locked it."""
        os.makedirs(path, exist_ok=True)
        self.path, self.lock = path, os.open(path, os.O_RDONLY | os.O_DIRECTORY)
        lock_folder(self.lock, path)
        self.tree = Tree(path, self.lock)
        if not self.tree.is_there(COLLECTION_FILE):
            self.mark(address)
        if (found := marked(self.tree)) != address:
            raise Unusable(f"{path}: is a mirror of {found}")

    def mark(self, address: str) -> None:
        """Write the address of the collection, if the folder is empty but for the rest of a stopped write."""
        if not set(os.listdir(self.lock)) <= {INCOMING}:
            raise Unusable(f"{self.path}: is not empty, and no mirror")
        if self.tree.is_there(INCOMING):
            self.tree.remove(INCOMING)
        with replaced(self.lock, COLLECTION_FILE, INCOMING) as file:
            file.write(json.dumps({"collection": address}).encode())

    def drop_if_empty(self) -> None:
        """Remove the mark of a folder that has no more, so that it may become the mirror of another source."""
        if os.listdir(self.lock) == [COLLECTION_FILE]:
            self.tree.remove(COLLECTION_FILE)

    def others(self, parts: dict[str, str]) -> list[str]:
        """Return the entries of the folder that are no part of the collection now."""
        return [name for name in sorted(os.listdir(self.lock)) if name not in parts and not name.startswith("#")]


def folders_of(bases: list[str], address: str, is_elsewhere: bool) -> dict[str, str]:
    """Return the bases by folder. A folder's name is the path below the address of the whole, or else the base."""
    if len(bases) > MOST_SOURCES:
        raise Fault(f"{address}: refused, as the Source Description names {len(bases):,} sources, more than "
                    f"{MOST_SOURCES:,}")
    if len(set(bases)) < len(bases):
        raise Fault(f"{address}: refused, as the Source Description names {len(bases):,} sources, and one of "
                    f"them twice")
    parts: dict[str, str] = {}
    for base in bases:
        if not BASE.fullmatch(base):
            raise Fault(f"{base[:300]}: refused, as it is no base of a source")
        path = base.removeprefix(address + "/")
        if path == base and not is_elsewhere:
            raise Fault(f"{base}: refused, as it is not below {address}; --elsewhere takes sources of other "
                        f"hosts")
        name = urllib.parse.quote(path.partition("://")[2] if path == base else path, safe="")
        if not is_name(name) or parts.setdefault(name, base) != base:
            raise Fault(f"{base}: refused, as its folder would be {name}, which is another one's or no name")
    return parts
