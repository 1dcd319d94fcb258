"""The records of a mirror's files: `#known`, as of the last baseline, and `#known-later` with the changes of later
increments, so that an increment writes only its own changes.

Both are SQLite databases of one form, copied whole through the folder's own descriptor: SQLite itself opens no path
that other users may change, so no link leads it elsewhere. A missing or damaged file counts as lost.
"""
from __future__ import annotations

import contextlib
import os
import shutil
import sqlite3
import tempfile
from collections.abc import Iterable, Iterator, Sequence
from typing import IO, NamedTuple

from ropepeach.faults import Unusable
from ropepeach.mirror.folder import Folder
from ropepeach.mirror.state import Position
from ropepeach.mirror.tree import PIECE, Tree

MAGIC = b"SQLite format 3\0"
# The longest file that is read, in bytes.
LONGEST_DATABASE = 4 << 30
KNOWN, LATER = "#known", "#known-later"
# The check of a row whose resource was deleted, in `#known-later` alone.
GONE = "deleted"
# The most rows of `#known-later`: with more it goes into `#known`.
MOST_LATER = 20_000
# The number of rows in a batch for SQLite.
ROW_BATCH = 1_000
# The number of this form of the database, and its tables. (Version 0.1.0 used `lists` and `passed`.)
CATALOGUE_FORM = 1
TABLES = f"""
CREATE TABLE resources (place TEXT PRIMARY KEY, address TEXT NOT NULL, modified TEXT NOT NULL,
    kind TEXT NOT NULL, encoding TEXT NOT NULL, length INTEGER NOT NULL, sha256 BLOB NOT NULL,
    tag TEXT NOT NULL, last TEXT NOT NULL, compared TEXT NOT NULL) WITHOUT ROWID;
CREATE TABLE lists (address TEXT PRIMARY KEY, since TEXT NOT NULL, told TEXT NOT NULL) WITHOUT ROWID;
CREATE TABLE passed (why TEXT PRIMARY KEY, count INTEGER NOT NULL) WITHOUT ROWID;
PRAGMA user_version = {CATALOGUE_FORM};
"""
SETTINGS = ("journal_mode = OFF", "synchronous = OFF", "locking_mode = EXCLUSIVE", "trusted_schema = OFF")
TABLE_TEXTS = "SELECT sql FROM sqlite_schema WHERE sql IS NOT NULL ORDER BY name"


class Row(NamedTuple):
    """The record of a file: its place and address; the listed moment, type and encoding; its length and SHA-256; the
    fields `ETag` and `Last-Modified` of the response that brought it; the check that it passed.
    """

    place: str
    address: str
    modified: str
    kind: str
    encoding: str
    length: int
    sha256: bytes
    tag: str
    last: str
    compared: str


ROW_FIELDS = ", ".join(Row._fields)
SELECT = f"SELECT {ROW_FIELDS} FROM resources"
PUT = f"INSERT OR REPLACE INTO resources ({ROW_FIELDS}) VALUES ({', '.join('?' for _ in Row._fields)})"
TYPES = tuple({"length": int, "sha256": bytes}.get(name, str) for name in Row._fields)


class Known:
    """A database of a mirror: a copy of a file of its folder, or a new one. It is lost unless it is saved.

    It is kept in a file without a name, so that little of a large one is in memory.
    """

    def __init__(self, image: IO[bytes] | None = None) -> None:
        """Make a new database, or copy a file. Raise sqlite3.Error if the file is no database."""
        with tempfile.TemporaryDirectory(prefix="ropepeach-") as room:
            path = os.path.join(room, "base")
            self.file = open(path, "w+b")
            if image is not None:
                shutil.copyfileobj(image, self.file, PIECE)
                self.file.flush()
            self.base = sqlite3.connect(path, isolation_level=None, check_same_thread=False)
        # Rows that SQLite does not have yet.
        self.waiting: dict[str, Row] = {}
        try:
            for setting in SETTINGS:
                self.base.execute(f"PRAGMA {setting}").fetchall()
            if image is None:
                self.base.executescript(TABLES)
            self.base.execute("BEGIN")
        except (sqlite3.Error, UnicodeDecodeError) as fault:
            # (SQLite's message on a foreign file may have bytes of it)
            self.close()
            raise sqlite3.DatabaseError(str(fault)) from None

    @staticmethod
    def of(tree: Tree, name: str) -> Known | None:
        """Return a copy of a file, or None if it is missing or damaged."""
        if not tree.is_file(name):
            if tree.is_folder(name):
                raise Unusable(f"{tree.shown(name)}: is a folder, where the mirror keeps a file: move it away")
            return None
        with open(tree.opened(name), "rb") as file:
            if file.read(len(MAGIC)) != MAGIC or os.fstat(file.fileno()).st_size > LONGEST_DATABASE:
                return None
            file.seek(0)
            try:
                known = Known(file)
            except sqlite3.Error:
                return None
        if known.is_ours():
            return known
        known.close()
        return None

    def is_ours(self) -> bool:
        """Return whether the database has only the tables of this form, and only values that they may have."""
        try:
            with contextlib.closing(sqlite3.connect(":memory:")) as ours:
                ours.executescript(TABLES)
                if self.base.execute(TABLE_TEXTS).fetchall() != ours.execute(TABLE_TEXTS).fetchall():
                    return False
            form = self.base.execute("PRAGMA user_version").fetchone()[0]
            if form != CATALOGUE_FORM or self.base.execute("PRAGMA quick_check").fetchone()[0] != "ok":
                return False
            # (a text may have bytes that are no UTF-8)
            return all(row_of(row) is not None for row in self.base.execute(SELECT)) and all(
                isinstance(text, str) for row in self.base.execute("SELECT * FROM lists").fetchall() for text in row)
        except (sqlite3.Error, ValueError, OverflowError, MemoryError):
            return False

    def close(self) -> None:
        """Close the database."""
        self.base.close()
        self.file.close()

    def save(self, folder: Folder, name: str) -> None:
        """Write the database to a file of the folder."""
        self.flush()
        self.base.execute("COMMIT")
        self.base.execute("BEGIN")
        self.file.seek(0)
        folder.write_own(name, lambda file: shutil.copyfileobj(self.file, file, PIECE))

    def row(self, place: str) -> Row | None:
        """Return the row of a place."""
        if place in self.waiting:
            return self.waiting[place]
        found = self.base.execute(f"{SELECT} WHERE place = ?", [place]).fetchone()
        return None if found is None else row_of(found)

    def rows(self) -> Iterator[Row]:
        """Return all rows, in the order of places."""
        self.flush()
        return filter(None, map(row_of, self.base.execute(f"{SELECT} ORDER BY place")))

    def put(self, row: Row) -> None:
        """Record a row."""
        self.waiting[row.place] = row
        if len(self.waiting) >= ROW_BATCH:
            self.flush()

    def flush(self) -> None:
        """Give SQLite the rows that wait."""
        self.base.executemany(PUT, self.waiting.values())
        self.waiting.clear()

    def count(self) -> int:
        """Return the number of rows."""
        self.flush()
        return int(self.base.execute("SELECT count(*) FROM resources").fetchone()[0])

    def forget(self, places: Iterable[str]) -> None:
        """Remove the rows of places."""
        self.flush()
        self.base.executemany("DELETE FROM resources WHERE place = ?", ([place] for place in places))

    def compared(self) -> dict[str, int]:
        """Return the number of files by the check that they passed."""
        self.flush()
        return dict(self.base.execute("SELECT compared, count(*) FROM resources GROUP BY compared"))

    def add(self, later: Known) -> None:
        """Add the rows of `#known-later`."""
        self.flush()
        later.flush()
        self.base.executemany(PUT, later.base.execute(SELECT))
        self.base.execute("DELETE FROM resources WHERE compared = ?", [GONE])

    def lists(self) -> dict[str, Position]:
        """Return the positions in the Change Lists that version 0.1.0 kept here."""
        rows = self.base.execute("SELECT address, since, told FROM lists")
        return {str(address): Position(str(since), str(latest)) for address, since, latest in rows}

    def passed(self) -> dict[str, int]:
        """Return the counts of skipped entries that version 0.1.0 kept here."""
        return {str(why): int(count) for why, count in self.base.execute("SELECT why, count FROM passed")}


def whole(tree: Tree) -> Known | None:
    """Return all records of a mirror, or None if one of the files is lost."""
    known = Known.of(tree, KNOWN)
    if known is not None and tree.is_there(LATER):
        later = Known.of(tree, LATER)
        if later is None:
            known.close()
            return None
        known.add(later)
        later.close()
    return known


def records_in(tree: Tree) -> Known:
    """Return all records of a mirror. Raise Unusable if one of the files is lost."""
    known = whole(tree)
    if known is None:
        raise Unusable(f"{tree.path}: has no {KNOWN} that can be read: it is no mirror, or the next baseline writes it")
    return known


class Catalogue:
    """The records of a mirror during a run.

    `known` has all of them, and is read from the files on first use. A baseline changes it, and writes it as `#known`.
    An increment also changes `later`, and writes only that. A run may write them at any moment: the rows are always
    those of the files in the folder.
    """

    def __init__(self, folder: Folder) -> None:
        self.folder = folder
        self.is_read = self.is_lost = self.is_baseline = False
        self.all: Known | None = None
        self.changed: Known | None = None

    @property
    def known(self) -> Known:
        """Return all records; they are empty if a file was lost."""
        if self.all is None:
            found = whole(self.folder.tree) if self.folder.is_open else None
            self.is_read, self.is_lost = True, found is None
            self.all = found or Known()
            if self.changed is not None:
                self.all.add(self.changed)
        return self.all

    @property
    def later(self) -> Known:
        """Return the changes since `#known` was written."""
        if self.changed is None:
            self.changed = Known.of(self.folder.tree, LATER)
            if self.changed is None:
                self.changed = Known()
                if self.folder.tree.is_there(LATER):
                    # (neither file has its rows: the next baseline writes all again)
                    with contextlib.suppress(FileNotFoundError):
                        self.folder.tree.remove(KNOWN)
        return self.changed

    def row(self, place: str) -> Row | None:
        """Return the row of a place, if it is known."""
        known = self.known
        return known.row(place) if not self.is_lost or self.is_baseline else None

    def put(self, place: str, row: Row | None) -> None:
        """Note the row of a place, or None if the place has no file."""
        if self.is_baseline or self.is_read:
            if row is None:
                self.known.forget([place])
            else:
                self.known.put(row)
        if not self.is_baseline:
            self.later.put(row or gone(place))

    def save(self) -> None:
        """Write the changes."""
        if not self.is_baseline:
            if self.changed is None:
                return
            self.changed.save(self.folder, LATER)
            if self.changed.count() <= MOST_LATER:
                return
            self.close()
        known = self.known
        if self.is_lost and not self.is_baseline:
            # (a lost `#known` is written by the next baseline)
            return
        known.save(self.folder, KNOWN)
        with contextlib.suppress(FileNotFoundError):
            self.folder.tree.remove(LATER)
        if self.changed is not None:
            self.changed.close()
            self.changed = None

    def close(self) -> None:
        """Close the databases."""
        for known in (self.all, self.changed):
            if known is not None:
                known.close()
        self.all = self.changed = None
        self.is_read = False


def gone(place: str) -> Row:
    """Return the row of a place that has no file any more."""
    return Row(place, "", "", "", "", 0, b"", "", "", GONE)


def row_of(found: Sequence[object]) -> Row | None:
    """Return a row of the database, or None if it has values of other types."""
    return Row._make(found) if all(map(isinstance, found, TYPES)) else None
