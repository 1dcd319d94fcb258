"""The memory of `ropepeach fill` between two runs: the digests of files by their stamps, and the entries of list
documents by the digests of the documents.

A file with the stamp of an earlier run is not read again: its remembered SHA-256 is compared with the one in the
source's lists. A document with the same bytes as in an earlier run is not parsed again. If a run found no changes, and
all stamps and documents are unchanged since, the comparison is skipped.

The memory of a source is an SQLite file below $XDG_STATE_HOME (default: ~/.local/state), in ropepeach/fill. If it is
unusable, every file is read.
"""
from __future__ import annotations

import contextlib
import hashlib
import os
import re
import sqlite3
import stat
import urllib.parse
from collections.abc import Callable, Iterator, Sequence
from typing import Any

from ropepeach.cli import output
from ropepeach.cli.files import make_file, opened_folder
from ropepeach.faults import printable
from ropepeach.fill.files import Stamp

# The number of the format, and the application id of our SQLite files ("RpFl").
VERSION, APPLICATION = 1, 0x5270466C
FILE_COLUMNS = ("name TEXT PRIMARY KEY, size INTEGER NOT NULL, mtime INTEGER NOT NULL, ctime INTEGER NOT NULL, "
                "inode INTEGER NOT NULL, sha256 BLOB NOT NULL")
COLUMNS_OF = {
    "about": "word TEXT PRIMARY KEY, value BLOB NOT NULL",
    "files": FILE_COLUMNS,
    "noted": FILE_COLUMNS,
    "documents": "sha256 BLOB PRIMARY KEY, head BLOB NOT NULL, entries BLOB NOT NULL, seal BLOB NOT NULL",
}
MEMORY_TABLES = {table: f"CREATE TABLE {table} ({columns}) WITHOUT ROWID" for table, columns in COLUMNS_OF.items()}
# The form of the rows of documents: version 0.1.0 kept other values, without this mark.
ROW_FORM = b"2"
# This many rows are written before they are committed.
ROWS_A_COMMIT = 1_000
# The word of the row about the last run without changes.
SETTLED = "settled"
# A run does not wait for another one that has the file.
BUSY = (sqlite3.SQLITE_BUSY, sqlite3.SQLITE_LOCKED)
CORRUPT = (sqlite3.SQLITE_CORRUPT, sqlite3.SQLITE_NOTADB)
# The address of a document, and its SHA-256 in hexadecimal digits.
Digested = tuple[str, str]


class Untrusted(Exception):
    """The reason why a file of remembered digests cannot be used."""


class Damaged(Untrusted):
    """A file that is this user's own and has no rows that make sense: a new one replaces it."""


def state_folder() -> str:
    """Return the folder for state between runs (XDG Base Directory Specification)."""
    folder = os.environ.get("XDG_STATE_HOME", "")
    return folder if os.path.isabs(folder) else os.path.expanduser("~/.local/state")


def file_of(base: str) -> str:
    """Return the path of the memory of a source. Its name has the host, for a reader, and a digest of the base."""
    host = re.sub(r"[^a-z0-9.-]", "-", (urllib.parse.urlsplit(base).hostname or "source").lower())[:64]
    return os.path.join(state_folder(), "ropepeach", "fill",
                        f"{host}-{hashlib.sha256(base.encode()).hexdigest()[:16]}.sqlite")


def check_own(path: str, is_kind: Callable[[int], bool], kind: str) -> os.stat_result:
    """Return the status of a file or folder. Refuse a link, and one that another user owns or may write."""
    status = os.lstat(path)
    if not is_kind(status.st_mode):
        raise Untrusted(f"it is no {kind}")
    if status.st_uid != os.geteuid():
        raise Untrusted("it belongs to another user")
    if status.st_mode & (stat.S_IWGRP | stat.S_IWOTH):
        raise Untrusted("other users may write it (chmod go-w)")
    return status


def prepare(path: str) -> None:
    """Make the folders and the file if they are missing, and check their owners."""
    folder = os.path.dirname(path)
    os.makedirs(os.path.dirname(os.path.dirname(folder)), exist_ok=True)
    for own in (os.path.dirname(folder), folder):
        with contextlib.suppress(FileExistsError):
            os.mkdir(own, 0o700)
        check_own(own, stat.S_ISDIR, "folder")
    with contextlib.suppress(FileExistsError), opened_folder(folder) as opened:
        os.close(make_file(opened, os.path.basename(path), 0o600))
    if check_own(path, stat.S_ISREG, "regular file").st_nlink != 1:
        raise Untrusted("it has a second name")


def remove(path: str) -> None:
    """Remove a file of SQLite, and the files that SQLite keeps next to it."""
    for end in ("", "-journal", "-wal", "-shm"):
        with contextlib.suppress(FileNotFoundError):
            os.remove(path + end)


def database_at(path: str, base: str, folder: str) -> sqlite3.Connection:
    """Open the memory of a source and a folder. Only this run has it until it is closed."""
    database = sqlite3.connect(path, timeout=0, isolation_level=None)
    try:
        for words in ("trusted_schema = OFF", "locking_mode = EXCLUSIVE", "synchronous = NORMAL"):
            database.execute(f"PRAGMA {words}")
        database.execute("BEGIN IMMEDIATE")
        if pragma(database, "user_version") > VERSION:
            raise Untrusted("a newer version of ropepeach wrote it")
        check_schema(database)
        check_subject(database, {"base": base.encode(), "folder": os.fsencode(os.path.realpath(folder))})
        # (a run that was stopped has noted some)
        take_noted(database)
    except BaseException:
        database.close()
        raise
    return database


def pragma(database: sqlite3.Connection, word: str) -> int:
    """Return a number in the head of the file."""
    value: int = database.execute(f"PRAGMA {word}").fetchone()[0]
    return value


def check_schema(database: sqlite3.Connection) -> None:
    """Make the tables of a new file. A file with other tables is damaged."""
    found = dict(database.execute("SELECT name, sql FROM sqlite_master"))
    if not found and not pragma(database, "application_id"):
        for words in MEMORY_TABLES.values():
            database.execute(words)
        database.execute(f"PRAGMA application_id = {APPLICATION}")
        database.execute(f"PRAGMA user_version = {VERSION}")
    elif found != MEMORY_TABLES or pragma(database, "application_id") != APPLICATION:
        raise Damaged("it has other tables")


def check_subject(database: sqlite3.Connection, subject: dict[str, bytes]) -> None:
    """Forget the rows of another folder or another source."""
    if dict(database.execute("SELECT word, value FROM about WHERE word <> ?", (SETTLED,))) != subject:
        for table in MEMORY_TABLES:
            database.execute(f"DELETE FROM {table}")
        database.executemany("INSERT INTO about VALUES (?, ?)", subject.items())


def take_noted(database: sqlite3.Connection) -> None:
    """Let the rows that a run noted replace older ones."""
    database.execute("INSERT OR REPLACE INTO files SELECT * FROM noted")
    database.execute("DELETE FROM noted")


class Memory:
    """The rows of a source and a folder, empty if their file is unusable. An error of the file ends no run."""

    def __init__(self, base: str, folder: str, is_checking: bool = False, is_dry: bool = False) -> None:
        """Open the file. A checking run trusts no row of a file, and a dry run writes no row."""
        self.path, self.is_checking, self.is_dry, self.count = file_of(base), is_checking, is_dry, 0
        self.database: sqlite3.Connection | None = None
        # The rows of files that are not read yet, and the row after the last name.
        self.rows: Iterator[Any] = iter(())
        self.row: Any = None
        self.last_name = ""
        # The names of rows whose files are gone, and the documents of this run.
        self.stale: list[str] = []
        self.used: set[bytes] = set()
        with self.guarded():
            self.open(base, folder)

    @contextlib.contextmanager
    def guarded(self) -> Iterator[None]:
        """If the database file fails in a `with` block, continue the run without it."""
        try:
            yield
        except (Untrusted, OSError, sqlite3.Error, ValueError, TypeError) as fault:
            code = getattr(fault, "sqlite_errorcode", None)
            why = "another run has it" if code in BUSY else getattr(fault, "strerror", None) or str(fault)
            output.message(f"{printable(self.path)}: cannot be used, {printable(why)}: every file is read")
            self.drop(is_damaged=code in CORRUPT or isinstance(fault, Damaged))

    def open(self, base: str, folder: str) -> None:
        """Open the file, or a new one in place of a damaged one."""
        prepare(self.path)
        try:
            self.database = database_at(self.path, base, folder)
        except (Damaged, sqlite3.DatabaseError) as fault:
            if isinstance(fault, sqlite3.DatabaseError) and fault.sqlite_errorcode not in CORRUPT:
                raise
            remove(self.path)
            prepare(self.path)
            self.database = database_at(self.path, base, folder)

    def drop(self, is_damaged: bool) -> None:
        """Continue without the file, and remove it if its rows are invalid."""
        database, self.database, self.rows, self.row = self.database, None, iter(()), None
        if database:
            with contextlib.suppress(sqlite3.Error):
                database.close()
            if is_damaged:
                with contextlib.suppress(OSError):
                    remove(self.path)

    def begin(self) -> None:
        """Go to the first row of a file."""
        if self.database and not self.is_checking:
            self.rows = self.database.execute("SELECT name, size, mtime, ctime, inode, sha256 FROM files ORDER BY name")
            self.advance()

    def advance(self) -> None:
        """Read the next row."""
        with self.guarded():
            self.row = row = next(self.rows, None)
            if row is not None and not (isinstance(row[0], str) and isinstance(row[5], bytes)):
                raise Damaged("a row is none of a file")

    def digest(self, name: str, stamp: Stamp) -> bytes | None:
        """Return the remembered SHA-256 of a file with this stamp. Names must come in byte order."""
        while self.row is not None and self.row[0] < name:
            if self.row[0] != self.last_name:
                self.stale.append(self.row[0])
            self.advance()
        row, self.last_name = self.row, name
        if row is None or row[0] != name or row[1:5] != stamp:
            return None
        digest: bytes = row[5]
        return digest

    def note(self, name: str, stamp: Stamp, digest: bytes, moment: int) -> bool:
        """Remember the digest of a file that the source holds, read from a moment on. Return whether it is kept."""
        if self.database is None or self.is_dry or not stamp.is_settled(moment):
            return False
        with self.guarded():
            self.database.execute("INSERT OR REPLACE INTO noted VALUES (?, ?, ?, ?, ?, ?)", (name, *stamp, digest))
            self.count += 1
            if self.count % ROWS_A_COMMIT == 0:
                self.database.execute("COMMIT")
                self.database.execute("BEGIN IMMEDIATE")
            return True
        return False

    def settled(self) -> list[str]:
        """Return the lines of the last run without changes; they are empty if something has changed."""
        if self.database is None or self.is_checking:
            return []
        with self.guarded():
            row = self.database.execute("SELECT value FROM about WHERE word = ?", (SETTLED,)).fetchone()
            if row and not isinstance(row[0], bytes):
                raise Damaged("a row is none of a run")
            return list(row[0].decode("ascii").splitlines()) if row else []
        return []

    def remember_unchanged(self, lines: Sequence[str]) -> None:
        """Remember that a run found no changes."""
        if self.database and not self.is_dry:
            value = "\n".join(lines).encode("ascii")
            with self.guarded():
                self.database.execute("INSERT OR REPLACE INTO about VALUES (?, ?)", (SETTLED, value))

    def document(self, digest: bytes) -> tuple[bytes, list[Any]] | None:
        """Return the head and the entries of a document that was parsed before, if its row is unchanged."""
        if self.database is None:
            return None
        import json

        with self.guarded():
            row = self.database.execute("SELECT head, entries, seal FROM documents WHERE sha256 = ?",
                                        (digest,)).fetchone()
            if row is not None and row[2] == seal_of(digest, row[0], row[1]):
                self.used.add(digest)
                return row[0], json.loads(row[1])
        return None

    def keep(self, digest: bytes, head: bytes, entries: list[Any]) -> None:
        """Remember the head and the entries of a document."""
        if self.database is None or self.is_dry:
            return
        import json

        written = json.dumps(entries, separators=(",", ":")).encode()
        self.used.add(digest)
        with self.guarded():
            self.database.execute("INSERT OR REPLACE INTO documents VALUES (?, ?, ?, ?)",
                                  (digest, head, written, seal_of(digest, head, written)))

    def close(self) -> None:
        """End the run, and keep its rows, except those of deleted files."""
        if self.database and not self.is_dry:
            with self.guarded():
                self.commit(self.database)
        self.drop(is_damaged=False)

    def commit(self, database: sqlite3.Connection) -> None:
        """Commit the rows of the run."""
        self.rows, self.row = iter(()), None
        digests = [digest for (digest,) in database.execute("SELECT sha256 FROM documents")]
        if self.used:
            database.executemany("DELETE FROM documents WHERE sha256 = ?",
                                 [(digest,) for digest in digests if digest not in self.used])
        database.executemany("DELETE FROM files WHERE name = ?", [(name,) for name in self.stale])
        take_noted(database)
        database.execute("COMMIT")


def seal_of(digest: bytes, head: bytes, entries: bytes) -> bytes:
    """Return a digest that changes if a row of a document does. A row of another form has another seal."""
    return hashlib.sha256(ROW_FORM + digest + hashlib.sha256(head).digest() + entries).digest()
