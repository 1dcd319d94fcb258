"""Resource Dumps and Change Dumps of any source: ZIPs with a manifest.xml that names the resources of the files
(ANSI/NISO Z39.99-2017, sections 11 and 13).

A dump supplies bodies that fit the lists. A path of an archive is never a path of the folder. One archive is open at a
time, in a file of TMPDIR without a name, with limits on its bytes, its files, and its unpacked bytes.
"""
from __future__ import annotations

import contextlib
import struct
import tempfile
import zipfile
import zlib
from collections.abc import Container, Iterator
from typing import IO

from ropepeach.faults import Fault, Long, Unusable
from ropepeach.http.coding import UNPACKED_PIECE
from ropepeach.resync.addresses import Address, address_in, encoded, joined, source_at
from ropepeach.resync.asking import LONGEST_RESOURCE, Asking, DamagedDump
from ropepeach.resync.discovery import CHANGE_DUMP, CHANGE_MANIFEST, DUMP
from ropepeach.resync.facts import Facts, algorithms_of, any_facts, has_length, kind_of, length_of
from ropepeach.resync.lenient import (
    LatestChanges, Reading, check_start, dated_entries, document_moment, earliest, is_over)
from ropepeach.resync.lists import Entry
from ropepeach.resync.moments import Moment
from ropepeach.resync.places import place_of
from ropepeach.resync.sitemaps import LONGEST_UNPACKED, Document, Listed, document_in

MANIFEST = "manifest.xml"
# The longest archive, the longest directory of one, and the most unpacked bytes.
LONGEST_ARCHIVE, LONGEST_DIRECTORY, MOST_UNPACKED = LONGEST_RESOURCE, 8 << 20, 8 << 30
# The most bytes of archives that are kept for their second reading; others are fetched again.
MOST_KEPT = 64 << 20
# The end of an archive: its mark, its bytes, and the mark of a longer form before it.
END, END_SIZE, LONG_END, LONG_END_SIZE = b"PK\5\6", 22, b"PK\6\7", 20
KINDS, ENCRYPTED = (zipfile.ZIP_STORED, zipfile.ZIP_DEFLATED), 1
# The exceptions of the library for a malformed archive.
UNREADABLE = (zipfile.BadZipFile, zlib.error, struct.error, NotImplementedError, RuntimeError, EOFError, OSError,
              ValueError, LookupError, OverflowError, UnicodeError)


class Unread(Fault):
    """A dump, or an archive of one, is unusable."""


class Archive:
    """An archive of a dump, and its manifest."""

    def __init__(self, address: str, file: zipfile.ZipFile) -> None:
        self.address, self.file, self.unpacked = address, file, 0

    def pieces(self, path: str, limit: int) -> Iterator[bytes]:
        """Yield the bytes of a file, at most one more than the limit. Raise DamagedDump if it cannot be unpacked."""
        size = 0
        try:
            found = self.file.getinfo(path)
            if found.compress_type not in KINDS or found.flag_bits & ENCRYPTED:
                raise DamagedDump(f"{self.address}: packs {path[:100]} in a form that is not read")
            with self.file.open(found) as file:
                while size <= limit and (piece := file.read(min(UNPACKED_PIECE, limit + 1 - size))):
                    size += len(piece)
                    self.unpacked += len(piece)
                    if self.unpacked > MOST_UNPACKED:
                        raise Unread(f"{self.address}: refused, as more than {MOST_UNPACKED:,} bytes come out of it")
                    yield piece
        except UNREADABLE as fault:
            raise DamagedDump(f"{self.address}: {type(fault).__name__}") from None

    def manifest(self) -> Document:
        """Return the manifest of the archive. Raise Unread if it is unreadable."""
        try:
            text = b"".join(self.pieces(MANIFEST, LONGEST_UNPACKED))
        except DamagedDump:
            text = b""
        if not text or len(text) > LONGEST_UNPACKED:
            raise Unread(f"{self.address}: refused, as it has no {MANIFEST} of {LONGEST_UNPACKED:,} bytes at most")
        found = document_in(self.address, text)
        if not found.capability.endswith("dump-manifest") or found.is_index:
            raise Unread(f"{self.address}: refused, as its {MANIFEST} is none of a dump")
        return found

    def files(self, names: Container[str]) -> Iterator[tuple[str, str, str]]:
        """Yield the last files of the archive for these names: the name, the path in it, and the media type."""
        found = dict[str, tuple[str, str, str]]()
        for listed in self.manifest().entries:
            text = listed.loc.strip()
            address = address_in(text) or encoded(source_at(self.address), text)
            name = "" if address is None else place_of(address)
            if name in names and "path" in listed.attributes:
                found[name] = name, listed.attributes["path"].lstrip("/"), kind_of(any_facts(listed.attributes))
        yield from found.values()


def opened(address: str, file: IO[bytes]) -> Archive:
    """Open an archive. Raise Unread if it is no plain ZIP, or its directory is too long."""
    size = file.seek(0, 2)
    file.seek(max(0, size - END_SIZE - LONG_END_SIZE))
    end = file.read()
    if end[-END_SIZE:-END_SIZE + 4] != END or end[-2:] != b"\0\0" or end[:4] == LONG_END:
        raise Unread(f"{address}: refused, as it is no plain ZIP")
    if int.from_bytes(end[-10:-6], "little") > LONGEST_DIRECTORY:
        raise Unread(f"{address}: refused, as its directory has more than {LONGEST_DIRECTORY:,} bytes")
    try:
        return Archive(address, zipfile.ZipFile(file))
    except UNREADABLE as fault:
        raise Unread(f"{address}: refused, as it is no ZIP: {type(fault).__name__}") from None


class Dumps:
    """The dumps of a source, one archive at a time."""

    def __init__(self, asking: Asking) -> None:
        self.asking = asking
        # The kept archives by their addresses, and their bytes.
        self.files, self.kept = dict[str, IO[bytes]](), 0

    def of(self, address: str, since: Moment | None) -> Iterator[Archive]:
        """Yield the archives of a dump; of a Change Dump those that may have changes since a moment, or at it, the
        newest first.

        The next step closes an archive.
        """
        head = self.asking.document(address)
        if head.capability not in (DUMP, CHANGE_DUMP):
            raise Unread(f"{address}: refused, as it is a {head.capability or 'sitemap'}, and no dump")
        parts = [head]
        if head.is_index:
            reading = Reading(self.asking)
            parts = [reading.part(head, part, None) for part in head.entries if is_wanted(address, part, since)]
        step = -1 if head.capability == CHANGE_DUMP else 1
        for document in parts[::step]:
            for listed in document.entries[::step]:
                if is_wanted(address, listed, since):
                    with self.archive(document, listed) as archive:
                        yield archive

    @contextlib.contextmanager
    def archive(self, document: Document, listed: Listed) -> Iterator[Archive]:
        """Open the archive that an entry of a dump names, if it is as the entry says."""
        address = joined(source_at(document.address), listed.loc)
        if address is None or not self.asking.hosts.allow(address):
            raise Unread(f"{listed.loc[:300]}: refused, as it is no address of an allowed host")
        name = str(address)
        file = self.files.get(name) or self.fetched(address, any_facts(listed.attributes))
        try:
            archive = opened(name, file)
            with archive.file:
                yield archive
        finally:
            size = file.seek(0, 2)
            if name not in self.files and self.kept + size <= MOST_KEPT:
                self.files[name], self.kept = file, self.kept + size
            elif name not in self.files:
                file.close()

    def fetched(self, address: Address, facts: Facts) -> IO[bytes]:
        """Fetch an archive to a file."""
        limit = min(LONGEST_ARCHIVE, length_of(facts)) if has_length(facts) else LONGEST_ARCHIVE
        try:
            file = tempfile.TemporaryFile()
            measure = self.asking.download(address, limit, file, algorithms_of(facts))
            file.flush()
        except Long as why:
            raise Unread(str(why)) from None
        except OSError as fault:
            raise Unusable(f"{tempfile.gettempdir()}: cannot hold the archive {address}: {fault.strerror} (set TMPDIR "
                           "to another folder)") from None
        if not measure.fits(facts):
            raise Unread(f"{address}: has other bytes than listed")
        return file

    def resources(self, address: str, reading: Reading) -> tuple[Moment | None, dict[str, Entry]]:
        """Return the earliest `at` of a Resource Dump and its manifests, and the entries by name."""
        documents, entries = [self.asking.document(address)], dict[str, Entry]()
        for archive in self.of(address, None):
            manifest = archive.manifest()
            documents.append(manifest)
            for listed in manifest.entries:
                entry = reading.entry(manifest, listed)
                if entry is not None:
                    reading.keep(archive.address, entry, entries)
        moments = [document_moment(document.address, document.attributes.get("at")) for document in documents]
        return earliest(moments), entries


    def changes(self, address: str, since: Moment, reading: Reading) -> LatestChanges:
        """Return the changes of a Change Dump that may be after a moment, or at it."""
        read = list[Entry]()
        for archive in self.of(address, since):
            manifest = archive.manifest()
            if manifest.capability != CHANGE_MANIFEST:
                raise Unread(f"{archive.address}: refused, as its {MANIFEST} is none of a Change Dump")
            read += [entry for listed in manifest.entries if (entry := reading.entry(manifest, listed)) is not None]
        dated = dated_entries(read)
        start = document_moment(address, self.asking.document(address).attributes.get("from"))
        check_start(address, start, [moment for moment, _ in dated], since, False)
        return reading.latest(dated, since, [start])


def is_wanted(address: str, listed: Listed, since: Moment | None) -> bool:
    """Return whether an archive, or a part of an index, may have changes since a moment, or at it."""
    return since is None or not is_over(address, listed, since)
