"""Bodies that a run fetches. A body streams to a file in `#incoming` and moves to its place if it fits its entry."""
from __future__ import annotations

import os
import re
import zlib
from collections.abc import Sequence

from ropepeach.faults import Fault, Long
from ropepeach.http.coding import CODINGS, Decoder, coding_of
from ropepeach.http.response import Response, error_text
from ropepeach.http.transfers import Result, Transfer
from ropepeach.mirror.catalogue import Row
from ropepeach.mirror.folder import Folder
from ropepeach.resync.asking import LONGEST_RESOURCE, NOT_MODIFIED, Redirects
from ropepeach.resync.facts import Facts, Measure, algorithms_for, has_digest, has_length, length_of
from ropepeach.resync.lists import Entry, Unheld

# The forms of an `ETag` and a `Last-Modified` that later requests send back to the source (RFC 9110).
TAG = re.compile(r'(?:W/)?"[!#-~]{0,200}"')
LAST_MODIFIED = re.compile(r"[A-Z][a-z]{2}, [0-9]{2} [A-Z][a-z]{2} [0-9]{4} [0-9]{2}:[0-9]{2}:[0-9]{2} GMT")


class Fetch(Transfer):
    """The transfer of a body to a file in `#incoming`, with its length and digests.

    `known` is the row of a file that may still be current: the request is conditional then. Redirects are followed only
    if there is a policy for them.
    """

    path, file = "", -1
    # The measure of a coded body as it is sent, while its file gets the unpacked bytes.
    coded: Measure | None = None
    decoder: Decoder | None = None

    def __init__(self, url: str, entry: Entry, folder: Folder, redirects: Redirects | None = None,
                 known: Row | None = None) -> None:
        # The body must fit one of these facts.
        self.choices = entry.choices
        self.entry, self.folder, self.redirects, self.known = entry, folder, redirects, known
        super().__init__(url, longest_of(self.choices), conditions_of(known))

    def begin(self, response: Response | None = None) -> None:
        """Begin with an empty file."""
        self.drop()
        self.path, self.file = self.folder.incoming_file()
        self.measure, self.coded, self.decoder = Measure(algorithms_for(self.choices)), None, None
        coding = coding_of(response) if response is not None and self.redirects is not None else ""
        if coding in CODINGS:
            self.coded, self.decoder = Measure(algorithms_for(self.choices)), Decoder(coding)
        elif coding and not all(map(has_digest, self.choices)):
            raise Unheld(f"{self.url}: refused, as its Content-Encoding is {coding[:100]!r}: gzip and deflate are read")

    def longest(self, response: Response) -> int:
        """Return the most bytes of a body; a packed form of few bytes is longer than they are."""
        return self.limit + (self.limit // 1_000 + 1_024 if self.redirects is not None and coding_of(response) else 0)

    def take(self, piece: bytes) -> None:
        """Take the next piece of the body."""
        if self.coded is None or self.decoder is None:
            self.write(piece)
            return
        if not self.coded.size and not piece.startswith(self.decoder.front):
            # (it only claims to be packed)
            self.coded = None
            self.write(piece)
            return
        self.coded.take(piece)
        try:
            for unpacked in self.decoder.pieces(piece):
                self.write(unpacked)
                if self.measure.size > LONGEST_RESOURCE:
                    raise Unheld(f"{self.url}: refused, as it unpacks to more than {LONGEST_RESOURCE:,} bytes")
        except zlib.error as fault:
            raise Unheld(f"{self.url}: can't be unpacked: {fault}") from None

    def write(self, piece: bytes) -> None:
        """Write bytes to the file."""
        self.measure.take(piece)
        while piece:
            piece = piece[os.write(self.file, piece):]

    def end(self) -> None:
        """Write the last unpacked bytes of a coded body."""
        if self.coded is not None and self.coded.size and self.decoder is not None:
            try:
                self.write(self.decoder.rest())
            except zlib.error as fault:
                raise Unheld(f"{self.url}: can't be unpacked: {fault}") from None

    def fits(self) -> bool:
        """Return whether the body fits its entry."""
        return any(map(self.measure.fits, self.choices)) or self.is_listed_coded()

    def is_listed_coded(self) -> bool:
        """Return whether the entry has the length and the digests of the coded body, and not of the unpacked one."""
        return (self.coded is not None and any(map(self.coded.fits, self.choices))
                and not any(map(self.measure.fits, self.choices)))

    def keep(self) -> None:
        """Give the resource this body."""
        os.close(self.file)
        self.file = -1
        self.folder.take(self.path, self.entry.name, self.measure.size)

    def drop(self) -> None:
        """Remove the file, if there is one."""
        if self.file >= 0:
            os.close(self.file)
            self.file = -1
            self.folder.drop(self.path)

    def redirect(self, response: Response) -> str | None:
        """Return the URL to follow. Raise Unheld if it is not allowed."""
        target = self.redirects.follow(response) if self.redirects else None
        return None if target is None else str(target)

    def outcome(self, result: Result) -> Response | None:
        """Return the response that brought the body, or None if the source has no newer one.

        Raise Unheld if the source has no body or other bytes than listed, and another Fault if the source does not
        respond.
        """
        try:
            return self.checked(result)
        except Fault:
            self.drop()
            raise

    def checked(self, result: Result) -> Response | None:
        """Return the response, or None; raise its fault."""
        if isinstance(result, Long):
            has_limit = self.entry.facts is not None and has_length(self.entry.facts)
            raise Unheld(f"{result}: it is listed with fewer" if has_limit
                         else f"{result}, the limit without a listed length")
        if isinstance(result, Fault):
            raise result
        if result.status == NOT_MODIFIED and self.fields:
            return None
        if self.redirects:
            self.redirects.checked(result)
        elif result.status != 200:
            raise Unheld(f"{self.url}: {error_text(result)}")
        self.end()
        if not self.fits():
            raise Unheld(f"{self.url}: has other bytes than listed")
        return result


def longest_of(choices: Sequence[Facts]) -> int:
    """Return the bytes of the longest body that may fit one of some facts."""
    return max([length_of(facts) if has_length(facts) else LONGEST_RESOURCE for facts in choices])


def conditions_of(known: Row | None) -> dict[str, str]:
    """Return the fields of a conditional request, if the row of a file allows one."""
    if known and TAG.fullmatch(known.tag):
        return {"If-None-Match": known.tag}
    return {"If-Modified-Since": known.last} if known and LAST_MODIFIED.fullmatch(known.last) else {}


def field_of(response: Response, name: str, form: re.Pattern[str]) -> str:
    """Return a field of a response, or an empty text if it has another form."""
    text = response.fields.get(name)
    return text if form.fullmatch(text) else ""
