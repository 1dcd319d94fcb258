"""Bodies with a Content-Encoding: gzip or deflate (RFC 9110, section 8.4.1), although `identity` was requested."""
from __future__ import annotations

import zlib
from collections.abc import Iterator

from ropepeach.http.response import Response

# The codings that are unpacked, and the first bytes of each packed form: of zlib, the method and the window.
CODINGS = {"gzip": b"\x1f", "x-gzip": b"\x1f", "deflate": b"\x78"}
# The most members of gzip in a body or a document, and the bytes that are unpacked at once.
MOST_MEMBERS, UNPACKED_PIECE = 10_000, 1 << 20


def coding_of(response: Response) -> str:
    """Return the Content-Encoding of a body, or an empty text without one."""
    coding = response.fields.get("Content-Encoding").strip().lower()
    return "" if coding == "identity" else coding


class Decoder:
    """Unpacks a body piece by piece."""

    def __init__(self, coding: str) -> None:
        self.front, self.members = CODINGS[coding], 0
        self.packed = zlib.decompressobj(zlib.MAX_WBITS | 32)

    def pieces(self, piece: bytes) -> Iterator[bytes]:
        """Yield the unpacked bytes of the next piece. Raise zlib.error if it cannot be unpacked."""
        while piece:
            if self.packed.eof:
                self.members += 1
                if self.members >= MOST_MEMBERS:
                    raise zlib.error(f"more than {MOST_MEMBERS:,} members")
                self.packed = zlib.decompressobj(zlib.MAX_WBITS | 32)
            yield self.packed.decompress(piece, UNPACKED_PIECE)
            piece = self.packed.unconsumed_tail or self.packed.unused_data

    def rest(self) -> bytes:
        """Return the last unpacked bytes. Raise zlib.error if the packed bytes have no end."""
        rest = self.packed.flush()
        if not self.packed.eof:
            raise zlib.error("its packed bytes have no end")
        return rest
