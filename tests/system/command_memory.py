"""Limits of the bytes that a line of a script or a request may allocate, as constants independent of the tested
program.

A command copies the lists of pages and the pages that it changes, and serializes these pages and the directory. A
buffer that doubles keeps a line longer than one read. The constants were measured on the built program, and have a
margin.
"""
from dataclasses import dataclass

from tests.system import opening_memory

# The bytes of a line without effect, of a command with the pages that it changes, and of a group's further items.
LOOKED, COMMANDED, FURTHER = 256, 47_000, 44_000
# The bytes per page of the lists: its entries, copied, allocated and freed.
OF_PAGE, OF_PAGE_FURTHER = 660, 400
# The bytes of a connection, in addition to those of a run without a script.
CONNECTED = 34_000
# The program keeps lines of at least this length.
KEPT = 9


@dataclass(frozen=True)
class Asking:
    """The demand of a line: its text, the number of its items if it is a command, and the length of the shown body."""

    text: bytes
    items: int = 0
    shown: int = 0


def doubled(length: int) -> int:
    """Return all bytes allocated by a buffer that doubles up to this length."""
    return 2 * max(1 << length.bit_length(), 8) if length >= KEPT else 0


def allowed(line: Asking, disk: bytes) -> int:
    """Return the limit of the bytes that a line may allocate on this disk."""
    pages = sum(map(len, opening_memory.lists_of(disk)[1]))
    # The bodies of the items take half of the bytes of their lines.
    texts = sum(doubled(len(text)) + len(text) // 2 for text in line.text.splitlines()) + line.shown + LOOKED
    if not line.items:
        return texts
    further = line.items - 1
    return texts + COMMANDED + OF_PAGE * pages + further * (FURTHER + OF_PAGE_FURTHER * pages)
