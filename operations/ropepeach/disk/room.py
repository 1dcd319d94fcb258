"""The free blocks of a source's file, and how many more puts fit (docs/DISK.md, "What a command does on the disk")."""
from __future__ import annotations

from collections.abc import Collection, Sequence
from typing import Any, NamedTuple

from ropepeach.disk.formats import MOST_ITEMS, Extent, Image, Page, Reference, items_of
from ropepeach.disk.formula import blocks_of

# A touched page of more records than MOST is cut from its front into pages of CUT; a page of changes has MOST at most.
MOST, CUT = 64, 32
# The bytes of a page, a directory, an entry, a record and a change without their texts.
PAGE_BYTES, DIRECTORY_BYTES, ENTRY_BYTES, RECORD_BYTES, CHANGE_BYTES = 5, 63, 44, 70, 63


class BlockRun(NamedTuple):
    """A run of blocks."""

    first: int
    blocks: int


def free_runs(extents: Sequence[Extent], total: int) -> list[BlockRun]:
    """Return the runs of free blocks."""
    behind, runs = 0, []
    for extent in extents:
        if extent.first > behind:
            runs.append(BlockRun(behind, extent.first - behind))
        behind = extent.first + extent.blocks
    return runs + ([BlockRun(behind, total - behind)] if total > behind else [])


class Blocks:
    """The free blocks. An allocation gets the lowest free run of its length.

    No run of a length is free before the block that `lowest` has for this length.
    """

    def __init__(self, extents: Sequence[Extent], total: int) -> None:
        self.used, self.lowest = bytearray(total), dict[int, int]()
        for extent in extents:
            self.used[extent.first : extent.first + extent.blocks] = bytes([1]) * extent.blocks

    def taken(self, count: int) -> int | None:
        """Allocate a run; return its first block, or None if no run is free."""
        if not count:
            return 0
        at = self.used.find(bytes(count), self.lowest.get(count, 0))
        self.lowest[count] = len(self.used) if at < 0 else at
        if at < 0:
            return None
        self.used[at : at + count] = bytes([1]) * count
        return at

    def given_back(self, first: int, count: int) -> None:
        """Free blocks: a run that contains them may be the lowest of its length."""
        self.used[first : first + count] = bytes(count)
        begin = self.used.rfind(1, 0, first) + 1
        end = self.used.find(1, first + count)
        length = (end if end >= 0 else len(self.used)) - begin
        for wanted, at in self.lowest.items():
            if wanted <= length and begin < at:
                self.lowest[wanted] = begin


class LastPage(NamedTuple):
    """The sizes of the items of a list's last page, and its blocks: None if another list shares the page."""

    sizes: list[int]
    run: BlockRun | None


class Puts:
    """Puts of new names, one after another, greater than all names before."""

    def __init__(self, source: Image, name: int, kind: int) -> None:
        """`name` and `kind` are the lengths of the names and of the media types."""
        self.blocks = Blocks(source.extents, source.blocks)
        self.record, self.change = RECORD_BYTES + name + kind, CHANGE_BYTES + name + kind
        self.published = {page.entry for page in source.published}
        self.listed, self.base = len(source.published), len(source.header.base)
        # The last pages of the lists, which a put may change: the sizes of their items, and their blocks.
        self.records = last_page(source.catalogue, self.published)
        self.changes = last_page(source.changes, ())
        self.pages = [len(source.catalogue), len(source.changes)]
        self.directory = BlockRun(source.root.directory.first, source.root.directory.blocks)
        self.resource_count, self.change_count = len(items_of(source.catalogue)), len(items_of(source.changes))

    def refusal(self, size: int) -> str | None:
        """Do one more put of this many bytes; return the word of its refusal, or None."""
        if self.resource_count >= MOST_ITEMS:
            return "TooManyResources"
        if self.change_count >= MOST_ITEMS:
            return "TooManyChanges"
        if self.blocks.taken(blocks_of(size)) is None:
            return "Full"
        freed = [self.directory, self.records.run]
        if len(self.changes.sizes) < MOST:
            freed.append(self.changes.run)
        records, changes = self.touched()
        places = [self.placed(PAGE_BYTES + sum(sizes)) for sizes in (*records, changes)]
        directory = self.placed(DIRECTORY_BYTES + self.base + ENTRY_BYTES * (sum(self.pages) + self.listed))
        if directory is None or None in places:
            return "Full"
        self.records, self.changes = LastPage(records[-1], places[-2]), LastPage(changes, places[-1])
        self.directory = directory
        for run in filter(None, freed):
            self.blocks.given_back(run.first, run.blocks)
        self.resource_count, self.change_count = self.resource_count + 1, self.change_count + 1
        return None

    def touched(self) -> tuple[list[list[int]], list[int]]:
        """Return the sizes of the items of the pages that a put writes: pages of records, and the page of changes."""
        sizes, records = [*self.records.sizes, self.record], []
        while len(sizes) > MOST:
            records.append(sizes[:CUT])
            sizes = sizes[CUT:]
        records.append(sizes)
        self.pages[0] += len(records) - (1 if self.records.sizes else 0)
        is_new = not 0 < len(self.changes.sizes) < MOST
        self.pages[1] += is_new
        return records, [self.change] if is_new else [*self.changes.sizes, self.change]

    def placed(self, length: int) -> BlockRun | None:
        """Allocate the blocks of this many bytes; return None without room."""
        first = self.blocks.taken(blocks_of(length))
        return None if first is None else BlockRun(first, blocks_of(length))


def last_page(pages: Sequence[Page[Any]], others: Collection[Reference]) -> LastPage:
    """Return the last page of a list. Its blocks are not freed while another list has the page too."""
    if not pages:
        return LastPage([], None)
    entry = pages[-1].entry
    return LastPage([item.size for item in pages[-1].items],
                    None if entry in others else BlockRun(entry.first, entry.blocks))


def puts_that_fit(source: Image, size: int, name: int, kind: int) -> tuple[int, str]:
    """Return how many puts of this many bytes fit, and the word by which the next one is refused."""
    puts, count = Puts(source, name, kind), 0
    while (word := puts.refusal(size)) is None:
        count += 1
    return count, word
