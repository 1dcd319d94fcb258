"""A disk of a source with many resources, in pages by the rule that commands follow (tests/reading/page_rule.py)."""
import itertools

from tests.reading import disk_parts as parts_of
from tests.reading import page_rule
from tests.reading.disk_formats import BLOCK, laid_out

BODY = b"abc"
# The blocks left for commands.
ROOM = 8192


def blocks(data):
    """Return the number of blocks for some bytes."""
    return (len(data) + BLOCK - 1) // BLOCK


def behind(first, parts):
    """Return the first block of every part, one after the other, and the block after the last part."""
    return list(itertools.accumulate(map(blocks, parts), initial=first))


def name(i):
    """Return the name of the resource of this number."""
    return b"name%05d" % i


def spelled(resources, changes, shared=True):
    """Return the bytes of a disk after puts of `resources` resources of three bytes, by name, and a publication.

    The last `changes` changes are kept, as if no publication dropped them. The published pages are those of the
    catalogue, or copies in other blocks.
    """
    records = [parts_of.record(name(i), BODY, i + 1, 2 + i) for i in range(resources)]
    created = [parts_of.change(1, name(i), i + 1, BODY) for i in range(resources - changes, resources)]
    catalogue = [parts_of.page(1, page) for page in page_rule.cut(records)]
    history = [parts_of.page(2, created[at : at + page_rule.MOST]) for at in range(0, changes, page_rule.MOST)]
    pages = [*catalogue, *history, *([] if shared else catalogue)]
    starts = behind(2 + resources, pages)
    entries = [parts_of.entry(*page) for page in zip(starts, pages)]
    ours, rest = entries[: len(catalogue)], entries[len(catalogue) :]
    theirs, listed = rest[: len(history)], rest[len(history) :]
    last = resources + 1
    directory = parts_of.directory(last, number=1, at=last, lists=(ours, theirs, listed or ours), limit=4000)
    slot = parts_of.slot(1, last, starts[-1], directory)
    bodies = BODY.ljust(BLOCK, b"\0") * resources
    end = starts[-1] + blocks(directory) + ROOM
    return laid_out(end, [(0, slot), (1, b"\0\2"), (2, bodies), *zip(starts, pages), (starts[-1], directory)])
