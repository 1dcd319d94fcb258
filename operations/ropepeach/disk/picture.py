"""Draw the blocks of a source's file as SVG 1.1: used blocks by kind, and free blocks."""
from __future__ import annotations

import itertools
from collections.abc import Iterator, Mapping, Sequence
from xml.sax.saxutils import escape, quoteattr

from ropepeach.disk.formats import USES, Extent

INK, PAPER, EDGE = "#1d1d1f", "#fdfcf8", "#b9b7b0"
# The colours of the kinds, and their names in the legend. Free blocks stay white.
FILLS = {"slots": "#86868c", "directory": "#f2cc6b", "records": "#93bfe0", "changes": "#c2aee0",
         "published": "#a3d6a9", "bodies": "#f2ad96"}
LEGEND = {"slots": "the two slots", "directory": "directory", "records": "records of what is held",
         "changes": "changes",
         "published": "published records that are not held so", "bodies": "bodies", "free": "free"}
# A map has at most this many rows; up to a number of blocks a row has this many cells.
MAP_ROWS, MAP_COLUMNS, MOST_MAP_COLUMNS = 64, ((256, 16), (1_024, 32), (4_096, 64)), 128
LEFT, TOP, WIDTH, HEIGHT, LINE = 48, 92, 1_024, 14, 22


def written(value: float | str) -> str:
    """Return the value of an attribute: a number has two decimal places at most."""
    return f"{value:.2f}".rstrip("0").rstrip(".") if isinstance(value, float) else str(value)


def element(name: str, **pairs: float | str) -> str:
    """Return an element of SVG without content."""
    attributes = "".join(f" {key.replace('_', '-')}={quoteattr(written(value))}" for key, value in pairs.items())
    return f"<{name}{attributes}/>"


def text(x: int, y: int, words: str, size: int = 14) -> str:
    """Return a line of text."""
    return f'<text x="{x}" y="{y}" font-size="{size}">{escape(words)}</text>'


def shape(total: int) -> tuple[int, int]:
    """Return the cells of a row, and the blocks of a cell."""
    columns = next((count for limit, count in MAP_COLUMNS if total <= limit), MOST_MAP_COLUMNS)
    return columns, max(1, -(-total // (columns * MAP_ROWS)))


def cells_of(extents: Sequence[Extent], total: int, each: int) -> list[list[int]]:
    """Return the numbers of blocks by kind, for every cell."""
    cells = [[0] * len(USES) for _ in range(-(-total // each))]
    for extent in extents:
        at, end = extent.first, extent.first + extent.blocks
        while at < end:
            part = min(end, (at // each + 1) * each) - at
            cells[at // each][USES.index(extent.kind)] += part
            at += part
    return cells


def row(cells: Sequence[list[int]], columns: int, each: int, y: int) -> Iterator[str]:
    """Yield the boxes of a row of cells. Equal neighbours share a box. A cell stacks the kinds by their shares."""
    width, x = WIDTH / columns, float(LEFT)
    for counts, alike in itertools.groupby(cells):
        run = len(list(alike)) * width
        top = float(y + HEIGHT)
        for kind, count in zip(USES, counts):
            if count:
                height = HEIGHT * count / each
                top -= height
                yield element("rect", x=x, y=top, width=run, height=height, fill=FILLS[kind])
        x += run


def legend(counts: Mapping[str, int], total: int, y: int) -> Iterator[str]:
    """Yield a line for every kind: its colour, its name, its blocks and its share."""
    for number, (kind, count) in enumerate(counts.items()):
        at = y + number * LINE
        yield element("rect", x=LEFT, y=at - 12, width=16, height=HEIGHT, fill=FILLS.get(kind, "#ffffff"), stroke=EDGE)
        share = f"{count / total:.1%}" if count == 0 or count * 1_000 >= total else "under 0.1%"
        yield text(LEFT + 26, at, f"{LEGEND[kind]}: {count:,} of {total:,} blocks, {share}")


def drawn(title: str, extents: Sequence[Extent], total: int, longest: int) -> str:
    """Return the picture of this many blocks."""
    columns, each = shape(total)
    cells = cells_of(extents, total, each)
    counts = {kind: sum(extent.blocks for extent in extents if extent.kind == kind) for kind in USES}
    counts["free"] = total - sum(counts.values())
    rows = [cells[at : at + columns] for at in range(0, len(cells), columns)]
    height = TOP + len(rows) * (HEIGHT + 2) + LINE * (len(counts) + 2)
    facts = f"{total:,} blocks of 512 bytes, {total - counts['free']:,} used; the longest free run has {longest:,}"
    parts = [element("rect", x=0.5, y=0.5, width=WIDTH + 2 * LEFT - 1, height=height - 1, fill=PAPER,
                     stroke=EDGE, rx=6),
             text(LEFT, 36, title, 20), text(LEFT, 60, facts),
             text(LEFT, 80, f"A cell is {'a block' if each == 1 else f'{each:,} blocks'}, from the left to "
                            f"the right and down; white is free.", 12)]
    for number, cells_of_row in enumerate(rows):
        y = TOP + number * (HEIGHT + 2)
        # (the last row may have fewer cells, and its last cell fewer blocks)
        blocks = min(total - number * columns * each, columns * each)
        width = blocks / each * WIDTH / columns
        parts.append(element("rect", x=LEFT, y=y, width=width, height=HEIGHT, fill="#ffffff", stroke=EDGE,
                             stroke_width=0.5))
        parts += row(cells_of_row, columns, each, y)
    parts += legend(counts, total, TOP + len(rows) * (HEIGHT + 2) + LINE)
    size = f'width="{WIDTH + 2 * LEFT}" height="{height}" viewBox="0 0 {WIDTH + 2 * LEFT} {height}"'
    head = f'<svg xmlns="http://www.w3.org/2000/svg" version="1.1" {size} font-family="sans-serif" fill="{INK}">'
    names = [f"<title>{escape(title)}</title>", f"<desc>{escape(facts)}</desc>"]
    return "\n".join(['<?xml version="1.0" encoding="UTF-8"?>', head, *names, *parts, "</svg>\n"])
