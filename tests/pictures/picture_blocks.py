"""Draw the blocks of a disk through ten commands: the written, the used and the free blocks after every command.

The built program executes the commands on a real file, and recorded_calls.py records its calls. disk_reader.py reads
the contents of the blocks. A command that overwrites a used block, or damages the contents of a used block, is a fault.
"""
import collections

from tests.crash.recorded_calls import ANSWER, WRITE, Recorder, Unrecorded, replayed
from tests.pictures.svg import EDGE, FILLS, INK, SOFT, Picture
from tests.reading import crash_model, disk_reader
from tests.reading.disk_formats import BLOCK

BASE, BLOCKS, LIMIT = "http://127.0.0.1:8080", 20, 2
CLOCK = 951_782_400_000


def put(name, size):
    """Return the line of a put of this many bytes, and its label."""
    body = (name.encode() * size).hex() or "-"
    return f"put {name} {body} text/plain", f"put {name}, {size:,} bytes"


# The lines of the script with their labels.
LINES = [put("a", 600), put("b", 1500), ("publish", "publish"), put("c", 512), put("a", 100), ("delete b", "delete b")]
LINES += [("publish", "publish"), put("d", 2000), put("a", 0), ("publish", "publish")]
# A part of the disk in consecutive blocks: its kind, its word in the picture, and whether it is also a published page.
Part = collections.namedtuple("Part", "kind word first blocks is_published", defaults=[False])
# A strip of the picture: its label, its parts, the written blocks, the freed blocks, and the slot with the root.
Strip = collections.namedtuple("Strip", "label parts written freed root")


def slots(disk):
    """Return the two slots with their generations, `-` if closed; `*` marks the root."""
    found, root = [], disk_reader.root(disk).directory
    for first in (0, 1):
        slot = disk[first * BLOCK : (first + 1) * BLOCK]
        generation = str(int.from_bytes(slot[2:10], "big")) if slot[0] == 1 else "-"
        fields = disk_reader.Fields(slot[10:54])
        is_root = slot[0] == 1 and fields.entry() == root
        found.append(Part("slot", generation + "*" * is_root, first, 1))
    return found


def parts_of(disk):
    """Return all parts of a disk, in the order of their blocks."""
    source = disk_reader.source_of(disk)
    if why := disk_reader.fault(disk, source):
        raise Unrecorded(why)
    catalogue, published = ([page.entry for page in pages] for pages in (source.catalogue, source.published))
    found = slots(disk) + [Part("dir", "dir", *source.directory[:2])]
    found += [Part("rec", "rec", *entry[:2], entry in published) for entry in catalogue]
    found += [Part("chg", "chg", *page.entry[:2]) for page in source.changes]
    found += [Part("pub", "pub", *entry[:2]) for entry in published if entry not in catalogue]
    bodies = [record for page in source.catalogue for record in page.items if record.blocks]
    found += [Part("body", record.name.decode(), record.first, record.blocks) for record in bodies]
    return sorted(found, key=lambda part: part.first)


def blocks_of(parts):
    """Return the blocks of some parts."""
    return {block for part in parts for block in range(part.first, part.first + part.blocks)}


def commands_of(calls):
    """Return the calls of every answered line."""
    found, begun = [], 0
    for end, call in enumerate(calls):
        if call.kind == ANSWER:
            found.append(calls[begun:end])
            begun = end + 1
    return found


def written_by(calls):
    """Return the blocks that these calls write."""
    writes = [call for call in calls if call.kind == WRITE]
    return {block for call in writes for block in range(call.at // BLOCK, (call.at + len(call.data) - 1) // BLOCK + 1)}


def strip_of(label, before, disk, calls):
    """Return the strip of a disk after these calls; `before` has the parts before them."""
    parts = parts_of(disk)
    root = next(part.first for part in parts if part.word.endswith("*"))
    return Strip(label, parts, written_by(calls), blocks_of(before) - blocks_of(parts), root)


def strips(program, room, changed):
    """Run the program, and return the strips."""
    recorder, state = Recorder(program, room), crash_model.State(BASE, LIMIT)
    formatting = recorder.format(BLOCKS * BLOCK, BASE, LIMIT)
    disk = replayed(b"", formatting)
    lines = [f"at {CLOCK}", *(line for line, _ in LINES)]
    answers, _, _ = crash_model.run(state, lines)
    found = [strip_of("format", [], disk, formatting)]
    for (_, label), calls in zip(LINES, commands_of(recorder.run(disk, lines, answers))[1:], strict=True):
        before, calls = found[-1].parts, changed(disk, calls)
        disk = replayed(disk, calls)
        in_use = {block for block in blocks_of(before) if block > 1 or found[-1].root == block}
        found.append(strip_of(label, before, disk, calls))
        if wrong := in_use & found[-1].written:
            raise Unrecorded(f"{label}: it writes into used blocks {sorted(wrong)}")
    return found


# Positions in the picture.
LEFT, TOP, CELL, TALL, STEP = 196, 96, 31, 28, 42


def draw_part(picture, part, x, y):
    """Draw a part as a box with its word; a page of two lists gets both colours and both words."""
    width, middle = part.blocks * CELL, x + part.blocks * CELL / 2
    picture.box(x, y, width, TALL, FILLS[part.kind], INK)
    if part.is_published:
        picture.box(x + 0.5, y + TALL / 2, width - 1, TALL / 2 - 0.5, FILLS["pub"])
        picture.text(middle, y + 11, "rec", 10, "middle", True)
        picture.text(middle, y + 24, "pub", 10, "middle", True)
    else:
        picture.text(middle, y + 18, part.word, 11, "middle", True)
    for end in range(1, part.blocks):
        picture.line(x + end * CELL, y + TALL - 4, x + end * CELL, y + TALL, INK)


def draw_cross(picture, x, y):
    """Draw the mark of a freed block."""
    picture.line(x + 9, y + 8, x + CELL - 9, y + TALL - 7)
    picture.line(x + 9, y + TALL - 7, x + CELL - 9, y + 8)


def draw_strip(picture, strip, number, y):
    """Draw a strip, its label on the left, and the number of free blocks on the right."""
    picture.text(30, y + 18, str(number), 12, "end", fill=SOFT)
    picture.text(40, y + 18, strip.label, 13)
    used = blocks_of(strip.parts)
    for block in range(BLOCKS):
        if block not in used:
            picture.box(LEFT + block * CELL, y, CELL, TALL, FILLS["free"], EDGE)
        if block in strip.freed:
            draw_cross(picture, LEFT + block * CELL, y)
    for part in strip.parts:
        draw_part(picture, part, LEFT + part.first * CELL, y)
    for block in sorted(strip.written):
        picture.box(LEFT + block * CELL + 2, y + TALL + 2, CELL - 4, 4, INK)
    picture.text(LEFT + BLOCKS * CELL + 10, y + 18, f"{BLOCKS - len(used)} free", 12, fill=SOFT)


# The legend: column, row, sample part, and meaning.
LEGEND = [(0, 0, Part("slot", "3*", 0, 1), "a slot: generation, * root, - closed")]
LEGEND += [(0, 1, Part("dir", "dir", 0, 1), "directory"), (0, 2, Part("body", "a", 0, 1), "a body, by its name")]
LEGEND += [(1, 0, Part("rec", "rec", 0, 1), "page of records"), (1, 1, Part("chg", "chg", 0, 1), "page of changes")]
LEGEND += [(2, 0, Part("pub", "pub", 0, 1), "published page"), (2, 1, Part("rec", "rec", 0, 1, True), "both at once")]
LEGEND += [(1, 2, None, "free")]
COLUMNS = (40, 320, 500, 690)


def draw_legend(picture, y):
    """Draw the legend of colours and marks."""
    for column, row, part, meaning in LEGEND:
        x, below = COLUMNS[column], y + row * 34
        picture.box(x, below, CELL, TALL, FILLS["free"], EDGE)
        if part:
            draw_part(picture, part, x, below)
        picture.text(x + CELL + 8, below + 18, meaning, 12)
    picture.box(COLUMNS[3] + 2, y + 12, CELL - 4, 4, INK)
    picture.text(COLUMNS[3] + CELL + 8, y + 18, "written by the command", 12)
    draw_cross(picture, COLUMNS[3], y + 34)
    picture.text(COLUMNS[3] + CELL + 8, y + 52, "given back by it", 12)


def as_recorded(disk, calls):
    """Return the calls unchanged."""
    return calls


def draw(program, room, changed=as_recorded):
    """Return the picture of the recorded calls, or of changed ones, command by command."""
    found = strips(program, room, changed)
    height = TOP + len(found) * STEP + 122
    commands = "; ".join(f"{strip.label}: writes blocks {', '.join(map(str, sorted(strip.written)))}"
                         for strip in found[1:])
    description = (f"One strip of {BLOCKS} blocks for a new disk and for the disk after each of ten commands. "
                   f"{commands}. "
                   "But for the slots, each block that a command writes was free before it.")
    picture = Picture(900, height, "The blocks of a disk through ten commands", description)
    picture.text(40, 34, "The blocks of a disk through ten commands", 17, font_weight="bold")
    picture.text(40, 56, f"{BLOCKS} blocks of 512 bytes, as the program left them. But for the slots 0 and 1, "
                         "a command writes into free blocks alone,", 12, fill=SOFT)
    picture.text(40, 72, "and what the old root reaches is given back only when the new root stands.", 12, fill=SOFT)
    for block in range(BLOCKS):
        picture.text(LEFT + block * CELL + CELL / 2, TOP - 4, str(block), 10, "middle", True, SOFT)
    for number, strip in enumerate(found):
        draw_strip(picture, strip, number or "", TOP + number * STEP)
    draw_legend(picture, TOP + len(found) * STEP + 8)
    return picture
