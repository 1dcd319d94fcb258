"""Draw the ten calls of a put, and the states that open from images of a crash within them.

The calls are those that the built program makes on a real file for the second put of docs/CRASH.md (recorded_calls.py).
An image gives every unsettled block its old bytes, its new bytes or filler, in all combinations; the gate has any byte
if it alone is in question. disk_reader.py reads the images. An image with a state other than those before and after the
put is a fault.
"""
import collections
import itertools

from tests.crash import crash_images
from tests.crash.recorded_calls import SYNC, Recorder, Unrecorded, over, replayed
from tests.pictures.picture_blocks import blocks_of, commands_of, parts_of, written_by
from tests.pictures.svg import EDGE, FILLS, INK, SOFT, Picture
from tests.reading import crash_model, disk_reader
from tests.reading.disk_formats import BLOCK

BASE, BLOCKS, LIMIT = "http://127.0.0.1:8080", 16, 2
LINES = ["at 951782400000", "put a 68656c6c6f text/plain", "put b " + "77" * 600 + " text/plain"]
# Bytes that no call wrote, and a generation above all others.
FILLER, GREATEST = b"\xa5", b"\x01" + b"\xff" * 8
# A row of the picture: the label of the call, the blocks that it writes, the places in question, the settled
# generations of the slots, and the numbers of images with the old and the new state.
Row = collections.namedtuple("Row", "label written places generations old new")


def pieces(places):
    """Return the places in question as runs within one block; the gate of a slot is its own run."""
    found = []
    for at in places:
        is_next = found and found[-1][-1] == at - 1 and at % BLOCK != 0 and found[-1][-1] not in (0, BLOCK)
        if is_next:
            found[-1].append(at)
        else:
            found.append([at])
    return found


def choices(piece, settled, latest, is_alone):
    """Return the bytes that a crash may leave in a run of places."""
    first, count = piece[0], len(piece)
    if first in (0, BLOCK) and count == 1:
        few = {settled[first : first + 1], b"\0", b"\1", FILLER}
        return [bytes([byte]) for byte in range(256)] if is_alone else sorted(few)
    found = [settled[first : first + count], latest[first : first + count], FILLER * count]
    is_slot = first in (1, BLOCK + 1)
    return found + [GREATEST + latest[first + 9 : first + count]] if is_slot else found


def images(moment):
    """Yield the images of a crash at a moment."""
    runs, latest = pieces(crash_images.places(moment)), crash_images.kept(moment, None)
    for chosen in itertools.product(*(choices(piece, moment.settled, latest, len(runs) == 1) for piece in runs)):
        yield over(moment.settled, [(run[0], data) for run, data in zip(runs, chosen)])


def state_in(image):
    """Return the compared part of an image's state: the resources with their bytes, and the changes."""
    source = disk_reader.source_of(image)
    if why := disk_reader.fault(image, source):
        raise disk_reader.Unread(why)
    records = [record for page in source.catalogue for record in page.items]
    resources = [(record, image[record.first * BLOCK : record.first * BLOCK + record.length]) for record in records]
    return resources, [change for page in source.changes for change in page.items], source.last, source.number


def label_of(call, state):
    """Return the label of a call. The program writes the parts in the order of docs/DISK.md."""
    if call.kind == SYNC:
        return "sync"
    first, size = call.at // BLOCK, len(call.data)
    if call.at in (0, BLOCK):
        return f"write {call.data[0]} at byte {call.at}, the gate"
    if call.at < 2 * BLOCK:
        return f"write bytes {call.at % BLOCK} to {call.at % BLOCK + size - 1}, the root"
    part = next(part for part in state if part.first == first)
    words = {"body": f"the body of {part.word}", "rec": "the records", "chg": "the changes", "dir": "the directory"}
    return f"write {words[part.kind]}, {size} bytes"


def row_of(moment, label, written, old, new):
    """Return the row of a moment, with the numbers of images in the old and the new state."""
    counts = collections.Counter()
    for image in images(moment):
        found = state_in(image)
        if found not in (old, new):
            raise Unrecorded(f"{label}: an image tells neither the old state nor the new one")
        counts["old" if found == old else "new"] += 1
    generations = [int.from_bytes(moment.settled[at + 2 : at + 10], "big") for at in (0, BLOCK)]
    return Row(label, written, crash_images.places(moment), generations, counts["old"], counts["new"])


def recorded(program, room, changed):
    """Return the disk before the put, its calls, and the disk after it."""
    recorder = Recorder(program, room)
    disk = replayed(b"", recorder.format(BLOCKS * BLOCK, BASE, LIMIT))
    answers, _, _ = crash_model.run(crash_model.State(BASE, LIMIT), LINES)
    *before, calls = commands_of(changed(recorder.run(disk, LINES, answers)))
    disk = replayed(disk, [call for command in before for call in command])
    return disk, calls, replayed(disk, calls)


def rows(disk, calls, after):
    """Return one row for the disk before the calls, one per call, and one for the disk after them."""
    old, new, parts = state_in(disk), state_in(after), parts_of(after)
    moments = list(crash_images.moments(disk, calls))
    first = crash_images.Moment(0, disk, [], 0)
    found = [row_of(first, "before", set(), old, new)]
    for call, moment in zip(calls, moments):
        found.append(row_of(moment, label_of(call, parts), written_by([call]), old, new))
    return found + [row_of(moments[-1], "after it: answered", set(), old, new)]


TOLD = [
    "16 blocks that hold a; b, of 600 bytes, is put. Black bar: written by this call. Hatched: in question within it,",
    "where a crash may leave anything. Images are made of each call: every hatched block old, new or filled with",
    "other bytes, in each combination; and each image is read.",
]
COLOURED = [
    "Coloured: what the old root reaches, in the last row what the new one reaches: two slots, each with its gate",
    "and its generation (* root), the directory, the page of records, the page of changes, bodies.",
]
# Positions in the picture.
LEFT, TOP, CELL, TALL, STEP, OLD, NEW, GATE = 250, 112, 25, 26, 38, 672, 786, 7


def draw_block(picture, block, part, word, y):
    """Draw a block, and the part of the source in it. The gate of a slot has its own box."""
    x, gate = LEFT + block * CELL, GATE if block < 2 else 0
    picture.box(x, y, CELL, TALL, FILLS[part.kind if part else "free"], INK if part else EDGE)
    if gate:
        picture.line(x + gate, y, x + gate, y + TALL, INK)
    if word:
        picture.text(x + (CELL + gate) / 2, y + 17, word, 10, "middle", True)


def draw_row(picture, row, number, parts, y):
    """Draw one row: the call, the blocks, and the counts of images."""
    picture.text(30, y + 17, number, 12, "end", fill=SOFT)
    picture.text(40, y + 17, row.label, 12)
    of_block = {block: part for part in parts for block in blocks_of([part])}
    for block in range(BLOCKS):
        inside = [place % BLOCK for place in row.places if place // BLOCK == block]
        part = of_block.get(block)
        word = part.word if part else ""
        if block < 2:
            word = "" if max(inside, default=0) > 0 else f"{row.generations[block]}{'*' * word.endswith('*')}"
        draw_block(picture, block, part, word, y)
        if inside:
            x, width = LEFT + block * CELL, CELL
            if block < 2:
                x, width = (x, GATE) if max(inside) == 0 else (x + GATE, CELL - GATE)
            picture.box(x, y, width, TALL, "none", INK, stroke_width=1.5)
            picture.hatch(x, y, width, TALL)
    for block in sorted(row.written):
        picture.box(LEFT + block * CELL + 2, y + TALL + 2, CELL - 4, 4, INK)
    draw_counts(picture, row, y)


def draw_counts(picture, row, y):
    """Draw the numbers of images with the old and the new state."""
    for x, count, fill in ((OLD, row.old, FILLS["rec"]), (NEW, row.new, FILLS["pub"])):
        picture.box(x, y, 100, TALL, fill if count else "none", INK if count else EDGE, rx=5)
        images_of = "1 image" if count == 1 else f"{count:,} images"
        picture.text(x + 50, y + 17, images_of if count else "none", 12, "middle", fill=INK if count else SOFT)


def draw(program, room, changed=list):
    """Return the picture of the recorded calls, or of changed ones."""
    disk, calls, after = recorded(program, room, changed)
    found, before, then = rows(disk, calls, after), parts_of(disk), parts_of(after)
    title, height = "What a crash within each call of a put leaves", TOP + len(found) * STEP + 58
    picture = Picture(900, height, title, description(found))
    picture.text(40, 32, title, 17, font_weight="bold")
    picture.lines(40, 54, TOLD, 12, fill=SOFT)
    for block in range(BLOCKS):
        picture.text(LEFT + block * CELL + CELL / 2, TOP - 6, str(block), 10, "middle", True, SOFT)
    for x, heading, content in ((OLD, "the old state", "holds a"), (NEW, "the new state", "holds a, b")):
        picture.text(x + 50, TOP - 20, heading, 12, "middle", font_weight="bold")
        picture.text(x + 50, TOP - 6, content, 11, "middle", fill=SOFT)
    for number, row in enumerate(found):
        is_last = number == len(found) - 1
        count = str(number) if 0 < number <= len(calls) else ""
        draw_row(picture, row, count, then if is_last else before, TOP + number * STEP)
    picture.lines(40, TOP + len(found) * STEP + 20, COLOURED, 12, fill=SOFT)
    return picture


def description(found):
    """Return the description of the picture."""
    counts = [f"{row.label}: {row.old} images tell the old state, {row.new} the new one" for row in found[1:-1]]
    text = "; ".join(f"{number}, {count}" for number, count in enumerate(counts, 1))
    return ("A row of 16 blocks for each of the ten calls of the disk that a put makes, with the blocks that are in "
            "question within the call, and how many images of a crash within it tell the state before the put or the "
            f"one after it. {text}. Before the first call the one image tells the old state, and once the put is "
            "answered the one image tells the new state.")
