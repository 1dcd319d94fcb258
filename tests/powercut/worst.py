"""Draw the second put of docs/CRASH.md on ext4, and the file after power cuts within its calls.

The recording has the length of the log before and after every call. The power is cut at several places within a call,
and several images are made of each cut. The picture shows the most torn image of every call: of the blocks written so
far, some have their new contents and some do not.
"""
import collections
import pathlib
import random
import subprocess

from tests.pictures.svg import EDGE, FILLS, INK, SOFT, Picture
from tests.powercut import cut_images, kinds, machine
from tests.powercut.write_log import Settled, entries
from tests.program import Differs, interposed
from tests.reading.disk_formats import BLOCK

BLOCKS, CALLS, IMAGES = 16, 10, 60
LINES = ["at 951782400000", "put a 68656c6c6f text/plain", "put b " + "77" * 600 + " text/plain", ""]
# A library that notes the program's writes and syncs, with the length of the log before and after them.
NOTES = r"""
#define _GNU_SOURCE
#include <fcntl.h>
#include <stdio.h>
#include <stdlib.h>
#include <sys/stat.h>
#include <sys/syscall.h>
#include <unistd.h>
static long place(void) { struct stat it; return stat(getenv("DEVICE_LOG"), &it) ? -1 : it.st_size; }
static long noted(const char *name, long at, long length, long before, long result) {
    FILE *notes = fopen(getenv("NOTES"), "a");
    fprintf(notes, "%s %ld %ld %ld %ld\n", name, at, length, before, place());
    fclose(notes);
    return result;
}
ssize_t pwrite64(int fd, const void *from, size_t n, off_t at) {
    long before = place();
    return noted("write", at, n, before, syscall(SYS_pwrite64, fd, from, n, at));
}
ssize_t pwrite(int fd, const void *from, size_t n, off_t at) { return pwrite64(fd, from, n, at); }
int fsync(int fd) {
    long before = place();
    return noted("sync", 0, 0, before, syscall(SYS_fsync, fd));
}
"""
# A call: its name, its place and length, and the length of the log before and after it. A row: the call, the greatest
# number of device writes in question, the numbers of images with the old and the new state, the blocks written so far,
# and the blocks of the most torn image.
Call = collections.namedtuple("Call", "name at length before behind")
Row = collections.namedtuple("Row", "call questions old new written worst")


def recorded(program, room, device, kind):
    """Return the calls of the second put, and the bytes of the file before and after it."""
    notes, path = pathlib.Path(room, "notes"), device.top / "a.disk"
    environment = interposed(room, "notes", NOTES) | {"NOTES": str(notes), "DEVICE_LOG": str(device.log)}
    with device.mounted(kind.system, kind.options):
        subprocess.run([program, "format", path, str(BLOCKS * BLOCK), "http://127.0.0.1:8080", "2"], check=True,
                       capture_output=True)
        subprocess.run([program, "run", path], input="\n".join(LINES[:2]).encode() + b"\n", check=True,
                       capture_output=True)
        before = path.read_bytes()
        finished = subprocess.run([program, "run", path], input="\n".join(LINES[2:]).encode(), env=environment,
                                  check=True, capture_output=True)
        if not finished.stdout.startswith(b"created "):
            raise Differs(f"the second put is answered {finished.stdout!r}")
        behind = path.read_bytes()
    noted = (line.split() for line in notes.read_text().splitlines())
    calls = [Call(words[0], *map(int, words[1:])) for words in noted]
    return calls[-CALLS:], before, behind


def image_of(program, device, kind, pieces):
    """Return the bytes of the file in an image, and the number of changes that the program reports."""
    device.begin(pieces)
    with device.mounted(kind.system, kind.options) as top:
        finished = subprocess.run([program, "run", top / "a.disk"], input=b"status\n", capture_output=True,
                                  timeout=machine.SECONDS)
        if finished.returncode:
            raise Differs(f"an image is answered {finished.stderr!r}")
        return (top / "a.disk").read_bytes(), int(finished.stdout.split()[3])


def blocks_of(data):
    """Split bytes into blocks."""
    return [data[at : at + BLOCK] for at in range(0, len(data), BLOCK)]


def look(program, device, kind, settled, places, rng):
    """Make images of cuts at these places; return the most writes in question, and the files with their changes."""
    questions, images = 0, []
    for place in places:
        cut = settled.cut_at(place)
        questions = max(questions, len(cut.writes))
        for _ in range(max(IMAGES // len(places), 1) if cut.writes else 1):
            images.append(image_of(program, device, kind,
                                   cut_images.image_of(cut, rng, kind.sector, cut_images.CHOICES)[1]))
    return questions, images


def compared(image, before, behind):
    """Return the state of every block: `new`, `old`, `other`, or empty if the put does not change the block."""
    blocks = zip(*map(blocks_of, (image, before, behind)))
    return ["" if new == old else "new" if block == new else "old" if block == old else "other"
            for block, old, new in blocks]


def most_torn(comparisons, written):
    """Return the comparison of the most torn image, judged by the written blocks."""
    def tear(comparison):
        arrived = sum(comparison[block] == "new" for block in written)
        return min(arrived, len(written) - arrived), len(written) - arrived

    return max(comparisons, key=tear)


def rows(program, room, device, kind, bytes_):
    """Cut the power within every call; return the rows of the picture."""
    calls, before, behind = recorded(program, room, device, kind)
    log, rng, found, written = device.log.read_bytes(), random.Random(CALLS), [], set()
    settled, ends = Settled(bytes_, log), [entry.end for entry in entries(log)]
    for call in calls:
        if call.name == "write":
            written = written | set(range(call.at // BLOCK, (call.at + call.length - 1) // BLOCK + 1))
        places = [end for end in ends if call.before < end <= call.behind] or [call.before]
        questions, images = look(program, device, kind, settled, places, rng)
        counts = collections.Counter(changes for _, changes in images)
        if set(counts) - {1, 2}:
            raise Differs(f"images tell {sorted(counts)} changes")
        comparisons = [compared(image, before, behind) for image, _ in images]
        found.append(Row(call, questions, counts[1], counts[2], written, most_torn(comparisons, written)))
    settled.close()
    return found


def name_of(call):
    """Return the label of a call."""
    if call.name == "sync":
        return "sync"
    return f"write {call.length} byte{'s' * (call.length > 1)} at {call.at}"


# Positions in the picture.
LEFT, TOP, CELL, TALL, STEP = 200, 118, 25, 22, 32
COLOURS = {"new": FILLS["pub"], "old": FILLS["body"], "other": FILLS["dir"]}
TOLD = [
    "The put of b of docs/CRASH.md on a file of 16 blocks on ext4. Within each call the power is cut, and images are "
    "made",
    "of what the device may have. Drawn is the file in one image of each call: the one that is torn most.",
]
COLUMNS = [(672, "writes of the device", "in question, at most"), (775, "images that", "tell the old state")]
COLUMNS += [(866, "images that", "tell the new state")]


def picture_of(found):
    """Return the picture of these rows."""
    title = "What power cuts leave of a put"
    sentences = [f"call {number}, {name_of(row.call)}: {row.old} images tell the old state and {row.new} the new one"
                 for number, row in enumerate(found, 1)]
    picture = Picture(920, TOP + STEP * len(found) + 60, title,
                      "A row for each call of a put. " + "; ".join(sentences) + ".")
    picture.text(30, 34, title, 17, font_weight="bold")
    picture.lines(30, 56, TOLD, 12, fill=SOFT)
    for block in range(BLOCKS):
        picture.text(LEFT + (block + 0.5) * CELL, TOP - 8, str(block), 10, "middle", fill=SOFT)
    for x, *words in COLUMNS:
        picture.lines(x, TOP - 22, words, 10, anchor="middle", fill=SOFT)
    for number, row in enumerate(found, 1):
        draw(picture, number, row, TOP + STEP * (number - 1))
    legend(picture, TOP + STEP * len(found) + 14)
    return picture


def draw(picture, number, row, y):
    """Draw one row."""
    picture.text(30, y + 15, str(number), 12, "end", fill=SOFT)
    picture.text(40, y + 15, name_of(row.call), 12)
    for block, state in enumerate(row.worst):
        is_drawn = state and block in row.written
        picture.box(LEFT + block * CELL, y, CELL, TALL, COLOURS[state] if is_drawn else FILLS["free"],
                    INK if is_drawn else EDGE)
    for (x, *_), count in zip(COLUMNS, (row.questions, row.old, row.new)):
        picture.text(x, y + 15, str(count), 12, "middle")


def legend(picture, y):
    """Draw the legend of the colours."""
    words = ["as the put leaves it", "as it was before the put", "anything else",
             "not written by the put, or not by now"]
    for x, fill, words in zip((40, 220, 430, 590), (*COLOURS.values(), FILLS["free"]), words):
        picture.box(x, y, CELL, TALL, fill, INK if fill != FILLS["free"] else EDGE)
        picture.text(x + CELL + 8, y + 15, words, 12)


def drawn(server, room, program):
    """Run the program, and return the picture."""
    kind = kinds.KINDS["ext4"]
    bytes_ = kinds.made(kind, pathlib.Path(room, "bytes"))
    device = machine.Device(server, room, bytes_, kind.sector)
    try:
        return picture_of(rows(program, room, device, kind, bytes_))
    finally:
        device.close()
