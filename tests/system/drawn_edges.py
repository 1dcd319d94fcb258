"""Checks of `test_large` at the edges of pieces, with the longest groups, and on sources of many resources.

All of them follow the rules of calls: the program reads and writes no byte twice, and makes no call twice.

- Bodies of one piece, of one byte less or more, and of a random number of pieces are put, verified and shown, in a
  script and over HTTP, for every length of pieces.
- A group over HTTP has the greatest length; a group in a script has bodies of more than 16 MiB in total.
- Commands run on sources of a random number of resources.
"""
import random

from tests.disks import counted_disk, paged_disk
from tests.system import call_rules, calls_of_commands
from tests.system.calls_of_commands import AT, Client, Line, Scripted, group, put, request
from tests.system.drawn_commands import MOST, MOST_IN_GROUP, Compare
from tests.system.noted_calls import Room

LONGEST_GROUP, MOST_PIECES = 16_777_216, 8
PIECES = (call_rules.CAME, call_rules.LOOKED, call_rules.SHOWN)
# Free bytes of a disk in addition to the bodies.
BESIDE = 1 << 20


def empty(room: Room, size: int) -> bytes:
    """Return a new source with room for bodies of this total size."""
    room.clear(calls_of_commands.DISK)
    room.run(["format", calls_of_commands.DISK, str(size + BESIDE), "http://127.0.0.1:8080", "4000"])
    disk: bytes = room.content(calls_of_commands.DISK)
    return disk


def look_at_answers(what: str, client: Client, disk: bytes, lines: list[Line], compare: Compare) -> None:
    """Send requests, and compare their calls with the rules."""
    for line, (response, calls, after) in zip(lines, client.ask(lines)[0], strict=True):
        wanted, _ = calls_of_commands.calls_by_rule(client.name, line, disk, after, call_rules.CAME)
        compare(f"{what}: {line.text[:30]!r}", wanted, calls)
        compare(f"{what}: {line.text[:30]!r}", b"HTTP/1.1 20", response[:11])
        disk = after


def look_at_pieces(room: Room, draw: random.Random, compare: Compare) -> None:
    """Put, verify and show bodies near a whole number of pieces, in a script and over HTTP."""
    lengths = [size + more for size in PIECES for more in (-1, 0, 1)]
    lengths += [size * draw.randint(2, MOST_PIECES) for size in PIECES]
    names = [f"piece{length}" for length in lengths]
    puts = [Line(put(name, length), [length]) for name, length in zip(names, lengths)]
    shows = [Line(f"show /resource/{name}", None) for name in names]
    disk = empty(room, sum(lengths))
    scripted = Scripted(room, [Line(AT, None), *puts, Line("verify", None), *shows], disk)
    calls_of_commands.look_at_whole(f"bodies of {lengths}", scripted, compare)
    disk, client = empty(room, sum(lengths)), Client(room)
    puts = [Line(request("PUT", f"/resource/{name}", b"x" * length), [length]) for name, length in zip(names, lengths)]
    gets = [Line(request("GET", f"/resource/{name}"), None) for name in names]
    look_at_answers("bodies of pieces", client, disk, [*puts, *gets], compare)


def longest_group(draw: random.Random) -> Line:
    """Return a request with the longest permitted group, of two bodies."""
    rest = LONGEST_GROUP - len(f"{put('g', 1)}\n{put('h', 1)}\n") + 2 * len("61")
    both = rest // len("61")
    one = draw.randint(1, both - 1)
    text = f"{put('g', one)}\n{put('h', both - one)}\n"
    assert len(text) == LONGEST_GROUP
    return Line(request("POST", "/group", text.encode()), [one, both - one])


def look_at_long_groups(room: Room, draw: random.Random, compare: Compare) -> None:
    """Send the longest group over HTTP, and a group of longer bodies in a script."""
    line = longest_group(draw)
    disk = empty(room, LONGEST_GROUP)
    look_at_answers("a group of the most bytes", Client(room), disk, [line], compare)
    lengths = [(1 << 20) + draw.randint(1, 1 << 16) for _ in range(MOST_IN_GROUP)]
    whole = Line(group(*(put(f"g{at:02d}", length) for at, length in enumerate(lengths))), lengths)
    scripted = Scripted(room, [Line(AT, None), whole], empty(room, sum(lengths)))
    calls_of_commands.look_at_whole(f"a group of {sum(lengths)} bytes", scripted, compare)
    compare("a long group", [b"grouped 16 "], [answer[:11] for answer in scripted.answers[1:]])


def look_at_many(room: Room, draw: random.Random, compare: Compare) -> None:
    """Run commands on a source with a random number of resources."""
    resources = draw.randint(3_000, 6_000)
    names = [paged_disk.name(number).decode() for number in draw.sample(range(resources), 4)]
    lines = [Line(AT, None), Line(put("made", 700), [700]), Line(put(names[0], 5), [5]), Line(f"delete {names[1]}", []),
             Line(group(put(names[2], 600), f"delete {names[3]}", put("zz", 20_000)), [600, 20_000]),
             Line("publish", []), Line("verify", None), Line("publish", [])]
    disk = counted_disk.spelled(resources, draw.randint(0, resources), MOST)
    calls_of_commands.look_at_whole(f"commands of {resources} resources", Scripted(room, lines, disk), compare)


LOOKS = [look_at_pieces, look_at_long_groups, look_at_many]
