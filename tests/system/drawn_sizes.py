"""Checks of `test_large` at random sizes up to every limit: the program refuses no input for its size.

- Sources of every thousand and of random numbers of resources open and take commands (drawn_commands.py). One opens by
  the rules of calls. Every document is shown, also with the longest names; `verify` names a random number of damaged
  bodies.
- Bodies of random lengths and of the greatest are put and shown, in a script and over HTTP, and verified; so are
  groups. The calls are those of call_rules.py, so no byte is read or written twice; a line allocates no more memory
  than command_memory.py allows.
- Sources of random numbers of bodies are copied, by the rules of calls.
"""
import random
import subprocess
from collections.abc import Iterator

from tests.disks import counted_disk, paged_disk
from tests.program import CLOCK, interposed
from tests.reading.disk_formats import BLOCK
from tests.system import call_rules, calls_of_commands, command_memory
from tests.system.calls_of_commands import DISK, RUN, Client, Line, Scripted, group, put, request
from tests.system.command_memory import Asking
from tests.system.counted_growths import COUNTING
from tests.system.drawn_commands import MOST, MOST_IN_GROUP, Compare, between
from tests.system.noted_calls import Room, texts

LONGEST, LONGEST_NAME = 16_777_216, 240
NEW, SECONDS = "copy.disk", 300
# The number of the body whose memory is measured.
LOOKED = 1
AT = f"at {CLOCK}\n".encode()


def look_at_calls_of_opening(room: Room, draw: random.Random, compare: Compare) -> None:
    """Open a source of a random number of resources, and one of the greatest, by the rules of calls."""
    for resources in (between(draw, MOST - 1) + 1, MOST - 1):
        disk = counted_disk.spelled(resources, draw.randint(0, resources), MOST)
        room.put(disk, DISK)
        calls = [*call_rules.opening(DISK, disk), "line", f"close {DISK}"]
        compare(f"the calls of an opening of {resources}", calls, texts(room.run(RUN).calls))


def paths(resources: int, changes: int) -> Iterator[str]:
    """Yield the paths of the documents of a source after one publication."""
    for word, count in (("/resourcelist", resources), ("/changelist", changes)):
        yield f"{word}.xml"
        parts = range(-(-count // counted_disk.LIMIT) if count > counted_disk.LIMIT else 0)
        yield from (f"{word}/1/{number}.xml" if word == "/resourcelist" else f"{word}/{number}.xml" for number in parts)


def look_at_documents(room: Room, draw: random.Random, compare: Compare) -> None:
    """Show every document of a source with random numbers, and of one with the longest names."""
    few = between(draw, 20_000) + 1, draw.randint(0, LONGEST_NAME - 9)
    for resources, longer in (few, (5_000, LONGEST_NAME - 9)):
        changes = draw.randint(0, resources)
        room.put(counted_disk.spelled(resources, changes, resources, longer), DISK)
        documents = [*paths(resources, changes)]
        script = "".join(f"show {path}\n" for path in documents).encode()
        finished = subprocess.run([room.program, *RUN], cwd=room.folder, input=script, capture_output=True,
                                  timeout=SECONDS)
        remaining = finished.stdout
        for path in documents:
            first, _, rest = remaining.partition(b"\n")
            compare(f"{resources} resources, {changes} changes, names longer by {longer}: {path}", b"bytes ", first[:6])
            remaining = rest[int(first[6:]) + 1 :] if first.startswith(b"bytes ") else rest
        compare(f"{resources} resources: behind the documents", b"", remaining)


def look_at_damage(room: Room, draw: random.Random, compare: Compare) -> None:
    """Damage a random number of bodies; `verify` must name them all."""
    resources = draw.randint(1, 3_000)
    disk = bytearray(paged_disk.spelled(resources, 0))
    names = sorted(draw.sample(range(resources), draw.randint(resources // 2, resources)))
    for number in names:
        disk[(2 + number) * BLOCK] ^= 1
    room.put(disk, DISK)
    wanted = b"".join(b"damaged %s\n" % paged_disk.name(number) for number in names)
    wanted += b"verified %d\n" % (resources - len(names))
    compare(f"{len(names)} damaged bodies of {resources}", wanted, room.run(RUN, b"verify\n").output)


def bodies(draw: random.Random) -> list[int]:
    """Return the lengths of bodies: two random ones, and the greatest."""
    return [between(draw, LONGEST), draw.randint(1 << 20, LONGEST), LONGEST]


def empty(room: Room, size: int) -> bytes:
    """Return a new source of this size."""
    room.clear(DISK)
    room.run(["format", DISK, str(size), "http://127.0.0.1:8080", "4000"])
    disk: bytes = room.content(DISK)
    return disk


def answer_of(line: str, lengths: list[int]) -> bytes:
    """Return the beginning of the answer to a line."""
    word, _, name = line.partition(" ")
    if word == "show":
        length = lengths[int(name[-1])]
        return b"bytes %d\n%s\n" % (length, b"a" * length)
    return {"put": b"created ", "group": b"grouped 2 ", "verify": b"verified %d\n" % len(lengths), "at": b"ok\n"}[word]


def look_at_memory(room: Room, line: str, shown: int, disk: bytes, compare: Compare) -> None:
    """Check that a put, or a line that shows this many bytes, allocates no more memory than it may."""
    environment = interposed(room.folder, "counting", COUNTING)
    amounts = []
    for script in (AT, AT + line.encode() + b"\n"):
        room.put(disk, DISK)
        finished = subprocess.run([room.program, *RUN], cwd=room.folder, env=environment, input=script,
                                  capture_output=True, timeout=SECONDS)
        amounts.append(int(finished.stderr.split()[-1]))
    limit = command_memory.allowed(Asking(f"{line}\n".encode(), int(not shown), shown), disk)
    compare(f"{line[:20]!r}: {amounts[1] - amounts[0]} bytes of memory are at most {limit}", True,
            amounts[1] - amounts[0] <= limit)


def look_at_lines(room: Room, draw: random.Random, compare: Compare) -> None:
    """Put bodies of random lengths in a script."""
    lengths = bodies(draw)
    pair = [draw.randint(1 << 20, 3 << 20), between(draw, 1 << 20)]
    disk = empty(room, sum(lengths) + sum(pair) + 1_000_000)
    puts = [Line(put(f"r{at}", length), [length]) for at, length in enumerate(lengths)]
    shows = [Line(f"show /resource/r{at}", None) for at in range(len(lengths))]
    grouped = Line(group(put("g", pair[0]), put("h", pair[1])), pair)
    scripted = Scripted(room, [Line(f"at {CLOCK}", None), *puts, Line("verify", None), *shows, grouped], disk)
    calls_of_commands.look_at_whole("drawn bodies", scripted, compare)
    for line, answer, before in zip(scripted.lines, scripted.answers, scripted.disks):
        wanted, what = answer_of(line.text, lengths), f"{line.text[:20]!r} of {lengths}"
        compare(what, wanted, answer[: len(wanted)])
        if line.text.startswith((f"put r{LOOKED} ", f"show /resource/r{LOOKED}")):
            look_at_memory(room, line.text, lengths[LOOKED] * line.text.startswith("show"), before, compare)


def look_at_requests(room: Room, draw: random.Random, compare: Compare) -> None:
    """Put bodies of random lengths over HTTP."""
    lengths = bodies(draw)
    disk, client = empty(room, sum(lengths) + 1_000_000), Client(room)
    puts = [Line(request("PUT", f"/resource/r{at}", b"x" * length), [length]) for at, length in enumerate(lengths)]
    gets = [Line(request("GET", f"/resource/r{at}"), None) for at in range(len(lengths))]
    for line, (response, calls, after) in zip([*puts, *gets], client.ask([*puts, *gets])[0], strict=True):
        what = f"{line.text[:20]!r} of {lengths}"
        wanted, _ = calls_of_commands.calls_by_rule(client.name, line, disk, after, call_rules.CAME)
        compare(what, wanted, calls)
        body = b"x" * lengths[int(line.text[len("GET /resource/r") :][:1])]
        compare(what, body if line.bodies is None else b"", response.partition(b"\r\n\r\n")[2])
        compare(what, b"HTTP/1.1 200" if line.bodies is None else b"HTTP/1.1 201", response[:12])
        disk = after


def look_at_groups(room: Room, draw: random.Random, compare: Compare) -> None:
    """Send groups of every number of items over HTTP."""
    client, disk = Client(room), empty(room, 1 << 20)
    sizes = draw.sample(range(1, MOST_IN_GROUP + 1), MOST_IN_GROUP)
    lengths = [[between(draw, 2_000) for _ in range(count)] for count in sizes]
    texts_of = ["\n".join(put(f"n{at}", length) for at, length in enumerate(group)) for group in lengths]
    requests = [Line(request("POST", "/group", text.encode()), group) for text, group in zip(texts_of, lengths)]
    for items, line, (response, calls, after) in zip(sizes, requests, client.ask(requests)[0], strict=True):
        what, wanted = f"a group of {items} over HTTP", b"grouped %d " % items
        compare(what, wanted, response.partition(b"\r\n\r\n")[2][: len(wanted)])
        compare(what, calls_of_commands.calls_by_rule(client.name, line, disk, after)[0], calls)
        disk = after


def look_at_copies(room: Room, draw: random.Random, compare: Compare) -> None:
    """Copy sources with random numbers of bodies."""
    numbers = [draw.randint(2, 64), draw.randint(65, 2_000)]
    for number in numbers:
        whole = paged_disk.spelled(number, draw.randint(0, number))
        disk = whole[: len(whole) - (paged_disk.ROOM - 64) * BLOCK]
        room.put(disk, DISK)
        room.clear(NEW)
        # The copy has the published pages and those of the catalogue.
        size = len(disk) + number * BLOCK
        outcome = room.run(["copy", DISK, NEW, str(size)])
        compare(f"a copy of {number}", (0, b"copied %d\n" % size, b""), tuple(outcome[:3]))
        copy = room.content(NEW)
        calls = [*call_rules.opening(DISK, disk), *call_rules.copying(DISK, disk, NEW, copy), f"close {NEW}", "answer",
                 f"close {DISK}"]
        compare(f"the calls of a copy of {number}", calls, texts(outcome.calls))


LOOKS = [look_at_lines, look_at_requests, look_at_copies, look_at_groups, look_at_damage, look_at_calls_of_opening,
         look_at_documents]
