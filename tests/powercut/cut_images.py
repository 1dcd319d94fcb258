"""The images that a power cut may leave: any subset of the writes in question, in any order, torn at sectors.

An image is a list of pieces to write over the settled bytes; a piece is a place and its bytes.
"""
import random
from collections.abc import Callable, Sequence

from tests.powercut.write_log import Cut, Write

Pieces = list[tuple[int, bytes]]
Choice = Callable[[Sequence[Write], random.Random, int], Pieces]


def sectors(write: Write, size: int) -> Pieces:
    """Split a write into sectors with their places."""
    return [(at, write.data[at - write.at : at - write.at + size])
            for at in range(write.at, write.at + len(write.data), size)]


def lost(writes: Sequence[Write], rng: random.Random, size: int) -> Pieces:
    """Drop all writes in question."""
    return []


def kept(writes: Sequence[Write], rng: random.Random, size: int) -> Pieces:
    """Keep all writes in question, in order."""
    return [(write.at, write.data) for write in writes]


def all_but_one(writes: Sequence[Write], rng: random.Random, size: int) -> Pieces:
    """Keep all writes but one."""
    out = rng.randrange(len(writes))
    return [(write.at, write.data) for number, write in enumerate(writes) if number != out]


def one_alone(writes: Sequence[Write], rng: random.Random, size: int) -> Pieces:
    """Keep one write only."""
    write = rng.choice(writes)
    return [(write.at, write.data)]


def the_first(writes: Sequence[Write], rng: random.Random, size: int) -> Pieces:
    """Keep the first writes, the last of them torn after some sector."""
    count = rng.randrange(len(writes))
    last = sectors(writes[count], size)
    return kept(writes[:count], rng, size) + last[: rng.randrange(len(last) + 1)]


def the_last(writes: Sequence[Write], rng: random.Random, size: int) -> Pieces:
    """Keep only the last writes, as if the device had reordered them."""
    return kept(writes[rng.randrange(len(writes)) :], rng, size)


def some_writes(writes: Sequence[Write], rng: random.Random, size: int) -> Pieces:
    """Keep some whole writes, in any order."""
    chosen = [write for write in writes if rng.random() < 0.5]
    return kept(rng.sample(chosen, len(chosen)), rng, size)


def some_sectors(writes: Sequence[Write], rng: random.Random, size: int) -> Pieces:
    """Keep random sectors of the writes, in random order."""
    part = rng.choice((0.1, 0.5, 0.9))
    chosen = [sector for write in writes for sector in sectors(write, size) if rng.random() < part]
    return rng.sample(chosen, len(chosen))


def some_torn(writes: Sequence[Write], rng: random.Random, size: int) -> Pieces:
    """Keep some writes, a few of them torn."""
    found: Pieces = []
    for write in rng.sample(writes, len(writes)):
        choice = rng.random()
        if choice < 0.4:
            found.append((write.at, write.data))
        elif choice < 0.7:
            found += [sector for sector in sectors(write, size) if rng.random() < 0.5]
    return found


def with_garbage(writes: Sequence[Write], rng: random.Random, size: int) -> Pieces:
    """Keep some writes, and fill one sector of a write in progress (or else of any write) with random bytes."""
    under_way = [write for write in writes if not write.has_ended] or writes
    spoiled = rng.choice(under_way)
    at, data = rng.choice(sectors(spoiled, size))
    before = kept(writes[: writes.index(spoiled)], rng, size) if rng.random() < 0.5 else some_writes(writes, rng, size)
    torn = [sector for sector in sectors(spoiled, size) if sector[0] < at]
    return [*before, *torn, (at, rng.randbytes(len(data)))]


CHOICES: list[Choice] = [lost, kept, all_but_one, one_alone, the_first, the_last, some_writes, some_sectors, some_torn]


def image_of(cut: Cut, rng: random.Random, size: int, choices: Sequence[Choice]) -> tuple[str, Pieces]:
    """Return the name and the pieces of a random image of a cut."""
    choice = rng.choice(choices) if cut.writes else lost
    return choice.__name__, choice(cut.writes, rng, size)
