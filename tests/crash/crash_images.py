"""The images that a crash may leave by the model of docs/DISK.md, made from recorded calls.

Between two syncs every byte of every begun write is in question: a crash may leave anything there. All images are too
many to try, so these are the images that a device would leave (writes lost, kept, torn, reordered, in blocks of 512
bytes), and some that only the model allows (every byte old or new by itself, or any value).
"""
import random
from collections.abc import Callable, Iterator, Sequence
from typing import NamedTuple

from tests.crash.recorded_calls import ANSWER, LENGTH, SYNC, WRITE, Call, over

BLOCK = 512
# The two root slots are the first blocks of a disk.
SLOTS = 2 * BLOCK


class Moment(NamedTuple):
    """A moment between two calls or within one: `call` is the number of ended calls, `writes` are the writes since the
    last sync, the last perhaps not ended, and `answered` is the number of answered lines.
    """

    call: int
    settled: bytes
    writes: list[tuple[int, bytes]]
    answered: int


Choice = Callable[[Moment, random.Random], bytes]


def moments(settled: bytes, calls: Sequence[Call]) -> Iterator[Moment]:
    """Yield the moments of these calls on a disk with these settled bytes."""
    writes, answered = list[tuple[int, bytes]](), 0
    for number, call in enumerate(calls):
        begun = [(call.at, call.data)] if call.kind == WRITE else []
        yield Moment(number, settled, writes + begun, answered)
        writes = writes + begun
        if call.kind == ANSWER:
            answered += call.data.count(b"\n")
        elif call.kind == LENGTH:
            settled = settled[: call.at].ljust(call.at, b"\0")
        elif call.kind == SYNC:
            settled, writes = over(settled, writes), []
    yield Moment(len(calls), settled, writes, answered)


def places(moment: Moment) -> list[int]:
    """Return the offsets of the bytes in question."""
    return sorted({place for at, data in moment.writes for place in range(at, at + len(data))})


def lost(moment: Moment, rng: random.Random) -> bytes:
    """Drop all writes in question."""
    return moment.settled


def kept(moment: Moment, rng: random.Random) -> bytes:
    """Keep all writes in question."""
    return over(moment.settled, moment.writes)


def all_but_the_last(moment: Moment, rng: random.Random) -> bytes:
    """Keep all writes but the last."""
    return over(moment.settled, moment.writes[:-1])


def the_last_alone(moment: Moment, rng: random.Random) -> bytes:
    """Keep only the last write."""
    return over(moment.settled, moment.writes[-1:])


def the_last_torn(moment: Moment, rng: random.Random) -> bytes:
    """Keep all writes, the last up to a random byte."""
    at, data = moment.writes[-1]
    return over(moment.settled, moment.writes[:-1] + [(at, data[: rng.randrange(len(data) + 1)])])


def some_writes(moment: Moment, rng: random.Random) -> bytes:
    """Keep or drop every write at random."""
    return over(moment.settled, [write for write in moment.writes if rng.random() < 0.5])


def some_blocks(moment: Moment, rng: random.Random) -> bytes:
    """Give every block its settled bytes or the bytes of a read."""
    image, now = bytearray(moment.settled), kept(moment, rng)
    for block in sorted({place // BLOCK for place in places(moment)}):
        if rng.random() < 0.5:
            image[block * BLOCK : (block + 1) * BLOCK] = now[block * BLOCK : (block + 1) * BLOCK]
    return bytes(image)


def some_bytes(moment: Moment, rng: random.Random) -> bytes:
    """Give every byte its settled value or the value of a read."""
    image, now = bytearray(moment.settled), kept(moment, rng)
    for place in places(moment):
        image[place] = now[place] if rng.random() < 0.5 else image[place]
    return bytes(image)


def any_bytes(moment: Moment, rng: random.Random) -> bytes:
    """Give every byte in question a random value."""
    image = bytearray(moment.settled)
    for place in places(moment):
        image[place] = rng.randrange(256)
    return bytes(image)


def filled_with(value: int) -> Choice:
    """Return a choice that gives every byte in question this value."""

    def filled(moment: Moment, rng: random.Random) -> bytes:
        return over(moment.settled, [(place, bytes([value])) for place in places(moment)])

    filled.__name__ = f"bytes_{value}"
    return filled


def is_torn(moment: Moment, image: bytes) -> bool:
    """Return whether a root slot has neither its settled bytes nor the bytes of a read."""
    return image[:SLOTS] not in (moment.settled[:SLOTS], over(moment.settled, moment.writes)[:SLOTS])


# The choices made once per moment, and the choices repeated in every round.
FIXED: list[Choice] = [lost, kept, all_but_the_last, the_last_alone, filled_with(0), filled_with(1)]
RANDOM: list[Choice] = [the_last_torn, some_writes, some_blocks, some_bytes, any_bytes]


def images(moment: Moment, rng: random.Random, rounds: int, picks: int) -> Iterator[tuple[str, bytes]]:
    """Yield distinct images of a crash at this moment, with the names of their choices.

    They are all fixed images and this many rounds of the random ones; without rounds, the images with all writes lost
    and kept, and this many picks of the others.
    """
    choices = FIXED + RANDOM * rounds
    if not rounds:
        choices = [lost, kept, *rng.sample(FIXED[2:] + RANDOM, picks)]
    made = set[bytes]()
    for choice in choices if moment.writes else [lost]:
        image = choice(moment, rng)
        if image not in made:
            made.add(image)
            yield choice.__name__, image
