"""Recordings of wrong programs, derived from a right one. The crash test must reject them all."""
from collections.abc import Callable

from tests.crash.crash_images import SLOTS
from tests.crash.recorded_calls import ANSWER, SYNC, WRITE, Call

Change = Callable[[list[Call]], list[Call]]


def is_of_slots(call: Call) -> bool:
    """Return whether a call writes into the root slots."""
    return call.kind == WRITE and call.at < SLOTS


def no_sync_before_a_slot_is_opened(calls: list[Call]) -> list[Call]:
    """Open the root's gate before the root, the pages and the bodies are settled."""
    opened = [number for number, call in enumerate(calls) if is_of_slots(call) and call.data == b"\x01"]
    syncs = [number for number, call in enumerate(calls) if call.kind == SYNC and number + 1 in opened]
    return [call for number, call in enumerate(calls) if number not in syncs]


def answered_before_the_last_sync(calls: list[Call]) -> list[Call]:
    """Answer every line one sync too early."""
    found: list[Call] = []
    for call in calls:
        place = len(found)
        if call.kind == ANSWER and found and found[-1].kind == SYNC:
            place -= 1
        found.insert(place, call)
    return found


def body_written_after_the_commit(calls: list[Call]) -> list[Call]:
    """Move the first write of every command (its body, if it has one) after its last sync."""
    found, begin = list[Call](), 0
    for number, call in enumerate(calls):
        if call.kind != ANSWER:
            continue
        command = list(calls[begin:number])
        writes = [call for call in command if call.kind == WRITE]
        if writes:
            command.remove(writes[0])
            command += [writes[0], next(call for call in command if call.kind == SYNC)]
        found, begin = found + command + [call], number + 1
    return found + calls[begin:]


WRONG = [
    no_sync_before_a_slot_is_opened,
    answered_before_the_last_sync,
    body_written_after_the_commit,
]
