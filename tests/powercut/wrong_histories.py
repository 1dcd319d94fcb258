"""Wrong histories of a file, or None if a history has no such variant. An image must fail the checks of all of them."""
import copy
import dataclasses

from tests.powercut.histories import History
from tests.reading.crash_model import State


def with_last_state(history: History, state: State) -> History:
    """Return the history with another state after its last event."""
    changed = copy.copy(history)
    changed.events, changed.served = [*history.events[:-1], history.events[-1]._replace(state=state)], {}
    return changed


def a_body_of_one_other_byte(history: History) -> History | None:
    """Change the last byte of a resource, and keep its digests."""
    state = history.state()
    name, (body, entry) = max(state.held.items(), key=lambda item: len(item[1][0]), default=("", (b"", None)))
    if not body:
        return None
    resources = {**state.held, name: (body[:-1] + bytes([body[-1] ^ 1]), entry)}
    return with_last_state(history, dataclasses.replace(state, held=resources))


def another_moment(history: History) -> History | None:
    """Change the moment of the last change, which ends the Change List."""
    state = history.state()
    if not state.changes:
        return None
    *before, last = state.changes
    return with_last_state(
        history, dataclasses.replace(state, changes=(*before, dataclasses.replace(last, moment=last.moment - 1))))


def a_command_more(history: History) -> History | None:
    """Add an acknowledged command."""
    changed = copy.copy(history)
    last, end = history.state().after("publish", 0)[1], history.events[-1].acknowledged or 0
    changed.events = [*history.events, history.events[-1]._replace(begun=end, acknowledged=end, state=last)]
    return changed


def a_command_less(history: History) -> History | None:
    """Remove the last command."""
    changed = copy.copy(history)
    changed.events, changed.served = history.events[:-1], {}
    return changed


WRONG = [a_body_of_one_other_byte, another_moment, a_command_more, a_command_less]
