"""Make wrong states of a source, which the comparison must detect."""
import copy
import dataclasses

from tests.program import Differs


def with_another_bit(state, name, body, entry):
    """Return the state with a bit of a body changed."""
    turned = bytes([body[0] ^ 1]) + body[1:]
    return dataclasses.replace(state, held={**state.held, name: (turned, entry)})


# Functions from a right state, and the name, the body and the entry of a resource, to a wrong state.
WRONG = {
    "an acknowledged put is lost": lambda state, name, *_: state.after(f"put {name} 00 text/plain", 0)[1],
    "an acknowledged publication is lost": lambda state, *_: state.after("publish", 0)[1],
    "an acknowledged delete is lost": lambda state, name, *_: state.after(f"delete {name}", 0)[1],
    "a bit of a body is another one": with_another_bit,
    "a change is lost": lambda state, *_: dataclasses.replace(state, changes=state.changes[:-1]),
    "two bodies are exchanged": lambda state, name, _, entry: dataclasses.replace(
        state, held={**state.held, name: (b"another", entry)}),
}


def is_noticed(source, program, wrong):
    """Return whether the comparison of a source with the program fails with a wrong state."""
    name, (body, entry) = next((name, value) for name, value in source.state.held.items() if value[0])
    other = copy.copy(source)
    other.state, other.pending = WRONG[wrong](source.state, name, body, entry), None
    try:
        other.settle(program)
    except Differs:
        return True
    return False
