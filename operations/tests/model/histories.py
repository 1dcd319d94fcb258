"""Simulate the random history of a source: its states in order, and its resources at every moment."""
from __future__ import annotations

import random
import re

from tests.reading import crash_model

# The moment at which a history begins, long ago, in milliseconds since 1970.
BEGINNING = 1_750_000_000_000
NAMES = ["a", "a/b", "a/b/c", "a/d", "b", "b/b", "c", "%2E", "a%2Fb", "x&y", "n/1", "n/2", "n/3", "w" * 240]
# Lengths of bodies: many are equal, so that older and newer bodies have the same length.
LENGTHS = [0, 1, 40, 40, 40, 40, 3_000, 70_000]
KINDS = ["text/plain", "a/b"]
# The resources at a moment: bodies by name.
Held = dict[str, bytes]


class History:
    """A source that changes by random commands."""

    def __init__(self, base: str, rng: random.Random, limit: int | None = None) -> None:
        self.rng = rng
        self.states = [crash_model.State(base, limit or rng.choice([1, 2, 3, 5]))]
        self.clock = BEGINNING + rng.randrange(10**9)
        # The moment of each change, its name, and the new bytes or None.
        self.changes: list[tuple[str, str, bytes | None]] = []

    @property
    def state(self) -> crash_model.State:
        """Return the current state."""
        return self.states[-1]

    def resources_at(self, moment: str | None = None) -> Held:
        """Return the current resources, or those after all changes up to a moment."""
        last = {name: body for when, name, body in self.changes if moment is None or when <= moment}
        return {name: body for name, body in last.items() if body is not None}

    def newest(self) -> str:
        """Return the moment of the newest change or publication."""
        return str(crash_model.moment_text(self.state.last))

    def do(self, line: str) -> str:
        """Apply a command; return its response, as `created 2000-..`."""
        self.clock += self.rng.choice([0, 1, 1, 1_000, 100_000])
        answer, state = self.state.after(line, self.clock)
        if state is not None:
            self.states.append(state)
            if not line.startswith("publish"):
                change = state.changes[-1]
                body = None if change.entry is None else state.held[change.name][0]
                self.changes.append((crash_model.moment_text(change.moment), change.name, body))
        return str(answer)

    def advance(self, names: list[str] | None = None) -> None:
        """Apply a random command."""
        what = self.rng.choices(["put", "delete", "publish", "again"], [10, 4, 3, 2])[0]
        name = self.rng.choice(names or NAMES)
        if what == "publish":
            self.do("publish")
        elif what == "delete" and self.state.held:
            self.do(f"delete {self.rng.choice(sorted(self.state.held))}")
        elif what == "again" and self.changes:
            # An older body returns, possibly under another name.
            body = self.rng.choice(self.changes)[2] or b""
            self.put(name, body)
        else:
            self.put(name, self.rng.randbytes(self.rng.choice(LENGTHS)))

    def restore(self) -> None:
        """Return to an earlier state, as an operator does who restores an old copy of the file. The clock goes on, so
        later changes have later moments.
        """
        self.clock = max(self.clock, self.state.last + 1)
        self.states = self.states[: self.rng.randrange(1, len(self.states) + 1)]
        self.changes = [change for change in self.changes if change[0] <= self.newest()]

    def put(self, name: str, body: bytes, kind: str | None = None) -> str:
        """Put a body; return the response."""
        return self.do(f"put {name} {body.hex() or '-'} {kind or self.rng.choice(KINDS)}")


def laid_out(resources: Held) -> dict[str, bytes]:
    """Return the files of a mirror of these resources: a name with others below it ends in `#`."""
    above = {name[: found.start()] for name in resources for found in re.finditer("/", name)}
    return {name + "#" * (name in above): body for name, body in resources.items()}
