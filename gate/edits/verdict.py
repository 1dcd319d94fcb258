"""Reads the report of a check: which functions it refuses for their own sake, and why."""

import re
from collections.abc import Mapping
from dataclasses import dataclass

from gate.edits.kit import Report

# The lines of a check: an error, a goal that stays open, and that goal's function, or another item, which comes after
# it.
ERROR = re.compile(r"(?:\./)?((?:src|specs|proofs)/\S+?):\d+:\d+: error:? ?(.*)")
OPEN = re.compile(r"note: src/\S+:\d+:\d+: (it is not proved that .*|`search` found no proof .*)")
NAME = re.compile(r"\(`([^`\s]+)`\)")
ANSWERED = re.compile(r"\A`([^`\s]+)`")
# The prover's line for a goal that fails at values that it found.
IS_FALSE = "allow values at which this goal is false"
ITEM = re.compile(r"(?:fn|impl|struct|enum|trait) (\S+): (?:(proved)|not proved|no proof)")
# The last line of a check that is not proved, of a whole crate or of some functions alone.
ENDED = re.compile(r"(?m)^(?:logic=not-proved|only=\d+ proved=)")
# Errors of a proof that names a removed word or relies on a refused goal: they say nothing of its function's own goals.
SECOND_HAND = re.compile(r"has no field|is not in scope|has no `|was not admitted|that depends? on|\(nearest:")
# Where the line of such an error is cut in two.
CUT = re.compile(rf"\n +(?={SECOND_HAND.pattern})")


@dataclass(frozen=True)
class Verdict:
    """The verdict of a check: whether all was read and some of it refused, and the first error.

    Of every function it has the first error, the open goals, and the goals whose answer by hand is refused.
    """

    is_read: bool
    own: dict[str, str]
    goals: dict[str, list[str]]
    by_hand: dict[str, list[str]]
    first: str

    def refused(self, symbol: str) -> list[str]:
        """The goals by which a function is refused: those left open, then those whose answers by hand are refused."""
        return [*self.goals.get(symbol, []), *self.by_hand.get(symbol, [])]


def owner(symbol: str) -> str:
    """The function of a symbol: those of closures are m::fn::f::map for one in m::f."""
    return re.sub(r"::fn::((?:[A-Z]\w*::)?\w+)::.*", r"::\1", symbol)


def names_of(goals: list[str]) -> list[str]:
    """Return the names of open goals: first those that the prover found to be false, then those of postconditions."""
    names = [(IS_FALSE not in goal, not name[1].startswith("returns"), name[1]) for goal in goals
             if (name := NAME.search(goal))]
    return [name[-1] for name in sorted(names, key=lambda name: name[:-1])]


def read(crate: str, report: Report, left_out: Mapping[str, list[str]] = {}) -> Verdict:
    """Reads the report of a check of a crate, but for the answers of these goals, by function."""
    own: dict[str, str] = {}
    in_files: dict[str, str] = {}
    opened: dict[str, list[str]] = {}
    by_hand: dict[str, list[str]] = {}
    goals: list[str] = []
    is_read = report.status == 1 and ENDED.search(report.text) is not None
    for line in CUT.sub(" ", report.text).split("\n"):
        if found := ERROR.match(line):
            # The folder of a function that calls itself has a + before its name.
            place = owner("::".join([crate, *(step.removeprefix("+") for step in found[1].split("/")[1:-1])]))
            is_left_out = any(found[2].startswith(f"`{goal}`") for goal in left_out.get(place, []))
            is_own = not SECOND_HAND.search(found[2]) and not is_left_out
            is_read = is_read and (found[1].startswith("proofs/") or (found[2].startswith("`") and is_own))
            if is_own:
                in_files.setdefault(place, found[2])
                by_hand.setdefault(place, []).extend(ANSWERED.findall(found[2])
                                                     if found[1].startswith("proofs/") else [])
        elif found := OPEN.match(line):
            goals.append(found[1])
        elif found := ITEM.match(line):
            symbol = owner(found[1])
            opened.setdefault(symbol, []).extend(names_of(goals))
            errors, goals = [*goals, *([in_files[symbol]] if symbol in in_files else [])], []
            if errors and not found[2]:
                own.setdefault(symbol, errors[0])
    first = re.search(r"(?m)^.*: (error|not proved|no proof)\b.*$", report.text)
    return Verdict(is_read, own, opened, by_hand, first[0] if first else report.text[:200])


def proved(report: Report) -> list[str]:
    """The symbols of the functions that a check proved."""
    return re.findall(r"(?m)^fn (\S+): proved", report.text)
