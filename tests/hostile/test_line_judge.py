"""Tests of the judge of hostile scripts: it rejects wrong rules and wrong answers.

The scripts of the search must show every wrong rule.
"""
import contextlib
import re
from functools import cache
from typing import Any

import pytest

from tests.hostile import made_scripts, script_runs
from tests.hostile.script_runs import Outcome
from tests.hostile.wrong_fronts import PUT, SHARED_RULES, Rules, pattern, rule
from tests.reading import front_model, line_judge
from tests.reading.front_model import Source
from tests.reading.line_judge import Judge

SEED = 20261125
# The numbers of the tested scripts; the last one has long lines.
SCRIPTS = [*range(11), *range(12, 25), 11]
SHOW, PUT_LINE, FIELDS_OF, LINES_OF = Judge.show, Judge.put, line_judge.fields_of, line_judge.lines_of


def put_roomy(self: Source, *arguments: Any) -> Any:
    """A put finds room on any disk."""
    self.size = 2**40
    return PUT(self, *arguments)


def type_before_body(self: Judge, name: bytes, text: bytes, kind: bytes) -> Any:
    """The program checks the name and the type before the body."""
    front_model.name_of(name)
    front_model.type_of(kind)
    return PUT_LINE(self, name, text, kind)


def no_pairs(text: bytes) -> bytes:
    """A body may have an odd number of digits."""
    even = b"0" * (len(text) % 2) + text
    return bytes.fromhex(even.decode()) if re.fullmatch(rb"[0-9A-Fa-f]*", text) else b""


def without_zeros(self: Source, path: bytes, document: Any = Source.document) -> Any:
    """Numbers in a path may have leading zeros."""
    return document(self, re.sub(rb"/0+(?=[0-9])", b"/", path))


def without_line_end(self: Judge, path: bytes) -> Any:
    """A shown text lacks its line end."""
    return SHOW(self, path).removesuffix(b"\n")


def lines_without_a_last_cr(script: bytes) -> Any:
    """The program drops a CR at the end of the input."""
    return LINES_OF(script.removesuffix(b"\r"))


def lines_without_cr(script: bytes) -> list[bytes]:
    """The program drops all CRs at the end of a line."""
    return [line.rstrip(b"\r") for line in script.removesuffix(b"\n").split(b"\n")]


def fields_at_runs(line: bytes) -> Any:
    """Several spaces may separate fields."""
    return FIELDS_OF(re.sub(rb" +", b" ", line))


RULES: Rules = {
    "fields are cut at runs of spaces": lambda: rule(line_judge, "fields_of", fields_at_runs),
    "a CR at the end of the input is dropped": lambda: rule(line_judge, "lines_of", lines_without_a_last_cr),
    "no CR is dropped": lambda: rule(line_judge, "lines_of", lambda script: script.removesuffix(b"\n").split(b"\n")),
    "all CR before LF are dropped": lambda: rule(line_judge, "lines_of", lines_without_cr),
    "a line is one byte shorter at most": lambda: rule(line_judge, "LONGEST_LINE", line_judge.LONGEST_LINE - 1),
    "a line is one byte longer at most": lambda: rule(line_judge, "LONGEST_LINE", line_judge.LONGEST_LINE + 1),
    "a moment has 16 digits": lambda: pattern(line_judge, "DIGITS", b"15", b"16"),
    "a moment has 14 digits": lambda: pattern(line_judge, "DIGITS", b"15", b"14"),
    "a moment may have a sign": lambda: pattern(line_judge, "DIGITS", b"[0-9]{1,15}", b"[+-]?[0-9]{1,15}"),
    "moments go on past 9999": lambda: rule(line_judge, "LAST_MOMENT", 10**15),
    "digits of a body are lower case": lambda: pattern(line_judge, "HEXADECIMAL", b"A-F", b""),
    "a body may have an odd digit, or none": lambda: rule(line_judge, "body_of", no_pairs),
    "types are looked at before bodies": lambda: rule(Judge, "put", type_before_body),
    "show adds no line feed": lambda: rule(Judge, "show", without_line_end),
    "types end in a space": lambda: pattern(front_model, "TYPE", rb"[\x21-\x7e]", rb"[\x20-\x7e]"),
    "numbers of paths have leading zeros": lambda: rule(Source, "document", without_zeros),
    "Full never comes": lambda: rule(Source, "put", put_roomy),
}


ALL_RULES = RULES | SHARED_RULES


@cache
def script(number: int) -> tuple[made_scripts.Made, list[bytes], list[bytes]]:
    """Return a script of the search, with its lines and answers."""
    made = made_scripts.script_of(SEED, number)
    lines, answers = script_runs.wanted_of(made)
    return made, lines, answers


def are_told() -> bool:
    """Return whether a script shows a difference between the present rules and the right ones."""
    for number in SCRIPTS:
        made, lines, right = script(number)
        wrong = b"".join(script_runs.wanted_of(made)[1])
        if script_runs.faults(lines, right, Outcome(0, wrong, b"")):
            return True
    return False


@pytest.fixture(scope="module", autouse=True)
def right_answers() -> None:
    """Compute the answers of the right rules first."""
    for number in SCRIPTS:
        script(number)


@pytest.mark.parametrize("name", ALL_RULES)
def test_the_scripts_reject_a_wrong_rule(name: str) -> None:
    # (a rule that leads to a moment without a date shows by an exception)
    with ALL_RULES[name](), contextlib.suppress(OverflowError):
        assert are_told()


def test_the_scripts_accept_the_right_rules() -> None:
    assert not are_told()


def outputs() -> dict[str, Outcome]:
    """Return wrong runs of a script by name."""
    _, _, answers = script(0)
    output = b"".join(answers)
    at = next(place for place, answer in enumerate(answers) if answer.startswith(b"created"))
    return {
        "an answer too few": Outcome(0, b"".join(answers[:-1]), b""),
        "an answer too many": Outcome(0, output + answers[-1], b""),
        "an answer that is left out": Outcome(0, b"".join(answers[:at] + answers[at + 1 :]), b""),
        "updated for created": Outcome(0, output.replace(b"created", b"updated", 1), b""),
        "another millisecond": Outcome(0, output.replace(b".000Z", b".001Z", 1), b""),
        "an output that is cut": Outcome(0, output[:-1], b""),
        "a line feed too many": Outcome(0, output + b"\n", b""),
        "no output": Outcome(0, b"", b""),
        "status 1": Outcome(1, output, b""),
        "a signal": Outcome(-11, output, b""),
        "a message": Outcome(0, output, b"rs_source: Read\n"),
    }


@pytest.mark.parametrize("name", outputs())
def test_the_judge_rejects_a_wrong_output(name: str) -> None:
    _, lines, answers = script(0)
    assert script_runs.faults(lines, answers, outputs()[name])


def test_the_judge_accepts_the_right_output() -> None:
    _, lines, answers = script(0)
    assert not script_runs.faults(lines, answers, Outcome(0, b"".join(answers), b""))
