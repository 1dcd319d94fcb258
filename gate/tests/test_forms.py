"""Test forms.py: it names edits that break a part cited by answers by hand, and not edits that change a value."""
import tempfile
from pathlib import Path

from gate.edits import edit, forms, goals
from gate.tests.samples import write

SUMS = """fn add(a: u64, b: u64) -> u64
    ensures sum { result ≡ a + b }
{
    let total = a + b;
    total
}

fn free(a: u64) -> u64 {
    let total = a;
    total
}
"""
ANSWERS = "pub returns-clause-sum : goal.returns-clause-sum\nreturns-clause-sum g c = c.total\n"


def test_those_of_crates_are_told() -> None:
    with tempfile.TemporaryDirectory() as room:
        write(SUMS, room, "crates/sums/src/sum.rt")
        write(ANSWERS, room, "crates/sums/proofs/sum/add/Answers.antt")
        for name, new in (("form", "if b == 0 { a } else { b };"), ("value", "a + b + 1;")):
            edit_text = f"file: src/sum.rt\nold: a + b;\nnew: {new}\n"
            write(edit_text, room, "crates/sums/must-fail", f"{name}.edit")
        write("".join(f"sums/{name}: returns-clause-sum\n" for name in ("form", "value")), room, goals.FILE)
        assert forms.told(Path(room), ["sums"]) == ["sums/form: returns-clause-sum: it adds else if",
                                                    "forms: 1 of 2 edits may be refused for their form alone"]


def why(old: str, new: str, goal: str = "returns-clause-sum") -> str:
    """Return the parts of a function's form that an edit breaks."""
    with tempfile.TemporaryDirectory() as room:
        write(SUMS, room, "src/sum.rt")
        write(ANSWERS, room, "proofs/sum/add/Answers.antt")
        return forms.why_of_form(Path(room), edit.Edit("sums/one", [("src/sum.rt", old, new)], goal=goal))


def test_a_way_out_more_is_named() -> None:
    more = "    if a == 0 { return 0; }\n    let total = a + b;"
    assert why("    let total = a + b;", more) == "it adds if return"


def test_a_local_that_goes_is_named() -> None:
    found = why("    let total = a + b;\n    total", "    let sum = a;\n    sum")
    assert found == "the answers by hand cite total"


def test_a_value_shows_something() -> None:
    assert why("a + b;", "a + b + 1;") == ""
    assert why("    let total = a + b;", "    let total = a + b; // return") == ""


def test_a_goal_or_a_function_without_an_answer_shows_something() -> None:
    more = "    if a == 0 { return 0; }\n    let total = a"
    assert why("    let total = a + b", f"{more} + b", "returns") == ""
    assert why("    let total = a + b", f"{more} + b", "") == ""
    assert why("    let total = a;", f"{more};") == ""
