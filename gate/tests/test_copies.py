"""Test how an edit is put into a trial: the changed function, its copy, and the goals that are left out."""

import json
import tempfile
from collections.abc import Iterator, Sequence
from pathlib import Path
from unittest import mock

import pytest

from gate.edits import copies, edit, goals
from gate.edits.groups import grouped
from gate.edits.symbols import symbol_of
from gate.tests.samples import CODE, repository, rows, write
from rattle.code import functions_of

ANSWERS = """use Rattle.sample.proofs.next.Goals as goal

pub returns : goal.returns
returns = help

help : ℕ
help = 1

pub second : goal.second
second = tt
"""
METHODS = """impl<T: Disk> Disk for Box<T> {
    fn read(&self) {}
}
impl Used {
    fn take(&self) {}
}
fn take() {}
"""
# The function `next` of the sample, or a copy of it.
NEXT = "pub fn {name}(x: u8) -> u16\n    ensures value {{ result ≡ x + 1 }}\n{{\n    {body}\n}}"


@pytest.fixture
def folder() -> Iterator[Path]:
    """Return the folder of a sample crate."""
    code = CODE.replace("pub fn next", "#[inline]\npub fn next")
    with repository(sample=code) as room:
        yield Path(room, "crates", "sample")


def edit_of(folder: Path, old: str, new: str, name: str = "next", goal: str = "",
            others: Sequence[str] = ()) -> edit.Edit:
    """Return an edit of a function of the sample."""
    found = edit.Edit(new, [("src/lib.rt", old, new)], goal=goal, others=[*others])
    edit.look(found, folder, [f"sample::{name}"])
    return found


def groups(folder: Path, edits: list[edit.Edit]) -> list[dict[str, str]]:
    """Return the edits by the functions and copies that they change, check by check."""
    groups = grouped(edits, folder)
    return [{symbol: one.label for symbol, one in group.tried.items()} for group in groups]


def test_symbols_of_functions(folder: Path) -> None:
    symbols = ["a::m::BoxTDisk::read", "a::m::n::Used::take", "a::m::take", "a::take"]
    of_methods = [symbol_of("src/m.rt", one, symbols) for one in functions_of(METHODS)]
    assert of_methods[1:] == ["a::m::n::Used::take", "a::m::take"]
    assert edit_of(folder, "u16::from(x) + 1", "u16::from(x) + 2").symbols == {"sample::next"}
    assert edit_of(folder, "result ≤ a", "result ≤ b", "smaller").symbols == set()


def test_edits_that_stand_on_copies(folder: Path) -> None:
    """Every edit has its own copy; a function that can't be copied is changed itself, by one edit per check."""
    every = [edit_of(folder, "from(x) + 1", f"from(x) + {number}") for number in (2, 3, 4)]
    [group] = grouped(every, folder)
    bodies = [("sample::next", "from(x) + 1"), *((symbol, one.label) for symbol, one in group.tried.items())]
    for symbol, body in bodies:
        text = NEXT.format(name=symbol.removeprefix("sample::"), body=f"u16::{body}")
        assert group.texts["src/lib.rt"].count(text) == 1, text
    with mock.patch.object(copies, "can_be_copied", lambda one, folder: one.label == "from(x) + 4"):
        first = {"sample::next": "from(x) + 2", "sample::next_tried_1": "from(x) + 4"}
        assert groups(folder, every) == [first, {"sample::next": "from(x) + 3"}]
    with mock.patch.object(copies, "can_be_copied", lambda one, folder: False):
        changes = (("if a < b {", "if b < a {"), ("else { b }", "else { a }"))
        assert groups(folder, [edit_of(folder, old, new, "smaller") for old, new in changes]) == [
            {"sample::smaller": new} for _, new in changes]


def test_which_functions_are_copied() -> None:
    for head, place, text, can_be in rows("copied"):
        with tempfile.TemporaryDirectory() as room:
            write(text, room, "proofs", place)
            [function] = functions_of(head + " {\n    fn turn() ensures { P } {}\n}\n")
            one = edit.Edit("", [("src/lib.rt", "", "")], symbols={"low::Kind::turn"}, function=function)
            assert copies.can_be_copied(one, room) == (can_be == "yes")


def test_a_copy_of_a_function(folder: Path) -> None:
    """The copy follows its function, has the edit and its own proof files; an answer is left out once."""
    text, answers = (folder / "src/lib.rt").read_text(), ANSWERS.partition("help")[0] + "next.tt\n"
    write(answers, folder, "proofs/next/Answers.antt")
    one = edit_of(folder, "u16::from(x) + 1", "u16::from(x) + 2", goal="returns", others=["other"])
    edited = edit.applied(one, folder)
    assert edited is not None
    texts, symbols = copies.with_copy({}, folder, one, edited, 7)
    texts = goals.left_out(texts, folder, next(iter(symbols)), one)
    function, copy = (f"/// One more.\n#[inline]\n{NEXT.format(name=name, body=body)}"
                      for name, body in (("next", "u16::from(x) + 1"), ("next_tried_7", "u16::from(x) + 2")))
    assert (symbols, texts["src/lib.rt"]) == (
        {"sample::next_tried_7"}, text.replace(function, f"{function}\n\n{copy}"))
    left_out = ("other", goals.NO_GOAL)
    added = "".join(f"\npub {goal} : goal.{goal}\n{goal} = {goals.NO_ANSWER}\n" for goal in left_out)
    copied = answers.replace("proofs.next.", "proofs.next_tried_7.")
    assert texts["proofs/next_tried_7/Answers.antt"] == copied + added


def test_what_is_left_out_of_a_trial(folder: Path) -> None:
    """All other goals of the function, and all goals with an answer by hand if the search has the edit's goal."""
    write(ANSWERS, folder, "proofs/next/Answers.antt")
    trials: list[tuple[str, list[str], list[str]]] = [
        ("", ["first", "third"], []),
        ("first", ["third", "fourth", "first", "returns"], ["returns", "second", "third", "fourth"]),
        ("first", ["first-clause-one", "firsts", "fourth-clause-one"],
         ["returns", "second", "firsts", "fourth-clause-one"]),
        ("first-clause-one", ["first", "first-clause-two"], ["returns", "second", "first-clause-two"]),
        ("returns", ["second", "returns", "returns-clause-one", "first", "fourth"], ["first", "fourth"]),
    ]
    for goal, others, wanted in trials:
        one = edit_of(folder, "u16::from(x) + 1", "u16::from(x) + 2", goal=goal, others=others)
        assert goals.beside(one, folder) == [*wanted, goals.NO_GOAL]
        text = goals.left_out({}, folder, "sample::next", one)["proofs/next/Answers.antt"]
        assert (text.startswith(ANSWERS), "help" in text) == ("returns" not in wanted,) * 2
        counts = [text.count(f"\n{goal} = {goals.NO_ANSWER}\n") for goal in [*wanted, goals.NO_GOAL]]
        assert (counts, text.count(goals.NO_ANSWER)) == ([1] * len(counts), len(counts))


def test_the_goals_that_a_function_has_as_it_is(folder: Path) -> None:
    """The private goals in its kept proof's head, except those with clauses of their own; none without a head."""
    declared = [("returns", False), ("returns-clause-size", False), ("size", False), ("size-clauses", False),
                ("open_spec", True)]
    exports = json.dumps({"exports": [{"spelling": name, "pub": is_public} for name, is_public in declared]})
    sizes = ["returns-clause-size", "size", "size-clauses"]
    for head, wanted in ((f"--@ interface {exports}\n--@ body\n", sizes), (f"interface {exports}\n", []), ("", [])):
        write(f"--@ checked\n{head}", folder, "checked/Rattle-low-proofs.m.open.Proof.oantt")
        assert goals.of_function(folder, "low::m::open") == wanted
        assert goals.of_function(folder, "low::m::opened") == []
