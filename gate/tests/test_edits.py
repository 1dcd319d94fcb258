"""Test the runner of edits: which edits count as refused, with the prover and by the report of a check."""

import contextlib
import io
import sys
from collections.abc import Iterable, Sequence
from pathlib import Path
from unittest import mock

import pytest

from gate.edits import edit, edits, goals, kit, verdict
from gate.edits.groups import Group
from gate.edits.libraries import Libraries
from gate.tests.samples import CODE, repository, rows, text, write, write_edit

# The report of a check of functions; and of a function and its copy, with one answer of both left out.
REPORT, LEFT_OUT = text("told"), text("left_out")
CUT = ("./proofs/m/open/Answers.antt:3:1: error: `returns`: record `low.m.open.Lts.View`%shas no field `found`\n"
       "fn low::m::open: not proved\nlogic=not-proved\n")
OPEN, COPY, FOUND, SIZE = "low::m::open", "low::m::open_tried_1", "returns-clause-found", "returns-clause-size"


# The prover reads its libraries at every check.
def outcomes(room: str, tried: Iterable[list[str]]) -> dict[str, edit.Edit]:
    """Try these edits, check their outcomes against the rows, and return them by name."""
    Path(room, "crates/sample/must-fail/one.edit").unlink()
    for name, old, new, _, _ in tried:
        write_edit(room, "sample", name, old, new)
    write("".join(f"sample/{name}: {goal}\n" for name, *_, goal in tried if goal), room, goals.FILE)
    every = edits.try_crates(room, ["sample"], 1)["sample"]
    found = {one.label.removeprefix("sample/"): one for one in every}
    assert {name: one.outcome.value for name, one in found.items()} == {
        name: outcome for name, _, _, outcome, _ in tried}
    return found


@pytest.mark.timeout(900)
def test_what_comes_of_each_edit() -> None:
    with repository(sample=CODE) as room:
        outcomes(room, [row for row in rows("edits") if not row[-1]])


@pytest.mark.timeout(900)
def test_one_goal_of_each_edit_in_one_check() -> None:
    """Edits of one function with known goals share a check by goal; an edit not refused there is tried alone."""
    tried = [row for row in rows("edits") if row[-1]]
    with repository(sample=CODE) as room:
        found = outcomes(room, tried)
        assert {name for name in found if "_tried_" in found[name].why} == {
            "known.always_the_first", "known.the_greater", "known.kept"}
        assert found["known.by_a_goal_that_holds"].why.startswith("(alone) ")
        goals.write(room, "sample", found.values())
        wanted = {f"sample/{name}": goal for name, *_, outcome, goal in tried if outcome == "refused"}
        assert goals.known(room) == {
            **wanted, "sample/known.by_a_goal_that_holds": "returns-else-a-b-clause-second"}


@pytest.mark.timeout(900)
def test_an_edit_that_was_not_tried_keeps_its_goal() -> None:
    """Whether a line of goals stays depends on the outcome of its edit; lines of other crates stay."""
    every = [edit.Edit(f"low/{outcome.name}", [], outcome, goal="sum") for outcome in edit.Outcome]
    with repository(low=CODE) as room:
        write("".join(f"{one.label}: sum\n" for one in every) + "high/one: size\n", room, goals.FILE)
        goals.write(room, "low", every)
        assert goals.known(room) == {"low/REFUSED": "sum", "low/NOT_TRIED": "sum", "high/one": "size"}


@pytest.mark.timeout(900)
def test_a_crate_that_is_not_proved() -> None:
    with repository(sample=CODE.replace("x - x", "x")) as room:
        outcomes(room, [["one", "a", "b", "NOT TRIED", ""]])


@pytest.mark.timeout(900)
def test_how_a_run_ends() -> None:
    """The last line counts refused and other edits, which decide the status; an unbuilt library stops a run."""
    refused, proved = (edit.Edit("low/one", [], outcome) for outcome in (edit.Outcome.REFUSED, edit.Outcome.PROVED))
    assert end([refused], "") == (0, "1 refused, 0 not refused")
    assert end([refused, proved], "") == (1, "1 refused, 1 not refused")
    with pytest.raises(SystemExit, match="^no$"):
        end([refused], "no")


def end(every: list[edit.Edit], wrong: str) -> tuple[int, str]:
    """Return the status and the last line of a run with these edits; `wrong` is the libraries' build error."""
    with (repository(low=CODE) as room, contextlib.redirect_stdout(io.StringIO()) as out,
          mock.patch.object(sys, "argv", ["edits.py", "--root", room]),
          mock.patch.object(Libraries, "build_each", lambda self, names: wrong),
          mock.patch.object(edits, "try_crates", lambda *arguments: {"low": every})):
        return edits.main(), out.getvalue().splitlines()[-1]


def judged(report: str, goal: str = "", others: Sequence[str] = (),
           on: Iterable[str] = (OPEN,)) -> list[bool]:
    """Return which edits of a group that change these functions or copies a report refuses."""
    tried = {symbol: edit.Edit("low/it", [], symbols={symbol if goal == "" else OPEN}, goal=goal, others=[*others])
             for symbol in on}
    edits.Trial("low", [], mock.Mock(root="")).judge(Group(tried), kit.Report(1, report))
    return [one.is_refused for one in tried.values()]


def test_whose_goals_a_check_leaves_open() -> None:
    of_some = REPORT.replace("logic=not-proved", "only=7 proved=1")
    found = verdict.read("low", kit.Report(1, of_some))
    assert verdict.read("low", kit.Report(1, REPORT)) == found
    assert ({*found.own}, found.is_read) == (
        {OPEN, "low::m::Kept::change", "low::m::answered", "low::m::calls_itself"}, True)
    unread = "src/m.rt:1:1: error[unexpected-token]: no\n" + REPORT
    without = REPORT.replace("logic=not-proved\n", "rattle: no verdict\n")
    for status, report in ((1, unread), (2, REPORT), (2, of_some), (1, without)):
        assert not verdict.read("low", kit.Report(status, report)).is_read


def test_an_error_that_is_cut_in_two() -> None:
    """A proof that names a missing thing says nothing about its function's own goals, wherever its error is cut."""
    for cut, own in ((" ", []), ("\n  ", []), ("\n  is not that which ", [OPEN])):
        assert [*verdict.read("low", kit.Report(1, CUT % cut)).own] == own


def test_which_goal_of_several_comes_first() -> None:
    """Goals found false, ensured by the function, or with a refused answer by hand come before other goals."""
    is_false = f"what it ensures (`{FOUND}`); the facts known there {verdict.IS_FALSE}"
    opened = ["that a sum fits (`sum-fits`)", f"what it ensures (`{SIZE}`)", is_false]
    assert verdict.names_of(opened) == [FOUND, SIZE, "sum-fits"]
    report = kit.Report(1, LEFT_OUT.replace("`gone` is not in scope", "the two types differ"))
    assert verdict.read("low", report, {COPY: [SIZE]}).refused(COPY) == [FOUND, "invariant-loop-n"]


def test_an_answer_that_is_left_out_refuses_nothing() -> None:
    """Neither for a copy nor for a function; nor does another answer if the search has the edit's goal."""
    proved = LEFT_OUT.replace("note:", "past:")
    differing = proved.replace("`gone` is not in scope", "the two types differ")
    for report, wanted in ((LEFT_OUT, True), (proved, False), (differing, False)):
        assert judged(report, FOUND, [SIZE], (COPY, OPEN)) == [wanted, False], report


def test_an_error_of_a_function_that_no_edit_changes_leaves_all_open() -> None:
    changed = [f"low::m::{name}" for name in ("open", "answered", "calls_itself", "Kept::change")]
    assert judged(REPORT, on=changed) == [True] * 4
    assert judged(REPORT, on=changed[:3]) == [False] * 3
