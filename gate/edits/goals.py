"""The goals that last refused must-fail edits (goals.txt), and how a trial leaves out the other goals.

One open goal refuses an edit, and the prover searches long for all others. So that of an edit's line alone is tried,
and refuses it: the others get an answer that no check takes. Where it has an answer by hand, all these stay, since one
may cite another.
"""

import json
import re
from collections.abc import Iterable
from pathlib import Path

from gate.edits import copies
from gate.edits.edit import Edit, Outcome, Texts
from rattle.tables import lines

FILE = "gate/edits/goals.txt"
HEAD = "# The goal by which each must-fail edit was last seen refused. Written by `make edits`.\n"
# An answer by hand: the public words of its file.
ANSWERED = re.compile(r"(?m)^pub (\S+) :")
# The place in the prover's kept work that names a module's declarations.
DECLARED = re.compile(rb"(?m)^--@ interface (\{.*\})$")
# No name that is in scope, so an answer that is no answer; and no goal of any function.
NO_ANSWER = "left_out_of_this_trial"
NO_GOAL = "no_goal_of_any_function"


def known(root: str | Path) -> dict[str, str]:
    """Return the goals of edits with a line, by label."""
    text = Path(root, FILE).read_text() if Path(root, FILE).is_file() else ""
    return dict(line.split(": ") for line in lines(text))


def write(root: str | Path, crate: str, edits: Iterable[Edit]) -> None:
    """Rewrite the lines of a crate's edits. One that was not tried keeps its line, as its crate is not proved."""
    found = {label: goal for label, goal in known(root).items() if not label.startswith(f"{crate}/")}
    found |= {edit.label: edit.goal for edit in edits
              if edit.goal and edit.outcome in (Outcome.REFUSED, Outcome.NOT_TRIED)}
    Path(root, FILE).write_text(HEAD + "".join(f"{label}: {found[label]}\n" for label in sorted(found)))


def of_function(work: str | Path, symbol: str) -> list[str]:
    """Return the goals of a function as it is, by the declarations of its proof in kept work: none where that has
    another way, which costs only time."""
    crate, *names = symbol.split("::")
    file = next(Path(work).glob(f"*/Rattle-{crate}-proofs.{'.'.join(names)}.Proof.oantt"), None)
    declared = DECLARED.search(file.read_bytes()) if file else None
    exports = json.loads(declared[1])["exports"] if declared else []
    found: list[str] = [each["spelling"] for each in exports if not each["pub"]]
    return [goal for goal in found if not any(other.startswith(f"{goal}-clause-") for other in found)]


def beside(edit: Edit, folder: str | Path) -> list[str]:
    """The goals that get an answer that is none in a trial of an edit: NO_GOAL alone, where no goal of it is known."""
    if not edit.goal:
        return [NO_GOAL]
    answers = Path(folder, copies.proof_folder(next(iter(edit.symbols))), "Answers.antt")
    by_hand = ANSWERED.findall(answers.read_text()) if answers.is_file() else []
    # A goal covers its clauses, and one of them covers it.
    parts = [goal for goal in edit.others
             if goal.startswith(f"{edit.goal}-clause-") or edit.goal.startswith(f"{goal}-clause-")]
    stay = {*by_hand, edit.goal, *parts}
    return [*(by_hand if edit.goal not in by_hand else []), *(goal for goal in edit.others if goal not in stay),
            NO_GOAL]


def left_out(texts: Texts, folder: str | Path, symbol: str, edit: Edit) -> Texts:
    """These texts, with the answers of a function or its copy that leave out all but the known goal of an edit.
    Over an answer to no goal, the prover does not run again to print its offers for the open ones."""
    place, goals = copies.proof_folder(symbol), beside(edit, folder)
    if copies.has_proof_of_its_own(folder, symbol):
        return texts
    path, module = place / "Answers.antt", f"{copies.proof_module(symbol)}.Goals"
    text = texts.get(str(path)) or (Path(folder, path).read_text() if Path(folder, path).is_file() else "")
    text = "" if {*ANSWERED.findall(text)} & {*goals} else text
    if not (brought := re.search(rf"(?m)^use {re.escape(module)} as (\w+)", text)):
        text = f"use {module} as goals_of_this_trial\n{text}"
    name = brought[1] if brought else "goals_of_this_trial"
    answers = [f"\npub {goal} : {name}.{goal}\n{goal} = {NO_ANSWER}\n" for goal in goals]
    return {**texts, str(path): text + "".join(answers)}
