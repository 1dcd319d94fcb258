"""Names the must-fail edits whose refusal may be of form alone.

Answers by hand cite the exits and locals of their function. An edit that adds an exit, or removes a cited local or
call, breaks these answers, whether its body is wrong or not. The module names an edit if the goal that last refused it
(goals.txt) has an answer by hand, and if the edit makes such a change. It reads texts only. `make edits` and `make
long` print these edits after their results.

usage: python3 -m gate.edits.forms     the last line has their number
"""
import collections
import re
import sys
from collections.abc import Iterable
from pathlib import Path

from gate.edits import edit, goals
from gate.edits.symbols import module_of, words_of
from rattle.code import Function, blanked, functions_of
from rattle.crates import crates_of

ROOT = Path(__file__).resolve().parents[2]
# The words that add a way out, or a branch.
WAYS = re.compile(r"\breturn\b|\bbreak\b|\bif\b|\belse\b|\bmatch\b|\bwhile\b|\bfor\b|\bloop\b|\?|&&|\|\||=>")
# The names that a text binds or calls: an answer by hand cites them.
NAMED = re.compile(r"\blet (?:mut )?(\w+)|\bfor (\w+) in\b|\b(\w+)\(")


def names_of(text: str) -> set[str]:
    """The locals and the calls of a body."""
    return {name for found in NAMED.findall(blanked(text)) for name in found if name}


def ways_of(text: str) -> collections.Counter[str]:
    """The ways out and the branches of a body."""
    return collections.Counter(WAYS.findall(blanked(text)))


def hand_files(crate: Path, path: str, function: Function) -> list[Path]:
    """The files by hand of a function: those of a folder of its name, below that of its module or of its type."""
    module = module_of(path)
    folders = [folder for folder in (crate / "proofs").rglob("*") if folder.is_dir()
               and folder.name.removeprefix("+") == function.name]
    owner = (words_of(function.block.split(" for ")[-1].partition("where")[0])[1:2] or [""])[0]
    fitting = [folder for folder in folders if owner in folder.parts] if function.block else [
        folder for folder in folders if list(folder.relative_to(crate / "proofs").parts[:-1]) == module]
    return [file for folder in fitting for file in sorted(folder.glob("*.antt"))]


def why_of_form(crate: Path, one: edit.Edit) -> str:
    """Return the part of the form that an edit breaks, or nothing."""
    texts = edit.applied(one, crate)
    if texts is None or not one.goal:
        return ""
    for path, old, _ in one.pairs:
        before, after = (crate / path).read_text(), texts[path]
        # (a later pair may change the text of an earlier one)
        at = before.find(old)
        function = next((one for one in functions_of(before) if one.start < at < one.end), None)
        if function is None:
            continue
        own = function.name, function.block
        changed = next((one for one in functions_of(after) if (one.name, one.block) == own), None)
        by_hand = "".join(file.read_text() for file in hand_files(crate, path, function))
        if changed is None or one.goal not in goals.ANSWERED.findall(by_hand):
            continue
        old_body, new_body = before[function.start : function.end], after[changed.start : changed.end]
        if more := ways_of(new_body) - ways_of(old_body):
            return f"it adds {' '.join(sorted(more))}"
        gone = sorted(name for name in names_of(old_body) - names_of(new_body)
                      if re.search(rf"(?<!\w){name}(?!\w)", by_hand))
        if gone:
            return f"the answers by hand cite {' '.join(gone)}"
    return ""


def told(root: Path, crates: Iterable[str]) -> list[str]:
    """Return a line for every edit of these crates that is named, and one with their number."""
    known = goals.known(root)
    every = [(root / "crates" / crate, one) for crate in crates for one in edit.of_crate(root, crate, known)]
    lines = [f"{one.label}: {one.goal}: {why}" for crate, one in every if (why := why_of_form(crate, one))]
    return [*lines, f"forms: {len(lines)} of {len(every)} edits may be refused for their form alone"]


def main() -> int:
    """Names them, and gives the status."""
    print("\n".join(told(ROOT, crates_of(ROOT))))
    return 0


if __name__ == "__main__":
    sys.exit(main())
