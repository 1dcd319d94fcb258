"""The evidence of definitions: the table evidence.txt, and whether its pointers lead somewhere.

A line has the definitions of one file of specs, a kind, and where it is, as in
`rs_model.Step: fold_of step | python | tests/reading/x.py: f`. Of a function of code its crate is enough, if one file
alone has the name: `rs_time.Moment: moment_text | law | rs_time: moment_texts_read_back`.
"""

import ast
import re
from collections.abc import Iterable
from dataclasses import dataclass
from pathlib import Path

from rattle import antt
from rattle.antt import Definition
from rattle.code import functions_of
from statement import tables
from statement.promises import Promise
from statement.reach import closure
from statement.world import Item, Unknown, World

# The kinds, and the places to which they may point.
KINDS = {
    "example": ("computed from the definition alone, and proved", r"crates/\w+/(proofs|specs|src/laws).*\.(antt|rt)$"),
    "law": ("a proved law: the definition in other words, what it is for, or that it leaves no other value",
            r"crates/\w+/src/.*\.rt$"),
    "python": ("the same, said apart in Python, and compared with what the proved program answers or writes",
               r"(tests|operations|bench)/(\w+/)*\w+\.py$"),
    "row": ("a worked row, which the proved program answers byte for byte", r"tests/rows/\w+$"),
    "test": ("values from outside, in a test of the code that is proved equal to the definition",
             r"crates/\w+_tests/src/\w+\.rt$"),
}


@dataclass(frozen=True)
class Evidence:
    """One piece of evidence: its kind, the file, and the name in it ('' for a row)."""

    kind: str
    path: str
    name: str

    @property
    def label(self) -> str:
        """Return its kind, its file and its name."""
        return f"{self.kind}: {self.path}" + (f", {self.name}" if self.name else "")


def file_of(world: World, place: str, name: str) -> str:
    """Return the file of a place: the file of a crate that has the function, or the place itself."""
    if place not in world.crates:
        return place
    found = {function.path for code in world.code.values() for function in code.functions
             if (function.crate, function.name) == (place, name)}
    if len(found) != 1:
        raise tables.Wrong(f"statement/evidence.txt: {len(found)} files of {place} have a function {name}")
    return found.pop()


def parsed(world: World, line: str) -> tuple[list[str], Evidence]:
    """Return the definitions of a line, by their labels, with their evidence."""
    parts = [part.strip() for part in line.split(" | ")]
    if len(parts) != 3 or parts[1] not in KINDS:
        raise tables.Wrong(f"statement/evidence.txt: not a line of the table: {line}")
    specs, _, names = parts[0].partition(": ")
    place, _, name = parts[2].partition(": ")
    piece = Evidence(parts[1], file_of(world, place, name), name)
    return [f"{specs}.{name}" for name in names.split()], piece


def evidence(world: World, text: str | None = None) -> dict[str, list[Evidence]]:
    """Return the evidence of definitions, by their labels."""
    found: dict[str, list[Evidence]] = {}
    for line in tables.rows("evidence.txt", text):
        labels, piece = parsed(world, line)
        for label in labels:
            found.setdefault(label, []).append(piece)
    return found


def names_in_python(text: str) -> set[str]:
    """Return the names in a file of Python: functions, classes, methods as `Class.method`, variables of the module."""
    found = set[str]()
    for node in ast.parse(text).body:
        if isinstance(node, (ast.FunctionDef, ast.ClassDef)):
            found.add(node.name)
        if isinstance(node, ast.ClassDef):
            found |= {f"{node.name}.{part.name}" for part in node.body if isinstance(part, ast.FunctionDef)}
        if isinstance(node, ast.Assign):
            found |= {part.id for target in node.targets for part in ast.walk(target) if isinstance(part, ast.Name)}
    return found


def names_in(path: str, text: str) -> set[str]:
    """Return the names that a file defines."""
    if path.endswith(".py"):
        return names_in_python(text)
    if path.endswith(".rt"):
        return {function.name for function in functions_of(text)}
    return set(antt.read("", path, text).definitions)


def fault_of(root: Path, piece: Evidence) -> str:
    """Return the fault of a pointer, or nothing."""
    if not re.match(KINDS[piece.kind][1], piece.path):
        return f"{piece.path} is no place for the kind '{piece.kind}'"
    if piece.kind == "row":
        return "" if list(root.glob(f"{piece.path}.*")) else f"there is no row {piece.path}"
    path = root / piece.path
    if not path.is_file():
        return f"there is no file {piece.path}"
    return "" if piece.name in names_in(piece.path, path.read_text()) else f"{piece.path} has no {piece.name}"


def bare(definitions: Iterable[Definition], found: dict[str, list[Evidence]]) -> list[Definition]:
    """Return the definitions without evidence. A statement with its proof needs none."""
    return [definition for definition in definitions if definition.label not in found and definition.kind != "proof"]


def labels_of(world: World, piece: Evidence) -> set[str]:
    """Return the labels of all definitions that a law or an example names."""
    if piece.path.endswith(".rt"):
        pairs = world.law(piece.path, piece.name)
        first: list[Item] = [used for pair in pairs for used in world.links_of_clause(*pair).values()]
    else:
        first = [world.stated(piece.path, piece.name)]
    return {item.label for item in closure(world, first)}


def silent(world: World, found: dict[str, list[Evidence]], pieces: list[Evidence]) -> list[str]:
    """Return the laws and examples that do not name a definition, although evidence.txt says so."""
    wrong = list[str]()
    for piece in pieces:
        if piece.kind in ("law", "example"):
            labels = labels_of(world, piece)
            wrong += [f"{piece.label} does not speak of {label}" for label, each in found.items()
                      if piece in each and label not in labels]
    return wrong


def faults(world: World, promises: Iterable[Promise], found: dict[str, list[Evidence]]) -> list[str]:
    """Return pointers to nothing or to text without the definition, and definitions that no promise reaches."""
    known = {definition.label for promise in promises for definition in promise.reach.definitions}
    pieces = list(dict.fromkeys(piece for each in found.values() for piece in each))
    wrong = list(filter(None, (fault_of(world.root, piece) for piece in pieces)))
    wrong += [f"no promise reaches {label}" for label in sorted(found) if label not in known]
    if not wrong:
        try:
            wrong = silent(world, found, pieces)
        except Unknown as fault:
            wrong = [str(fault)]
    return [f"statement/evidence.txt: {fault}" for fault in wrong]
