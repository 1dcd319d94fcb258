"""Read a file of code (`*.rt`) as far as a statement needs it: its types, and the names in reach of its clauses.

It looks at types at the left edge, and at the signatures and the clauses of functions, never at their bodies.
"""

import itertools
import re
from dataclasses import dataclass, field

from rattle import antt, code
from rattle.code import blanked, closed

GHOST_USE = re.compile(r"^[ ]*ghost (use [^;]*);", re.M)
RUST_USE = re.compile(r"^(?:pub )?use ([\w:]+?)(?:::\{([^}]*)\})?;", re.M)
TYPE = re.compile(r"^(?:pub(?:\(\w+\))? )?(struct|enum|trait) (\w+)", re.M)
GHOST = re.compile(r"\bghost (\w+):")
VALUE = re.compile(r"\bghost Value = \{")
BOUND = re.compile(r"(\w+): (\w+)")
WORD = re.compile(r"\b[A-Z]\w*")
# The name of a variant of an enum, which stands at the front of its line.
VARIANT = re.compile(r"^[ ]+[A-Z]\w*", re.M)


@dataclass(eq=False)
class Clause:
    """A clause of a function: its kind (`ensures` or `requires`), its name, the text in its braces, and its lines."""

    kind: str
    name: str
    inner: str
    lines: list[str]
    # The record that it names, of which one field alone stands, where a promise names no other.
    part: antt.Definition | None = None


@dataclass(eq=False)
class Function:
    """A function: its owner ('' for none), its place, and the names in reach of its clauses."""

    crate: str
    path: str
    owner: str
    name: str
    line: int
    signature: str
    clauses: list[Clause]
    # The traits that its type parameters have, and what its block brings in.
    bounds: dict[str, str]
    brought: dict[str, antt.Name]
    # What is bound in each of its clauses.
    local: set[str]

    @property
    def full_name(self) -> str:
        """Return its owner and its name."""
        return f"{self.owner}::{self.name}" if self.owner else self.name

    @property
    def label(self) -> str:
        """Return its crate, its owner and its name."""
        return f"{self.crate}::{self.full_name}"


@dataclass(eq=False)
class Type:
    """A type of the code, or a trait: its place, the comment above it, its text, and its part in contracts."""

    crate: str
    path: str
    kind: str
    name: str
    line: int
    comment: list[str]
    text: str
    # The ghost members, and its value in contracts, if it has one of its own.
    ghosts: list[tuple[str, str]] = field(default_factory=list)
    value: str = ""
    brought: dict[str, antt.Name] = field(default_factory=dict)

    @property
    def label(self) -> str:
        """Return its crate and its name."""
        return f"{self.crate}::{self.name}"


@dataclass
class Code:
    """A file of code."""

    crate: str
    path: str
    brought: dict[str, antt.Name] = field(default_factory=dict)
    aliases: dict[str, str] = field(default_factory=dict)
    # Names of other files of code: the crate and the name there.
    used: dict[str, tuple[str, str]] = field(default_factory=dict)
    types: dict[str, Type] = field(default_factory=dict)
    functions: list[Function] = field(default_factory=list)


def item_end(text: str, at: int) -> int:
    """Return the end of an item at the left edge: its brace, or its line."""
    stop = re.compile(r"[{;]").search(text, at)
    if stop is None:
        raise ValueError("an item is not ended")
    return closed(text, stop.start()) if stop[0] == "{" else stop.end()


def line_of(text: str, at: int) -> int:
    """Return the number of the line of a place."""
    return text.count("\n", 0, at) + 1


def ghost_uses(text: str) -> tuple[dict[str, antt.Name], dict[str, str]]:
    """Return the imports of the ghost uses of a text, and the modules under another name."""
    brought, aliases = dict[str, antt.Name](), dict[str, str]()
    for use in GHOST_USE.finditer(text):
        names, others, _ = antt.brought_by(" ".join(use[1].split()))
        brought.update(names)
        aliases.update(others)
    return brought, aliases


def rust_uses(crate: str, text: str) -> dict[str, tuple[str, str]]:
    """Return the names that come from files of code: the crate and the name there."""
    used: dict[str, tuple[str, str]] = {}
    for use in RUST_USE.finditer(text):
        path, names = use[1].split("::"), use[2]
        if names is None:
            path, names = path[:-1], path[-1]
        source = crate if path and path[0] in ("crate", "super", "self") else (path or [""])[0]
        for name in names.split(","):
            pair = name.strip().split(" as ")
            used[pair[-1].strip()] = (source, pair[0].strip())
    return used


def comment_above(lines: list[str], number: int) -> list[str]:
    """Return the `///` lines above a line, past attributes."""
    above = itertools.takewhile(lambda line: line.startswith(("///", "#[")), reversed(lines[: number - 1]))
    return [line[3:].strip() for line in above if line.startswith("///")][::-1]


def ghosts_of(text: str) -> list[tuple[str, str]]:
    """Return the texts in the braces of the ghost members of a type or a trait."""
    found = []
    for ghost in GHOST.finditer(text):
        at = text.index("{", ghost.end())
        found.append((ghost[1], text[at + 1 : closed(text, at) - 1]))
    return found


def types_of(file: Code, text: str, quiet: str) -> None:
    """Return the types of a file and its traits."""
    lines = text.splitlines()
    for head in TYPE.finditer(quiet):
        end, line = item_end(quiet, head.end()), line_of(quiet, head.start())
        made = Type(file.crate, file.path, head[1], head[2], line, comment_above(lines, line), text[head.start() : end])
        inner = quiet[head.start() : end]
        made.ghosts, made.brought = ghosts_of(inner), ghost_uses(inner)[0]
        file.types[head[2]] = made


def values_of(file: Code, quiet: str) -> None:
    """Return the values of types in contracts (`impl Model for`)."""
    for block in code.blocks_of(quiet):
        model = re.search(r"\bModel for (\w+)", block.head)
        inner = quiet[block.start : block.end]
        value = VALUE.search(inner)
        if model and value and model[1] in file.types:
            made = file.types[model[1]]
            made.value = inner[value.end() : closed(inner, value.end() - 1) - 1]
            made.brought = ghost_uses(inner)[0]


def clause_of(text: str, clause: code.Clause) -> Clause:
    """Return a clause with its lines."""
    first = line_of(text, clause.start)
    lines = text.splitlines()[first - 1 : line_of(text, clause.end - 1)]
    step = len(lines[0]) - len(lines[0].lstrip())
    return Clause(clause.kind, clause.name, clause.inner, [line[step:] for line in lines])


def owner_of(block: str) -> str:
    """Return the type that a block belongs to: `impl<D: Disk> Source<D>` belongs to Source, a module to none."""
    plain = re.sub(r"<[^<>]*>", "", re.sub(r"<[^<>]*>", "", block))
    kind, *words = plain.split(" for ")[-1].replace(":", " :").split()
    return "" if kind == "mod" else (words[0] if kind in ("impl", "trait") else kind)


def function_of(file: Code, text: str, quiet: str, found: code.Function) -> Function:
    """Return a function of a file, with the names in reach of its clauses."""
    inner = quiet[found.around.start : found.around.end] if found.around else ""
    bounds = dict(BOUND.findall(found.block)) | dict(BOUND.findall(found.signature.split("(")[0]))
    names = {"result", "self"} | set(re.findall(r"\b(\w+):", found.signature)) | {name for name, _ in ghosts_of(inner)}
    owner = owner_of(found.block) if found.around else ""
    return Function(file.crate, file.path, owner, found.name, line_of(text, found.at), found.signature,
                    [clause_of(text, clause) for clause in found.clauses], bounds, ghost_uses(inner)[0],
                    names - set(bounds))


def read(crate: str, path: str, text: str) -> Code:
    """A file of code."""
    quiet = blanked(text)
    if quiet.count("{") != quiet.count("}"):
        raise ValueError(f"{path}: a brace is not closed")
    file = Code(crate, path, used=rust_uses(crate, quiet))
    outer = re.sub(r"^[ ]+ghost use [^;]*;", lambda use: " " * len(use[0]), quiet, flags=re.M)
    file.brought, file.aliases = ghost_uses(outer)
    types_of(file, text, quiet)
    values_of(file, quiet)
    file.functions = [function_of(file, text, quiet, found) for found in code.functions_of(text)]
    return file
