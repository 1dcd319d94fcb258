"""Read a file of specs (*.antt): its imports, and its definitions with the comments above them.

It knows how the files are laid out, and no more of the language: a definition begins at the left edge (or a step in for
each `module _` around it), and goes on with its indented lines and with its equations, which begin with its name or
with a pattern.
"""

import re
from dataclasses import dataclass, field
from typing import NamedTuple

USE = re.compile(r"(?:unfoldable )?(pub )?use ([\w.]+?)(?:\.\{(.*)\}| as (\w+))?$")
HEAD = re.compile(r"(?:(?:abbrev|unfoldable|opaque|pub|record|data) )+(\S+)")
# A statement of a proof file, which nothing marks.
STATEMENT = re.compile(r"([^\s(){}]+) :(?: |$)")
SECTION = re.compile(r"module _ (.*) where$")
CONSTRUCTOR = re.compile(r"  (\w+) :")
# The parts of a file other than definitions.
LAYOUT = ("mod ", "pub mod ")


class Name(NamedTuple):
    """An imported name: the module that has it, and its name there."""

    module: str
    name: str


@dataclass(eq=False)
class Definition:
    """A definition: its place, the comment above it, and its lines, which may include comments."""

    module: str
    name: str
    kind: str
    path: str
    line: int
    comment: list[str]
    lines: list[str]
    section: str = ""
    # The only field of a record that counts, if a promise names no other.
    part: str = ""

    @property
    def crate(self) -> str:
        """Return its crate."""
        return self.module.split(".")[1]

    @property
    def label(self) -> str:
        """Return its crate, its file and its name, as in the table of evidence."""
        return f"{self.crate}.{self.module.split('.', 3)[3]}.{self.name}"

    @property
    def title(self) -> str:
        """Return its name, or that of the only field that counts."""
        return f"{self.name}.{self.part}, one field of the record" if self.part else self.name

    @property
    def code(self) -> list[str]:
        """Return its lines without comments."""
        return [line for line in self.lines if not line.lstrip().startswith("--")]


@dataclass
class Specs:
    """A file of specs."""

    module: str
    definitions: dict[str, Definition] = field(default_factory=dict)
    # The definitions of the constructors of `data`.
    constructors: dict[str, Definition] = field(default_factory=dict)
    brought: dict[str, Name] = field(default_factory=dict)
    # Modules that go by another name.
    aliases: dict[str, str] = field(default_factory=dict)
    # The names that the file passes on to its importers.
    passed: set[str] = field(default_factory=set)


def without_comments(text: str) -> str:
    """Return the text without lines that are comments."""
    return "".join(line for line in text.splitlines(keepends=True) if not line.lstrip().startswith("--"))


def brought_by(line: str) -> tuple[dict[str, Name], dict[str, str], bool]:
    """Return the imports of a `use`: the names, and a module under another name, if there is one."""
    use = USE.match(line)
    if not use:
        raise ValueError(f"it brings nothing in: {line}")
    public, module, names, alias = use.groups()
    if names is None:
        return {}, {alias or module.split(".")[-1]: module}, bool(public)
    pairs = [name.strip().split(" as ") for name in names.split(",") if name.strip()]
    return {pair[-1].strip(): Name(module, pair[0].strip()) for pair in pairs}, {}, bool(public)


def kind_of(words: list[str]) -> str:
    """Return the kind of a definition by the words before its name; one that is only public is a statement."""
    otherwise = "proof" if words in (["pub"], []) else "function"
    return next((word for word in ("record", "data") if word in words), otherwise)


class Reading:
    """The reading of one file, line by line."""

    def __init__(self, module: str, path: str) -> None:
        self.specs, self.path = Specs(module), path
        self.comment: list[str] = []
        self.current: Definition | None = None
        # The parameters of each enclosing `module _`, the outer ones first.
        self.sections: list[str] = []

    def take(self, number: int, line: str) -> None:
        """Take a line, with its number in the file."""
        if not line.strip():
            self.comment = []
            return
        depth = (len(line) - len(line.lstrip(" "))) // 2
        self.sections = self.sections[:depth]
        line = line[2 * len(self.sections) :]
        section = SECTION.match(line)
        if section:
            self.sections, self.current = [*self.sections, section[1]], None
        elif line.startswith("--"):
            self.comment.append(line)
        elif USE.match(line):
            self.bring(line)
        elif line.startswith(" "):
            self.go_on([line])
        elif line.startswith(("infixl ", "infixr ")):
            pass
        elif not line.startswith(LAYOUT):
            self.begin_or_go_on(number, line)

    def bring(self, line: str) -> None:
        """Take a line of imports."""
        names, aliases, public = brought_by(line)
        self.specs.brought.update(names)
        self.specs.aliases.update(aliases)
        if public:
            self.specs.passed.update(names)
        self.comment = []

    def begin_or_go_on(self, number: int, line: str) -> None:
        """Take a line at the left edge: it begins a definition, or is an equation of the one before it."""
        head = HEAD.match(line) or STATEMENT.match(line)
        if head:
            kind = kind_of(line[: head.start(1)].split())
            self.current = Definition(self.specs.module, head[1], kind, self.path, number, self.comment, [line],
                                      " ".join(self.sections))
            self.specs.definitions[head[1]] = self.current
        else:
            self.go_on([*self.comment, line])
        self.comment = []

    def go_on(self, lines: list[str]) -> None:
        """Take further lines of the definition."""
        if self.current is None:
            raise ValueError(f"{self.path}: no definition begins before: {lines[-1]}")
        within = [*self.comment, *lines] if lines[0].startswith(" ") else lines
        self.comment = []
        self.current.lines.extend(within)
        constructor = CONSTRUCTOR.match(lines[-1])
        if self.current.kind == "data" and constructor:
            self.specs.constructors[constructor[1]] = self.current


def read(module: str, path: str, text: str) -> Specs:
    """Return the file of specs of this module."""
    reading = Reading(module, path)
    for number, line in enumerate(text.splitlines(), 1):
        reading.take(number, line)
    return reading.specs
