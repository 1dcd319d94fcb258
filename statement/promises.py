"""The promises: the table of promises.txt, with their sentences and the clauses that carry them."""

import re
from dataclasses import dataclass, field

from rattle.antt import Definition
from statement import givens
from statement.reach import Reach, reach
from statement.relations import Node
from statement.source import Clause, Function
from statement.tables import HERE, Wrong
from statement.world import Item, World

# The page with a row for every promise.
TABLE = "docs/PROMISES.md"
HEAD = "== "
# The marks before the text of a line: of a quotation, of a comment.
MARKS = re.compile(r"^\s*(?:>|///|//!|//)?\s*", re.M)


@dataclass
class Carrier:
    """A function with the clauses that carry a promise; its preconditions belong to them."""

    function: Function
    clauses: list[Clause]


@dataclass
class Promise:
    """A promise: its title, its row in docs/PROMISES.md, its sentence with its place, and the clauses that carry it."""

    title: str
    fields: dict[str, str] = field(default_factory=dict)
    carriers: list[Carrier] = field(default_factory=list)
    # The relations that a clause gives and a law takes. The promise holds for any meaning: they are not opened.
    between: list[Definition] = field(default_factory=list)
    # The words that another promise opens, by its title: the sentence of this one does not name them.
    elsewhere: dict[str, list[Definition]] = field(default_factory=dict)
    # The givers of its premises: its own lines, and those before all promises.
    premises: list[givens.Line] = field(default_factory=list)
    # Its premises by their names, for every line that gives some, once they are followed (premises.py).
    spoken: dict[givens.Line, dict[str, Node]] = field(default_factory=dict)
    # Its witnesses: the lines for all promises, with the promise's names, once they are followed (witnesses.py).
    witnesses: list[givens.Witness] = field(default_factory=list)
    free: dict[givens.Witness, list[str]] = field(default_factory=dict)
    reach: Reach = field(default_factory=lambda: Reach([], []))

    @property
    def sentence(self) -> str:
        """Return its sentence."""
        return self.fields["says"]

    @property
    def unopened(self) -> frozenset[Definition]:
        """Return the words of its clauses that are not opened."""
        return frozenset([*self.between, *(definition for each in self.elsewhere.values() for definition in each)])

    @property
    def grounds(self) -> list[str]:
        """Return the givers of its premises, a sentence a line, and the words that are not opened."""
        why = "a clause concludes each and a law takes it. Read each as no more than what its law concludes."
        between = [f"{listed(self.between)}: {why}"] if self.between else []
        elsewhere = [f"{listed(words)}: the promise '{title}' prints what they mean."
                     for title, words in self.elsewhere.items()]
        free = [f"{'; '.join(names)}: trusted: {line.text}" for line, names in self.free.items()]
        return [*givens.sentences(self.spoken), *free, *between, *elsewhere]


def listed(definitions: list[Definition]) -> str:
    """Return the names of definitions."""
    return ", ".join(definition.name for definition in definitions)


def sections(text: str) -> list[tuple[str, list[tuple[str, str]]]]:
    """Return the sections of the table: titles ('' for the first), and pairs of a word and its text."""
    found: list[tuple[str, list[tuple[str, str]]]] = [("", [])]
    for line in text.splitlines():
        if line.startswith(HEAD):
            found.append((line.removeprefix(HEAD), []))
        elif line.startswith("  "):
            word, value = found[-1][1][-1]
            found[-1][1][-1] = (word, f"{value} {line.strip()}")
        elif line.strip() and not line.startswith("#"):
            word, _, value = line.partition(": ")
            found[-1][1].append((word, value))
    return found


def plain(text: str) -> str:
    """Return a text on one line, without the marks of quotations and comments."""
    return " ".join(MARKS.sub("", text).split())


def carrier(world: World, text: str) -> Carrier:
    """Return the clauses that a line `by: CRATE FUNCTION CLAUSE ..` names."""
    crate, label, *names = text.split()
    function = world.function(crate, label)
    required = [clause for clause in function.clauses if clause.kind == "requires"]
    if not names:
        return Carrier(function, function.clauses)
    return Carrier(function, required + [clause_named(world, function, name) for name in names])


def clause_named(world: World, function: Function, name: str) -> Clause:
    """Return the clause of this name, or the one that concludes a record, with the named field."""
    ensured = [clause for clause in function.clauses if clause.kind == "ensures"]
    parts = [world.part_of(function, clause, name) for clause in ensured if "." in name]
    found = [clause for clause in ensured if clause.name == name] + [part for part in parts if part]
    if not found:
        raise Wrong(f"{function.label} has no clause {name}")
    return found[0]


def lines_of(pairs: list[tuple[str, str]]) -> list[givens.Line]:
    """Return the lines of a section on premises."""
    return [givens.parsed(text) for word, text in pairs if word == "premise"]


def relations_named(title: str, reached: Reach, names: list[str]) -> list[Definition]:
    """Return the relations of these names in a promise's reach."""
    found = [[each for each in reached.definitions if each.name == name and not each.part] for name in names]
    for name, each in zip(names, found):
        if len(each) != 1:
            raise Wrong(f"'{title}' reaches {len(each)} definitions {name}")
    return [definition for each in found for definition in each]


def unopened(world: World, promise: Promise, pairs: list[tuple[str, str]], first: list[Item]) -> None:
    """Note the words that a promise does not open, by the lines `between` and `elsewhere`."""
    named = [(word, *text.rpartition(": ")[::2]) for word, text in pairs if word in ("between", "elsewhere")]
    whole = reach(world, first) if named else Reach([], [])
    for word, title, names in named:
        found = relations_named(promise.title, whole, names.split())
        if word == "between":
            promise.between += found
        else:
            promise.elsewhere[title] = found


def promises(world: World, table: str | None = None) -> list[Promise]:
    """Return the promises in their order, with their reach."""
    found = []
    (_, shared), *each = sections(table or (HERE / "promises.txt").read_text())
    every = lines_of(shared)
    witnesses = [givens.witness(text) for word, text in shared if word == "witness"]
    for title, pairs in each:
        promise = Promise(title, {word: text for word, text in pairs if word in ("row", "in", "says")})
        promise.premises, promise.witnesses = [*lines_of(pairs), *every], witnesses
        promise.carriers = [carrier(world, text) for word, text in pairs if word == "by"]
        first = [used for each in promise.carriers for clause in each.clauses
                 for used in world.links_of_clause(each.function, clause).values()]
        unopened(world, promise, pairs, first)
        promise.reach = reach(world, first, promise.unopened)
        if plain(promise.sentence) not in plain((world.root / promise.fields["in"]).read_text()):
            raise Wrong(f"the sentence of '{title}' does not stand in {promise.fields['in']}")
        if f"| {promise.fields['row']} |" not in (world.root / TABLE).read_text():
            raise Wrong(f"{TABLE} has no row '{promise.fields['row']}'")
        found.append(promise)
    for promise in found:
        look_elsewhere(promise, found)
    return found


def look_elsewhere(promise: Promise, every: list[Promise]) -> None:
    """Check that the promises print the words that others leave to them."""
    for title, words in promise.elsewhere.items():
        printed = {definition for each in every if each.title == title for definition in each.reach.definitions}
        if missing := [word for word in words if word not in printed]:
            raise Wrong(f"'{title}' does not print {listed(missing)} for '{promise.title}'")
