"""The premises of promises and their givers: a clause of the promise concludes a premise, or it is trusted.

A premise is a term to the left of an arrow in a clause of the promise, or in a definition in which the clause ends
(`Reader.left_of`). A premise is taken apart until a line of promises.txt names it: a relation into the relations of its
cases, a record into its fields. The rest are conditions, for example equations.

The preconditions of a function need no line, since the prover checks them at each call. An assumed relation must not be
empty (`uninhabited`), because a promise with an empty premise would say nothing. So a computed example has the
relation, or a clause concludes it from relations that have examples. No clause counts for its own premises.
"""

from dataclasses import dataclass, replace

from rattle.antt import Definition
from statement.evidence import Evidence
from statement.givens import CONCLUDED, Line
from statement.promises import Promise
from statement.relations import Node, Reader, cases, is_of_values, is_type
from statement.source import Clause, Function
from statement.terms import Relation
from statement.world import World


@dataclass
class Printed:
    """A printed clause: its name, `rs_store Source::run answered`, its types, and their conclusions."""

    name: str
    nodes: list[Node]
    ends: dict[Definition, None]

    def is_called(self, name: str) -> bool:
        """Return whether a line means this clause: a function's name alone means all its printed clauses."""
        return name in (self.name, self.name.rpartition(" ")[0])


def name_of(function: Function, clause: Clause) -> str:
    """Return the name of a clause, as in promises.txt."""
    part = f"{clause.part.name}.{clause.part.part}" if clause.part else clause.name
    return f"{function.crate} {function.full_name} {part}".rstrip()


def clauses_of(reader: Reader, promise: Promise) -> list[Printed]:
    """Return the printed clauses of a promise that are postconditions."""
    pairs = [(carrier.function, clause) for carrier in promise.carriers for clause in carrier.clauses]
    return [printed(reader, *pair) for pair in pairs if pair[1].kind == "ensures"]


def printed(reader: Reader, function: Function, clause: Clause) -> Printed:
    """Return a clause as it is printed. One that prints only a field of a record still concludes the record."""
    nodes = reader.clause(function, clause)
    records = map(reader.definition, reader.clause(function, replace(clause, part=None)) if clause.part else [])
    ends = reader.ends(nodes) | {record: None for record in records if record}
    return Printed(name_of(function, clause), nodes, ends)


class Chain:
    """The premises of a promise, with their givers."""

    def __init__(self, reader: Reader, promise: Promise) -> None:
        self.reader, self.title, self.lines = reader, promise.title, promise.premises
        self.clauses, self.between, self.unopened = clauses_of(reader, promise), promise.between, promise.unopened
        self.faults: list[str] = []
        # The premises that lines name, in their order.
        self.spoken: dict[Line, dict[str, Node]] = {}
        # The relations left of an arrow that no clause is said to conclude there.
        self.assumed: dict[Definition, None] = {}
        # The lines of the premises of every clause, and its relations that were taken apart.
        self.needed: dict[str, dict[Line, None]] = {}
        self.opened: set[Definition] = set()

    def follow(self) -> None:
        """Take premises apart until a line names them."""
        for clause in self.clauses:
            self.opened = set()
            needed = self.needed.setdefault(clause.name, {})
            for node in clause.nodes:
                for each in self.reader.left_of(node, opened=self.unopened):
                    self.give(each, needed)
        for definition in {*self.between} - self.concluded():
            self.fault(f"{definition.name} is said to be between a clause and a law, and is not")
        for name in self.ungrounded():
            self.fault(f"{name} takes what no other clause gives it first")

    def concluded(self) -> set[Definition]:
        """Return the relations left of an arrow that a clause concludes."""
        nodes = [node for line, by_name in self.spoken.items() if line.kind in CONCLUDED for node in by_name.values()]
        return {found for node in nodes if (found := self.reader.definition(node))}

    def ungrounded(self) -> list[str]:
        """Return the clauses whose premises only they themselves give."""
        grounded: list[Printed] = []
        waiting = self.clauses
        while more := [clause for clause in waiting if self.is_grounded(clause, grounded)]:
            grounded += more
            waiting = [clause for clause in waiting if clause not in more]
        return [clause.name for clause in waiting]

    def is_grounded(self, clause: Printed, grounded: list[Printed]) -> bool:
        """Return whether these clauses or trust give all premises of a clause."""
        return all(line.kind not in CONCLUDED or any(each.is_called(name) for each in grounded for name in line.clauses)
                   for line in self.needed[clause.name])

    def give(self, node: Node, needed: dict[Line, None]) -> None:
        """Find the giver of a premise, or those of its parts."""
        definition = self.reader.definition(node)
        line = next((line for line in self.lines if line.name_for(node, definition)), None)
        if line:
            needed[line] = None
            self.speak(line, node, definition)
        if line and line.kind != "law":
            return
        if definition and definition not in self.opened:
            self.opened.add(definition)
            self.stand(definition)
            for each in [*self.reader.opened(definition), *self.reader.within(node)]:
                self.give(each, needed)
        elif not line and self.reader.is_condition(node):
            self.fault(f"nothing gives the premise '{text_of(node)}' of {node.place}")
        else:
            for each in self.reader.parts(node):
                self.give(each, needed)

    def stand(self, definition: Definition) -> None:
        """Note a relation that occurs only left of an arrow."""
        if not is_of_values(definition):
            self.assumed[definition] = None

    def fault(self, reason: str) -> None:
        """Note a fault of the premises of this promise."""
        self.faults.append(f"{self.title}: {reason}")

    def speak(self, line: Line, node: Node, definition: Definition | None) -> None:
        """Check a line that names a premise."""
        name = line.name_for(node, definition)
        self.spoken.setdefault(line, {}).setdefault(name, node)
        if line.kind in CONCLUDED:
            for clause in line.clauses:
                self.conclude(name, clause, node)
            return
        beneath = self.reader.beneath([node])
        for word in beneath:
            if is_type(word):
                self.stand(word)
        if definition and definition.kind == "record":
            fields = [field for field, _ in cases(definition)]
            if line.names[name] != fields:
                self.fault(f"{name} is trusted by other fields than it has: {name} {{{' '.join(fields)}}}")
        elif records := [word.name for word in beneath if word.kind == "record" and not is_of_values(word)]:
            self.fault(f"{name} is trusted without the fields of what it is made of: {' '.join(records)}")

    def conclude(self, name: str, clause: str, node: Node) -> None:
        """Check that a clause is printed, and concludes a premise."""
        ends = {found for printed in self.clauses if printed.is_called(clause) for found in printed.ends}
        if not any(printed.is_called(clause) for printed in self.clauses):
            self.fault(f"{name} is said to come from {clause}, which the promise does not print")
            return
        words = [word for each in self.reader.last(node) for word in self.reader.words_of(each)]
        missing = [word.name for word in words if word not in ends]
        if missing or not words:
            end = " and ".join(missing) or text_of(node)
            self.fault(f"{name} is said to come from {clause}, which does not end in {end}")


def text_of(node: Node) -> str:
    """Return a premise as it is written."""
    return node.term.text if isinstance(node.term, Relation) else node.place


def follow(world: World, promises: list[Promise]) -> list[Chain]:
    """Follow the premises of all promises to their givers; set the promises' premises."""
    reader = Reader(world)
    found = [Chain(reader, promise) for promise in promises]
    for promise, chain in zip(promises, found):
        chain.follow()
        promise.spoken = chain.spoken
    return found


def unspoken(found: list[Chain]) -> list[str]:
    """Return the lines for premises that no longer exist."""
    spoken: dict[Line, set[str]] = {}
    titles: dict[Line, set[str]] = {}
    for chain in found:
        for line in chain.lines:
            spoken.setdefault(line, set()).update(chain.spoken.get(line, {}))
            titles.setdefault(line, set()).add(chain.title)
    places = {line: min(each) if len(each) == 1 else "every promise" for line, each in titles.items()}
    return [f"{places[line]}: no premise is {name}" for line, names in spoken.items()
            for name in line.names if name not in names]


def shown_by(reader: Reader, pieces: dict[str, list[Evidence]]) -> set[Definition]:
    """Return the relations that a computed example concludes and does not assume."""
    found: set[Definition] = set()
    for piece in dict.fromkeys(piece for each in pieces.values() for piece in each if piece.kind == "example"):
        nodes = reader.statement(piece.path, piece.name)
        taken = {reader.definition(premise) for node in nodes for premise in reader.left_of(node)}
        found |= {each for each in reader.shown(nodes) if piece in pieces.get(each.label, ()) and each not in taken}
    return found


def there(reader: Reader, clauses: list[Printed], shown: set[Definition]) -> set[Definition]:
    """Return the relations that examples have, and those that clauses conclude from these."""
    known, before = set(shown), -1
    while before < len(known):
        before = len(known)
        for clause in clauses:
            known |= reader.given(clause.nodes, known).keys()
    return known


def uninhabited(reader: Reader, found: list[Chain], shown: set[Definition]) -> list[str]:
    """Return the relations left of an arrow without an example."""
    known = there(reader, [clause for chain in found for clause in chain.clauses], shown)
    assumed = {definition: None for chain in found for definition in chain.assumed}
    return [definition.label for definition in assumed if not known & {definition, *reader.same_as(definition)}]


def faults(world: World, found: list[Chain], pieces: dict[str, list[Evidence]]) -> list[str]:
    """Return the premises without a giver, the lines without a premise, and the relations without an example."""
    reader = Reader(world)
    wrong = [f"statement/promises.txt: {fault}" for chain in found for fault in chain.faults]
    wrong += [f"statement/promises.txt: {fault}" for fault in unspoken(found)]
    empty = uninhabited(reader, found, shown_by(reader, pieces))
    wrong += [f"statement/evidence.txt: {label} stands only left of an arrow, and no example has it" for label in empty]
    return list(dict.fromkeys(wrong))
