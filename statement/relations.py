"""Take relations apart: the parts of a definition's type, the left sides of its arrows, and its conclusion."""

from collections.abc import Callable, Iterable, Iterator
from dataclasses import dataclass, field

from rattle.antt import Definition, Name
from statement import terms, words
from statement.source import Clause, Function
from statement.terms import Arrow, Joined, Relation, Term
from statement.world import Item, KitWord, Unknown, World

# The meaning of a word in its place: an item of the repository or of the kit, or nothing that is known by name.
Scope = Callable[[str], object]
# The parts of a type, and the types of a definition's parts.
Parts = Callable[["Node"], list["Node"]]
Opening = Callable[[Definition], list["Node"]]
# Words of the kit that add nothing to the relations in them.
PASSING = {"All", "AllByRecursion", "AllZip", "IfOk", "IfErr", "IfSome", "IsErrAnd", "MatchOption", "OnErr", "OnOk"}
# Types of values, which state nothing.
VALUES = {"ℕ", "ℤ", "List", "Bool", "Option", "Result", "Type", "Vec", "Unit"}
NAMELESS = (*terms.BETWEEN, "¬", "⊥")


@dataclass(frozen=True)
class Node:
    """A type in its place: its tree, the meanings of words there, the place in words, and the field that it types
    ('' for none)."""

    term: Term
    scope: Scope = field(compare=False, repr=False)
    place: str = ""
    name: str = ""

    def at(self, term: Term) -> "Node":
        """Return a type within this one."""
        return Node(term, self.scope, self.place)


def cases(definition: Definition) -> list[tuple[str, Term]]:
    """Return the types of a definition: a record's with the names of its fields, a `data`'s with those of its cases."""
    head, *equations = words.pieces(definition.code)
    if definition.kind == "proof":
        tokens = words.tokens_of(head)
        pairs = [("", tokens[tokens.index(":") + 1 :])]
    elif definition.kind == "function":
        pairs = [("", words.equation(words.tokens_of(lines))[1]) for lines in equations]
    else:
        each = [words.tokens_of(lines) for lines in words.fields(head)]
        pairs = [(tokens[tokens.index(":") - 1], tokens[tokens.index(":") + 1 :]) for tokens in each]
    return [(name, made) for name, tokens in pairs if (made := terms.term(tokens))]


def head_of(definition: Definition) -> list[str]:
    """Return the tokens after the name of a definition, up to its equations, its fields or its cases."""
    tokens: list[str] = words.tokens_of(words.pieces(definition.code)[0])
    tokens = tokens[tokens.index(definition.name) + 1 :]
    return tokens[: tokens.index("where")] if "where" in tokens else tokens


def is_type(definition: Definition) -> bool:
    """Return whether a definition is a type, and not a value."""
    return definition.kind != "function" or "Type" in head_of(definition)[-2:]


def is_of_values(definition: Definition) -> bool:
    """Return whether a definition is a type of values, as a session is: it takes no value, so it relates none."""
    return definition.kind in ("record", "data") and head_of(definition)[:1] == [":"]


class Reader:
    """A reader of the types of a repository."""

    def __init__(self, world: World) -> None:
        self.world = world
        self.known: dict[Definition, list[Node]] = {}

    def scope(self, brought: dict[str, Name], aliases: dict[str, str], own: dict[str, Definition]) -> Scope:
        """Return the meanings of words with these imports."""
        def meaning(word: str) -> Item | None:
            head, *path = word.split(".")
            try:
                return self.world.item_of(brought, aliases, own, head, path)
            except Unknown:
                return None

        return meaning

    def clause(self, function: Function, clause: Clause) -> list[Node]:
        """Return the type of a clause, or of the field that a promise names."""
        if clause.part:
            return self.opened(clause.part)
        term = terms.term(words.tokens_of(clause.inner.splitlines()))
        code = self.world.code[function.path]
        scope = self.scope({**code.brought, **function.brought}, code.aliases, {})
        return [Node(term, scope, f"{function.full_name} {clause.name}".rstrip())] if term else []

    def statement(self, path: str, name: str) -> list[Node]:
        """Return the type of a law or of a statement with its proof, by its file and its name."""
        if path.endswith(".rt"):
            return [node for pair in self.world.law(path, name) for node in self.clause(*pair)]
        target = self.world.stated(path, name)
        return self.opened(target) if isinstance(target, Definition) else []

    def same_as(self, definition: Definition) -> list[Definition]:
        """Return the relations that suffice for this one: the one that it abbreviates, or those of a sum."""
        nodes = self.opened(definition) if definition.kind == "function" and len(cases(definition)) == 1 else []
        return [found for node in nodes for part in self.either(node) if (found := self.definition(part))]

    def either(self, node: Node) -> list[Node]:
        """Return the types of a sum, or the type alone."""
        if isinstance(node.term, Joined) and node.term.sign == "⊎":
            return [part for each in self.parts(node) for part in self.either(each)]
        return [node]

    def meant(self, node: Node) -> object:
        """Return the meaning of the head of a relation, if it is a name."""
        if not isinstance(node.term, Relation) or node.term.head in NAMELESS:
            return None
        return node.scope(node.term.head)

    def definition(self, node: Node) -> Definition | None:
        """Return the definition of a relation, if it is one of ours."""
        found = self.meant(node)
        return found if isinstance(found, Definition) and is_type(found) else None

    def opened(self, definition: Definition) -> list[Node]:
        """Return the types of a definition's parts: its cases, or the fields of a record."""
        if definition not in self.known:
            specs = self.world.specs[definition.module]
            scope = self.scope(specs.brought, specs.aliases, {**specs.constructors, **specs.definitions})
            by_name = [(f"{definition.name}.{name}" if name else "", term) for name, term in cases(definition)]
            # An impossible case of several, as for two lists of different lengths, states nothing.
            stated = [(name, term) for name, term in by_name if name or len(by_name) == 1 or term != terms.NEVER]
            self.known[definition] = [Node(term, scope, name or definition.name, name) for name, term in stated]
        return self.known[definition]

    def within(self, node: Node) -> list[Node]:
        """Return the arguments of a relation that may be relations."""
        return [node.at(term) for term in node.term.inner] if isinstance(node.term, Relation) else []

    def is_condition(self, node: Node) -> bool:
        """Return whether a type is a relation of the kit or of the language: an equation, a comparison, a negation."""
        found = self.meant(node)
        is_of_kit = isinstance(found, KitWord) and found.name[0].isupper() and found.name not in PASSING | VALUES
        return is_of_kit or isinstance(node.term, Relation) and node.term.head in NAMELESS

    def values_in(self, node: Node) -> list[Definition]:
        """Return the definitions of ours that a condition names, as `is_name` in `IsTrue (is_name text)`."""
        tokens = words.tokens_of([node.term.text]) if isinstance(node.term, Relation) else []
        found = [node.scope(token) for token in tokens if words.is_name(token) and token not in NAMELESS]
        return [item for item in found if isinstance(item, Definition) and not is_type(item)]

    def is_passing(self, node: Node) -> bool:
        """Return whether a type adds nothing to its arguments."""
        found = self.meant(node)
        return isinstance(found, KitWord) and found.name in PASSING | VALUES

    def parts(self, node: Node) -> list[Node]:
        """Return the types in a type that is no relation of ours: its parts, its conclusion, its arguments."""
        if isinstance(node.term, Joined):
            return [node.at(term) for term in node.term.parts]
        if isinstance(node.term, Arrow):
            return [node.at(node.term.end)]
        return self.within(node) if self.is_passing(node) else []

    def last(self, node: Node) -> list[Node]:
        """Return the relations that a type concludes, none of them opened."""
        parts = self.parts(node)
        return [part for each in parts for part in self.last(each)] if parts else [node]

    def words_of(self, node: Node) -> list[Definition]:
        """Return the relation that a type is, or the words of ours that a condition names."""
        definition = self.definition(node)
        return [definition] if definition else self.values_in(node) if self.is_condition(node) else []

    def left_of(self, node: Node, records: int = 1, opened: frozenset[Definition] = frozenset()) -> Iterator[Node]:
        """Return the left sides of arrows in a type, in its concluded definitions, and in the fields of records there.

        In records within records only relations of ours count: a condition there is a bound, as of a place in a list.
        """
        term, definition = node.term, self.definition(node)
        if isinstance(term, Arrow):
            for premise in map(node.at, term.premises):
                if records >= 0 or self.definition(premise) or premise.term == terms.NEVER:
                    yield premise
            yield from self.left_of(node.at(term.end), records, opened)
        elif isinstance(term, Joined):
            if term.sign == "↔":
                yield from (node.at(part) for part in term.parts)
            for part in term.parts:
                yield from self.left_of(node.at(part), records, opened)
        elif definition and definition not in opened:
            fewer = records - (definition.kind in ("record", "data"))
            for each in self.opened(definition):
                yield from self.left_of(each, fewer, opened | {definition})
            for each in self.within(node):
                yield from self.left_of(each, min(records, 0), opened)
        elif self.is_passing(node):
            for each in self.within(node):
                yield from self.left_of(each, records, opened)

    def ends(self, nodes: list[Node]) -> dict[Definition, None]:
        """Return the relations that types conclude, and those that these conclude in turn."""
        return self.collect(nodes, {}, self.parts, self.opened)

    def given(self, nodes: list[Node], known: set[Definition]) -> dict[Definition, None]:
        """Return the relations that types conclude, after no arrow from an unknown relation."""
        def past(node: Node) -> list[Node]:
            parts = self.parts(node)
            if isinstance(node.term, Arrow):
                return parts if self.are_known(map(node.at, node.term.premises), known) else []
            if isinstance(node.term, Joined) and node.term.sign == "↔":
                return [part for part, other in zip(parts, reversed(parts)) if self.are_known([other], known)]
            return parts

        return self.collect(nodes, {}, past, self.opened)

    def are_known(self, nodes: Iterable[Node], known: set[Definition]) -> bool:
        """Return whether all relations of ours in the parts of types are known."""
        return all(known & {each, *self.same_as(each)} for each in self.ends([*nodes])
                   if is_type(each) and not is_of_values(each))

    def shown(self, nodes: list[Node]) -> dict[Definition, None]:
        """Return the relations that hold wherever types do: none of one part of a sum, or of one case of several."""
        found: dict[Definition, None] = {}

        def certain(node: Node) -> list[Node]:
            # A sum of one type and of the relation itself ends in that type.
            either = [part for part in self.either(node) if self.definition(part) not in found]
            return self.parts(node) if len(self.either(node)) == 1 else either * (len(either) == 1)

        return self.collect(nodes, found, certain, self.whole)

    def beneath(self, nodes: list[Node]) -> dict[Definition, None]:
        """Return the relations in the parts of types, also among the arguments of others."""
        def opened(definition: Definition) -> list[Node]:
            return [each for part in self.opened(definition) for each in (part, *self.arguments(part))]

        return self.collect([each for node in nodes for each in (node, *self.arguments(node))], {}, self.parts, opened)

    def arguments(self, node: Node) -> list[Node]:
        """Return the arguments of the relations that a type concludes."""
        return [each for part in self.last(node) if not self.is_condition(part) for each in self.within(part)]

    def whole(self, definition: Definition) -> list[Node]:
        """Return the parts that a definition always has."""
        opened = self.opened(definition)
        return opened if definition.kind == "record" or len(opened) == 1 else []

    def collect(self, nodes: list[Node], found: dict[Definition, None], parts: Parts,
                opened: Opening) -> dict[Definition, None]:
        """Collect the relations that types conclude, by functions for the parts of a type and of a definition."""
        for node in nodes:
            definition = self.definition(node)
            if definition and definition not in found:
                found[definition] = None
                self.collect(opened(definition), found, parts, opened)
            elif self.is_condition(node):
                found.update(dict.fromkeys(self.values_in(node)))
            elif not definition:
                self.collect(parts(node), found, parts, opened)
        return found
