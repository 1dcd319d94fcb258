"""Existential variables of the promises, and their ties to the call.

Right of the last arrow of a printed clause, an existential may bind a variable: `(x : A) × B` does, and so does a field
of a record that holds a value. A body may choose it after the fact, unless something ties it to an argument or to the
result. An equation, a comparison and a relation that is not taken apart tie all their variables as soon as one of them
is tied; an equation with a constant ties a variable that is alone on its side. A relation of ours ties a variable if
each of its cases does, and a sum if both its sides do. The right side of an arrow ties nothing outside, since it speaks
of one case.

A free variable needs a line of promises.txt, `witness: Record.field trust: sentence`. So do the words of the kit that
say nothing of an end which does not report its bytes (SILENT).
"""

import re
from collections.abc import Callable, Iterator
from dataclasses import dataclass, field

from rattle.antt import Definition
from statement import words
from statement.promises import Promise
from statement.relations import NAMELESS, VALUES, Reader, Scope, head_of, is_of_values, is_type
from statement.source import Clause, Function
from statement.terms import BETWEEN, groups
from statement.words import Tokens
from statement.world import KitWord, World

# The words of the kit that hold of every list of bytes where an end does not report its bytes.
SILENT = ("Consumes", "Appends", "IsAtEnd")
# A ghost member that states nothing, in a block of a trait.
NOTHING = re.compile(r"ghost (\w+) = \{ (?:λ [^.]*\. )?Unit \{0\} \};")
# Words of the kit for one case of a result or of an option.
OF_A_CASE = {"IfOk", "IfErr", "IfSome", "IsErrAnd", "OnErr", "OnOk"}
# The beginnings of the kit's relations. Its other words in capitals are types of values, as `HttpDate`.
RELATIONS = ("Is", "Has", "All", "Consumes", "Appends", "No", "If", "On", "Reads", "Match")
# The depth to which definitions within one another are taken apart.
DEPTH = 7
# The value of an argument, the result or a variable after `for each`.
KNOWN = "an argument"


@dataclass(frozen=True)
class Value:
    """The meaning of a word: the variables in it, the fields of a record that is written out, and for a `λ` the
    statement about its arguments."""

    variables: frozenset[str] = frozenset()
    fields: tuple[tuple[str, "Value"], ...] = ()
    says: "Callable[[list[Value]], Said] | None" = field(default=None, compare=False)

    def at(self, path: list[str]) -> "Value":
        """Return a field of it; a part of a variable is that variable."""
        found = dict(self.fields).get(path[0]) if path else None
        return found.at(path[1:]) if found else self


@dataclass
class Said:
    """The statement of a type: the variables that it ties to one another, or its parts."""

    kind: str
    ties: frozenset[str] = frozenset()
    parts: list["Said"] = field(default_factory=list)
    # Its own variables, with their names in promises.txt; and the variables that a case distinguishes.
    bound: dict[str, str] = field(default_factory=dict)
    apart: frozenset[str] = frozenset()
    # The values of the fields of a record.
    fields: tuple[tuple[str, Value], ...] = ()
    # The variables on both sides of an equation.
    sides: tuple[frozenset[str], frozenset[str]] = (frozenset(), frozenset())

    def gain(self, tied: frozenset[str]) -> frozenset[str]:
        """Return the variables that it ties, where these are tied."""
        if self.kind == "ties":
            return self.ties if self.ties & tied else frozenset()
        if self.kind == "alone":
            return self.ties
        if self.kind == "equal":
            known = any(side and side <= tied for side in self.sides) or self.ties & tied and len(self.ties - tied) == 1
            return self.ties if known else frozenset()
        if self.kind == "under":
            return frozenset()
        if self.kind == "either":
            gains = [part.gain(tied) | (part.apart if (part.mentions() | part.apart) & tied else frozenset())
                     for part in self.parts]
            return frozenset.intersection(*gains) if gains else frozenset()
        return self.settled(tied) - tied

    def settled(self, tied: frozenset[str]) -> frozenset[str]:
        """Return all tied variables, once nothing more can be tied."""
        before = None
        while before != tied:
            before = tied
            for part in self.parts:
                tied |= part.gain(tied)
        return tied

    def mentions(self) -> frozenset[str]:
        """Return the variables that it names."""
        return self.ties.union(*(part.mentions() for part in self.parts))

    def untied(self, tied: frozenset[str]) -> Iterator[str]:
        """Return the names of its free variables."""
        tied = self.settled(tied) if self.kind in ("all", "under") else tied
        yield from (name for variable, name in self.bound.items() if variable not in tied)
        for part in self.parts:
            yield from part.untied(tied)


class Witnesses:
    """A search for the free existential variables of clauses."""

    def __init__(self, reader: Reader) -> None:
        self.reader = reader
        self.count = 0
        self.plain: dict[Definition, bool] = {}
        self.found: dict[tuple[str, str], list[str]] = {}

    def untied(self, function: Function, clause: Clause) -> list[str]:
        """Return the names of the free variables of a clause."""
        if clause.part:
            return []
        known = (function.label, clause.name)
        if known not in self.found:
            self.found[known] = self.free(function, clause)
        return self.found[known]

    def free(self, function: Function, clause: Clause) -> list[str]:
        """Return the same, looked up in the clause."""
        code = self.reader.world.code[function.path]
        scope = self.reader.scope({**code.brought, **function.brought}, code.aliases, {})
        place = f"{function.full_name} {clause.name}".rstrip()
        env = {name: Value(frozenset([KNOWN])) for name in function.local}
        said = self.say(words.tokens_of(clause.inner.splitlines()), scope, env, place, ())
        return [*dict.fromkeys(said.untied(frozenset([KNOWN])))]

    # The parts of values.

    def value(self, tokens: Tokens, scope: Scope, env: dict[str, Value], depth: int = 3) -> Value:
        """Return the value of an expression."""
        tokens = words.bare(tokens)
        each = [group for group in groups(tokens) if group[0] != "{" or tokens[0] == "record"]
        if tokens[:1] == ["record"] and len(each) == 2:
            pairs = [(part[0], part[2:]) for part in words.parted(each[1][1:-1], ";") if part[1:2] == ["="]]
            made = [(name, self.value(part, scope, env, depth)) for name, part in pairs]
            return Value(frozenset().union(*(value.variables for _, value in made)), tuple(made))
        if tokens[:1] == ["λ"]:
            return Value(self.all_named(tokens, env), says=lambda values: self.say(
                words.behind_names(tokens), scope, env | dict(zip(words.lambda_names(tokens), values)), "λ", ()))
        if len(each) == 1 and len(tokens) == 1:
            head, *path = tokens[0].split(".")
            return env.get(head, Value()).at(path)
        found = scope(each[0][0]) if each and depth else None
        if isinstance(found, Definition) and not is_type(found) and found.kind == "function":
            equations = self.equations(found)
            if len(equations) == 1 and (inner := self.matched(equations[0][0], each[1:], scope, env, found)):
                return self.value(equations[0][1], self.scope_of(found), inner[0], depth - 1)
        return Value(self.all_named(tokens, env))

    def all_named(self, tokens: Tokens, env: dict[str, Value]) -> frozenset[str]:
        """Return the variables that tokens name."""
        return frozenset(name for token in tokens for name in self.named(token, env))

    def named(self, token: str, env: dict[str, Value]) -> frozenset[str]:
        """Return the variables that a token names."""
        head, *path = token.split(".")
        return env[head].at(path).variables if head in env else frozenset()

    # The statements of types.

    def say(self, tokens: Tokens, scope: Scope, env: dict[str, Value], place: str, around: tuple[str, ...]) -> Said:
        """Return the statement of a type."""
        env, tokens = self.past_lets(words.bare(tokens), scope, env)
        *before, last = words.parted(tokens, "→")
        if before:
            env = env | {name: Value(frozenset([KNOWN])) for part in before for name in words.bound_names(part)}
            end = self.say(last, scope, env, place, around)
            return end if all(self.is_of_value(part, scope) for part in before) else Said("under", parts=[end])
        for sign, kind in (("↔", "all"), ("⊎", "either"), ("×", "all")):
            parts = words.parted(tokens, sign)
            if len(parts) > 1:
                return self.join(kind, parts, scope, env, place, around)
        return self.atom(tokens, scope, env, place, around)

    def past_lets(self, tokens: Tokens, scope: Scope, env: dict[str, Value]) -> tuple[dict[str, Value], Tokens]:
        """Return a type after its `let x = e in`, where x is e."""
        while tokens[:1] == ["let"]:
            end = tokens.index("in")
            env = env | {tokens[1]: self.value(tokens[3:end], scope, env)}
            tokens = words.bare(tokens[end + 1 :])
        return env, tokens

    def is_of_value(self, part: Tokens, scope: Scope) -> bool:
        """Return whether the left side of an arrow is a variable of a value, as `(s : Source)`, and no premise."""
        kinds = [kind for _, kind in words.binders(part)]
        return bool(kinds) and all(not self.is_relation(kind, scope) for kind in kinds)

    def is_relation(self, kind: Tokens, scope: Scope) -> bool:
        """Return whether a type states something: it is no type of values."""
        kind = words.bare(kind)
        parts = [words.parted(kind, sign) for sign in ("→", "×", "⊎", "↔")]
        if any(len(each) > 1 for each in parts) or kind[:1] in (["¬"], ["λ"]):
            inner = [part for each in parts for part in each if part != kind]
            return kind[:1] == ["¬"] or any(self.is_relation(part, scope) for part in inner)
        if any(group[0] in BETWEEN for group in groups(kind)):
            return True
        found = scope(kind[0]) if kind else None
        if isinstance(found, Definition):
            return is_type(found) and not is_of_values(found) and not self.is_plain(found)
        if found is None and len([group for group in groups(kind) if group[0] != "{"]) > 1:
            # A parameter that may be any relation.
            return kind[0] not in ("Type", "data")
        return isinstance(found, KitWord) and found.name.startswith(RELATIONS) and found.name not in VALUES

    def is_plain(self, found: Definition) -> bool:
        """Return whether a record has only values, as a stored source: it states nothing."""
        if found.kind != "record" or found in self.plain:
            return self.plain.get(found, False)
        self.plain[found] = False
        head, *_ = words.pieces(found.code)
        kinds = [tokens[tokens.index(":") + 1 :] for tokens in map(words.tokens_of, words.fields(head))]
        self.plain[found] = not any(self.is_relation(kind, self.scope_of(found)) for kind in kinds)
        return self.plain[found]

    def join(self, kind: str, parts: list[Tokens], scope: Scope, env: dict[str, Value], place: str,
             around: tuple[str, ...]) -> Said:
        """Return the statement of types with `×` or `⊎` between them. A bracket binds its name for later types."""
        said = Said(kind)
        for part in parts:
            bound = words.binders(part)
            for name, type_ in bound:
                env = env | {name: self.known(said, name, type_, scope, env, place, around)}
            if not bound:
                said.parts.append(self.say(part, scope, env, place, around))
        return said

    def known(self, said: Said, name: str, type_: Tokens, scope: Scope, env: dict[str, Value], place: str,
              around: tuple[str, ...]) -> Value:
        """Return the value of a name that a bracket or a field binds: a variable, or the variables of its type."""
        if not self.is_relation(type_, scope):
            return Value(frozenset([self.bind(said, place, name)]))
        part = self.say(type_, scope, env, place, around)
        said.parts.append(part)
        return Value(frozenset().union(*(value.variables for _, value in part.fields)), part.fields)

    def bind(self, said: Said, place: str, name: str) -> str:
        """Return a new variable for a bound name."""
        self.count += 1
        said.bound[f"{self.count}"] = f"{place}.{name}"
        return f"{self.count}"

    def atom(self, tokens: Tokens, scope: Scope, env: dict[str, Value], place: str, around: tuple[str, ...]) -> Said:
        """Return the statement of a relation of values: taken apart if it is one of ours."""
        each = [group for group in groups(tokens) if group[0] != "{"]
        named = self.all_named(tokens, env)
        sign = next((group[0] for group in each if group[0] in BETWEEN), "")
        if sign:
            at = tokens.index(sign)
            sides = [self.value(side, scope, env) for side in (tokens[:at], tokens[at + 1 :])]
            stands = [words.bare(side) for side in (tokens[:at], tokens[at + 1 :])]
            alone = any(side.variables and not other.variables and len(text) == 1 and "." not in text[0]
                        for side, other, text in zip(sides, reversed(sides), stands))
            return Said("alone" if alone else "equal", named, sides=(sides[0].variables, sides[1].variables))
        if not each or each[0][0] in NAMELESS or tokens[:1] == ["λ"]:
            return Said("under", named)
        if (known := env.get(each[0][0])) and known.says:
            return known.says([self.value(group, scope, env) for group in each[1:]])
        found = scope(each[0][0])
        if isinstance(found, KitWord) and found.name in OF_A_CASE:
            return Said("under", parts=[self.say(words.behind_names(group), scope, env | {
                name: Value(frozenset([KNOWN])) for name in words.lambda_names(group)}, place, around)
                for group in each[1:] if "λ" in group])
        if isinstance(found, Definition) and is_type(found) and found.name not in around and len(around) < DEPTH:
            return self.open(found, each[1:], scope, env, (*around, found.name))
        return Said("ties", named)

    def open(self, found: Definition, given: list[Tokens], scope: Scope, env: dict[str, Value],
             around: tuple[str, ...]) -> Said:
        """Return the statement that a definition of ours makes about its arguments."""
        inner = self.scope_of(found)
        if found.kind == "record":
            return self.open_record(found, given, scope, env, inner, around)
        cases = []
        for pattern, body in self.equations(found):
            match = self.matched(pattern, given, scope, env, found)
            if match and words.bare(body) != ["⊥"]:
                said = self.say(body, inner, match[0], found.name, around)
                cases.append(Said("all", parts=[said], apart=match[1]))
        if len(cases) == 1:
            return Said("all", parts=cases, fields=cases[0].parts[0].fields)
        return Said("either", parts=cases)

    def open_record(self, found: Definition, given: list[Tokens], scope: Scope, env: dict[str, Value], inner: Scope,
                    around: tuple[str, ...]) -> Said:
        """Return the statement of the fields of a record. A field that holds a value is a variable."""
        head, *_ = words.pieces(found.code)
        names = [name for name, _ in words.binders(self.telescope(found)) ]
        values = [self.value(group, scope, env) for group in given]
        shown = [name for name, _ in words.binders(self.telescope(found, "("))]
        known = dict(zip(shown, values)) | {name: Value(frozenset([KNOWN])) for name in names if name not in shown}
        said = Said("all")
        for lines in words.fields(head):
            tokens = words.tokens_of(lines)
            colon = tokens.index(":")
            kind = tokens[colon + 1 :]
            for name in [token for token in tokens[:colon] if token != "pub"]:
                value = self.known(said, name, kind, inner, known, found.name, around)
                known, said.fields = known | {name: value}, (*said.fields, (name, value))
        return said

    def telescope(self, found: Definition, mark: str = "({") -> Tokens:
        """Return the brackets of a record's head."""
        tokens, at, kept = head_of(found), 0, list[str]()
        while at < len(tokens) and tokens[at] in "({":
            end = words.closing(tokens, at) + 1
            kept += tokens[at:end] if tokens[at] in mark else []
            at = end
        return kept

    def equations(self, found: Definition) -> list[tuple[list[Tokens], Tokens]]:
        """Return the equations of a definition: patterns, and right sides."""
        sides = [words.equation(words.tokens_of(lines)) for lines in words.pieces(found.code)[1:]]
        return [([group for group in groups(left)[1:] if group[0] != "{"], right) for left, right in sides]

    def scope_of(self, found: Definition) -> Scope:
        """Return the meanings of words in the file of a definition."""
        specs = self.reader.world.specs[found.module]
        return self.reader.scope(specs.brought, specs.aliases, {**specs.constructors, **specs.definitions})

    def matched(self, patterns: list[Tokens], given: list[Tokens], scope: Scope, env: dict[str, Value],
                found: Definition) -> tuple[dict[str, Value], frozenset[str]] | None:
        """Return the values of the names in patterns, and the variables that constructors distinguish; None where an
        argument is another constructor."""
        specs, inner, apart = self.reader.world.specs[found.module], dict[str, Value](), frozenset[str]()
        for pattern, group in zip(patterns, given):
            value, names = self.value(group, scope, env), words.bare(pattern)
            heads = [token for token in names if token == "[]" or words.is_name(token)
                     and self.reader.world.is_constructor(specs, token)]
            word = words.bare(group)
            is_closed = not value.variables and len(word) == 1
            if heads and is_closed and word[0].split(".")[-1] != heads[0].split(".")[-1]:
                return None
            apart |= value.variables if heads else frozenset()
            for token in names:
                if words.is_name(token) and token not in heads:
                    # A part of a literal value is known.
                    part = Value(value.variables or frozenset([KNOWN]))
                    inner[token] = part if heads or not (value.variables or value.says) else value
        return inner, apart


def silent(world: World, promise: Promise) -> list[str]:
    """Return the words in a promise's reach that say nothing of some ends: words of the kit, and members of our traits
    that a block gives as `Unit {0}`."""
    texts = {path: (world.root / path).read_text() for path in world.code}
    given = {name for text in texts.values() for name in NOTHING.findall(text)}
    traits = [each for chapter in promise.reach.chapters for each in chapter.types if each.kind == "trait"]
    members = [name for trait in traits for name, _ in trait.ghosts if name in given]
    return [word.name for word in promise.reach.kit if word.name in SILENT] + members


def follow(world: World, promises: list[Promise]) -> list[str]:
    """Set the witnesses of all promises; return their faults."""
    witnesses, found, spoken = Witnesses(Reader(world)), list[str](), set[str]()
    for promise in promises:
        names = silent(world, promise)
        names += [name for carrier in promise.carriers for clause in carrier.clauses if clause.kind == "ensures"
                  for name in witnesses.untied(carrier.function, clause)]
        for name in dict.fromkeys(names):
            line = next((line for line in promise.witnesses if name in line.names), None)
            if line:
                promise.free.setdefault(line, []).append(name)
                spoken.add(name)
            else:
                found.append(f"statement/promises.txt: {promise.title}: nothing ties the witness {name}")
    lines = dict.fromkeys(line for promise in promises for line in promise.witnesses)
    return found + [f"statement/promises.txt: no promise has the witness {name}"
                    for line in lines for name in line.names if name not in spoken]
