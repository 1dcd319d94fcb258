"""The words that a definition uses, in the order of its text.

A name that is bound within is no such word: the variables of a pattern, of `λ`, of `let`, of `(x : A) →` and of the
head of a record stand for themselves, and hide what goes by the same name outside. Neither is a field after a dot, nor
one that is given its value (`record { at = t }`).
"""

import re
from collections.abc import Callable, Iterable
from dataclasses import replace

from rattle.antt import Definition

TOKEN = re.compile(r'"(?:[^"\\]|\\.)*"|\[\]|[(){}\[\];,]|[^\s(){}\[\];,"]+')
# A type's part by a trait of Rust, `⟦<PageRef as Ord>⟧`.
IMPLEMENTED = re.compile(r"⟦[^⟧]*⟧")
OPEN, CLOSE = "({[", ")}]"
# Tokens, and a word with its fields after dots.
Tokens = list[str]
Word = tuple[str, list[str]]
# Signs and words of the language that name nothing.
SIGNS = set("→ : = λ let in record where pub abbrev unfoldable opaque data Type _ . , ; | ↦ elim as do ←".split())
NUMBER = re.compile(r"[\d_]+$")
# The parts of a pattern of the kit's own types.
KIT_CONSTRUCTORS = {"zero", "suc", "true", "false", "[]", "∷", "Some", "None", "Ok", "Err", "tt", "pos", "negsuc"}


def tokens_of(lines: Iterable[str]) -> Tokens:
    """Return the tokens of these lines. The dot after the names of a `λ` is a token of its own."""
    found: Tokens = []
    for line in lines:
        for token in TOKEN.findall(IMPLEMENTED.sub("", line)):
            if len(token) > 1 and token.endswith(".") and token[0] != '"':
                found += [token[:-1], "."]
            else:
                found.append(token)
    return found


def is_name(token: str) -> bool:
    """Return whether a token may name something."""
    return token not in SIGNS and token[0] not in "(){}[];,\"." and not NUMBER.match(token)


def closing(tokens: Tokens, at: int) -> int:
    """Return the place where the bracket at this place is closed."""
    depth = 0
    for place in range(at, len(tokens)):
        depth += (tokens[place] in OPEN) - (tokens[place] in CLOSE)
        if not depth:
            return place
    return len(tokens)


def binder(tokens: Tokens, at: int) -> tuple[Tokens, int]:
    """Return the names that a bracket at this place binds, `(x y : A)`, or none; and the place of the `:`."""
    end = at + 1
    while end < len(tokens) and (is_name(tokens[end]) or tokens[end] == "_"):
        end += 1
    is_binder = end > at + 1 and end < len(tokens) and tokens[end] == ":"
    return (tokens[at + 1 : end], end) if is_binder else ([], at)


def bare(tokens: Tokens) -> Tokens:
    """Return tokens without the brackets around all of them."""
    while tokens[:1] == ["("] and closing(tokens, 0) == len(tokens) - 1 and not binder(tokens, 0)[0]:
        tokens = tokens[1:-1]
    return tokens


def binders(tokens: Tokens) -> list[tuple[str, Tokens]]:
    """Return the names that brackets bind, with their types; none for other tokens."""
    found, at = list[tuple[str, Tokens]](), 0
    while at < len(tokens) and tokens[at] in "({" and binder(tokens, at)[0]:
        names, colon = binder(tokens, at)
        end = closing(tokens, at)
        found += [(name, tokens[colon + 1 : end]) for name in names]
        at = end + 1
    return found if at == len(tokens) else []


def bound_names(tokens: Tokens) -> list[str]:
    """Return the names that brackets bind."""
    return [name for name, _ in binders(tokens)]


def lambda_names(group: Tokens) -> list[str]:
    """Return the names of the `λ` at the front of a bracket."""
    tokens = bare(group)
    return [token for token in tokens[1 : tokens.index(".")] if is_name(token)] if tokens[:1] == ["λ"] else []


def behind_names(group: Tokens) -> Tokens:
    """Return the tokens after the `λ` at the front of a bracket."""
    tokens = bare(group)
    return tokens[tokens.index(".") + 1 :] if tokens[:1] == ["λ"] else tokens


class Walk:
    """A walk over the tokens of a definition. `words` gets the free ones, with their fields after dots."""

    def __init__(self, bound: Iterable[str] = ()) -> None:
        self.scopes: list[set[str]] = [set(bound)]
        self.words: list[Word] = []

    def expression(self, tokens: Tokens) -> None:
        """Walk over an expression."""
        at, lets = 0, list[str]()
        while at < len(tokens):
            at = self.step(tokens, at, lets)

    def step(self, tokens: Tokens, at: int, lets: list[str]) -> int:
        """Walk over the item at a place; return the place of the next one."""
        token = tokens[at]
        if token in "({" and binder(tokens, at)[0]:
            return self.bind(tokens, at)
        if token in OPEN:
            return self.nested(tokens, at)
        if token == "λ":
            return self.function(tokens, at + 1)
        if token == "let":
            lets.append(tokens[at + 1])
            return at + 2
        if tokens[at + 1 : at + 2] == ["←"]:
            self.scopes[-1].add(token)
        elif token == "do":
            # The operator of this name joins its steps.
            self.tell(">>=")
        elif token == "in" and lets:
            self.scopes[-1].add(lets.pop())
        elif is_name(token):
            self.tell(token)
        return at + 1

    def nested(self, tokens: Tokens, at: int) -> int:
        """Walk over the text in brackets, which has a scope of its own."""
        end = closing(tokens, at)
        inner = tokens[at + 1 : end]
        # A bracket may have fields with their values: `record { at = t }`, `f {x = e}`.
        if tokens[at] == "{" and len(inner) > 2 and inner[1] == "=":
            for each in parted(inner, ";"):
                if len(each) > 2 and each[1] == "=":
                    self.within(each[2:])
        else:
            self.within(inner)
        return end + 1

    def within(self, tokens: Tokens) -> None:
        """Walk over an expression that has a scope of its own."""
        self.scopes.append(set())
        self.expression(tokens)
        self.scopes.pop()

    def bind(self, tokens: Tokens, at: int) -> int:
        """Walk over a bracket that binds names: its type first, then the names are bound."""
        names, colon = binder(tokens, at)
        end = closing(tokens, at)
        self.within(tokens[colon + 1 : end])
        self.scopes[-1].update(names)
        return end + 1

    def function(self, tokens: Tokens, at: int) -> int:
        """Bind the names of a `λ`, up to its dot."""
        while at < len(tokens) and tokens[at] != ".":
            if tokens[at] in "({":
                at = self.bind(tokens, at)
            else:
                self.scopes[-1].add(tokens[at])
                at += 1
        return at + 1

    def tell(self, token: str) -> None:
        """Note a free word."""
        # A reserved word may be a name, `«in»`.
        head, *path = token.replace("«", "").replace("»", "").split(".")
        if head and not any(head in scope for scope in self.scopes):
            self.words.append((head, path))

    def patterns(self, tokens: Tokens, is_constructor: Callable[[str], bool]) -> None:
        """Walk over the left side of an equation: note constructors, and bind variables."""
        for token in filter(is_name, tokens):
            if is_constructor(token):
                self.tell(token)
            else:
                self.scopes[-1].add(token)


def parted(tokens: Tokens, mark: str) -> list[Tokens]:
    """Return the tokens between marks outside brackets."""
    parts: list[Tokens] = [[]]
    depth = 0
    for token in tokens:
        depth += (token in OPEN) - (token in CLOSE)
        if token == mark and not depth:
            parts.append([])
        else:
            parts[-1].append(token)
    return parts


def equation(tokens: Tokens) -> tuple[Tokens, Tokens]:
    """Return the two sides of an equation."""
    first, *rest = parted(tokens, "=")
    return first, [token for each in rest for token in ["=", *each]][1:]


def pieces(lines: Iterable[str]) -> list[list[str]]:
    """Return the head of a definition and its equations, which begin at the left edge."""
    return grouped(lines, lambda line: not line.startswith(" "))


def grouped(lines: Iterable[str], begins: Callable[[str], bool]) -> list[list[str]]:
    """Return groups of lines, which begin with a first line and end before the next one."""
    found: list[list[str]] = []
    for line in lines:
        if begins(line) or not found:
            found.append([])
        found[-1].append(line)
    return found


def head_words(definition: Definition, head: list[str]) -> list[Word]:
    """Return the words of a definition's head: its type, or the parameters with the fields or the cases."""
    tokens = tokens_of(head)
    walk = Walk()
    if definition.section:
        walk.expression(tokens_of([definition.section]))
    start = tokens.index(definition.name) + 1
    if definition.kind in ("function", "proof"):
        walk.expression(tokens[start + 1 :])
        return walk.words
    where = tokens.index("where")
    walk.expression(tokens[start:where])
    for piece in fields(head):
        each = tokens_of(piece)
        colon = each.index(":")
        walk.within(each[colon + 1 :])
        if definition.kind == "record":
            walk.scopes[-1].update(each[:colon])
    return walk.words


def fields(head: list[str]) -> list[list[str]]:
    """Return the lines of the fields of a record, or of the cases of a data."""
    begin = next(place for place, line in enumerate(head) if line.rstrip().endswith("where")) + 1
    return grouped(head[begin:], lambda line: not line.startswith("   "))


def with_field(definition: Definition, name: str) -> Definition | None:
    """Return a record with only this field, or nothing where it has no such field."""
    head, *_ = pieces(definition.code)
    begin = len(head) - sum(len(lines) for lines in fields(head))
    chosen = [lines for lines in fields(head) if name in tokens_of(lines[:1])[: tokens_of(lines[:1]).index(":")]]
    comment = [line for part in paragraphs(definition.comment)
               if not part[0].startswith("-- `") or f"`{name}`" in part[0] for line in part]
    return replace(definition, comment=comment, lines=[*head[:begin], *chosen[0]], part=name) if chosen else None


def paragraphs(comment: list[str]) -> list[list[str]]:
    """Return the parts of a comment: its head, and its texts on fields, which begin with a field's name."""
    return grouped(comment, lambda line: line.startswith("-- `"))


def words_of(definition: Definition, is_constructor: Callable[[str], bool]) -> list[tuple[str, tuple[str, ...]]]:
    """Return the words of a definition in their order, once: the name, and its fields after dots."""
    head, *equations = pieces(definition.code)
    used = head_words(definition, head)
    # An operator occurs between its sides by the parts of its name.
    own = {definition.name, *definition.name.split("◌")}
    for lines in [] if definition.kind == "proof" else equations:
        first, right = equation(tokens_of(lines))
        walk = Walk(name for names in re.findall(r"[({]([\w ]+) :", definition.section) for name in names.split())
        walk.patterns([token for token in first if token not in own], is_constructor)
        walk.expression(right)
        used += walk.words
    return list(dict.fromkeys((head, tuple(path)) for head, path in used if head not in own))
