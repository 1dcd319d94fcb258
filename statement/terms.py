"""Read the type of a clause or of a definition as a tree: the left sides of its arrows, and its conclusion."""

from dataclasses import dataclass

from statement import words

# Signs between types, the weakest first: equivalence, sum, product.
JOINED = ("↔", "⊎", "×")
# Signs between two values.
BETWEEN = ("≡", "≢", "≤", "<")


@dataclass(frozen=True)
class Relation:
    """A relation of values: its head or its sign, its text, and its arguments that may be relations."""

    head: str
    text: str
    inner: tuple["Term", ...] = ()


@dataclass(frozen=True)
class Joined:
    """Two types or more with a sign between them."""

    sign: str
    parts: tuple["Term", ...]


@dataclass(frozen=True)
class Arrow:
    """The left sides of arrows, in order, and the conclusion."""

    premises: tuple["Term", ...]
    end: "Term"


Term = Relation | Joined | Arrow
# The empty type.
NEVER = Relation("⊥", "⊥")


def spelled(tokens: list[str]) -> str:
    """Return the text of tokens, as a person writes it."""
    text = " ".join(tokens)
    for wide, close in (("( ", "("), (" )", ")"), (") .", ")."), (" ,", ","), (" ;", ";"), (" . ", ". ")):
        text = text.replace(wide, close)
    return text


def unbound(tokens: list[str]) -> list[str]:
    """Return the tokens after `let x = e in` at the front."""
    while tokens[:1] == ["let"]:
        tokens = tokens[tokens.index("in") + 1 :]
    return tokens


def groups(tokens: list[str]) -> list[list[str]]:
    """Return the brackets and the single tokens of an application."""
    found, at = [], 0
    while at < len(tokens):
        end = words.closing(tokens, at) + 1 if tokens[at] in words.OPEN else at + 1
        found.append(tokens[at:end])
        at = end
    return found


def bound_types(tokens: list[str]) -> list[list[str]]:
    """Return the types of binders, `(x : A) (y : B)`, or the only type."""
    found, at = [], 0
    while at < len(tokens) and tokens[at] in "({" and words.binder(tokens, at)[0]:
        colon, end = words.binder(tokens, at)[1], words.closing(tokens, at)
        found.append(tokens[colon + 1 : end])
        at = end + 1
    return found if at == len(tokens) else [tokens]


def term(tokens: list[str]) -> Term | None:
    """Return the tree of a type, or nothing where there is no type."""
    tokens = unbound(tokens)
    if tokens[:1] == ["λ"]:
        return term(tokens[tokens.index(".") + 1 :])
    *before, last = (unbound(part) for part in words.parted(tokens, "→"))
    if not before:
        return joined(tokens)
    premises = tuple(premise for part in before for each in bound_types(part) if (premise := joined(each)))
    end = term(last)
    # An arrow to the empty type is a negation.
    return Relation("¬", spelled(tokens)) if end == NEVER else Arrow(premises, end) if end else None


def joined(tokens: list[str]) -> Term | None:
    """Return the tree of a type without an arrow of its own."""
    for sign in JOINED:
        parts = words.parted(tokens, sign)
        if len(parts) > 1:
            return Joined(sign, tuple(made for part in parts for each in bound_types(part) if (made := term(each))))
    return relation(tokens)


def relation(tokens: list[str]) -> Term | None:
    """Return a relation, or the tree of the text in brackets."""
    each = groups(tokens)
    sign = next((group[0] for group in each if group[0] in BETWEEN), None)
    if sign:
        return Relation(sign, spelled(tokens))
    if len(each) == 1 and each[0][0] == "(":
        return term(each[0][1:-1])
    if not each or each[0][0] in words.OPEN:
        return None
    return Relation(each[0][0], spelled(tokens), tuple(inner for inner in map(argument, each[1:]) if inner))


def argument(group: list[str]) -> Term | None:
    """Return an argument that may be a relation."""
    return term(group[1:-1]) if group[0] == "(" else Relation(group[0], group[0]) if words.is_name(group[0]) else None
