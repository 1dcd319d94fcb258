"""The lines of promises.txt that name the giver of a premise.

A line is `premise: NAME from: CLAUSE, ..`, `premise: NAME law: CLAUSE, ..`, `premise: NAME trust: sentence` or
`premise: NAME case: sentence`. NAME is a relation, a field of a relation (`AnswersCopy.holds`), or a condition as
it is written, with `*` for any text; `;` separates several names. A trusted record lists its fields, as in
`IsStop {from to left}`, so that a further field is noticed. A case is no assumption: the arguments and the answer
decide whether the case applies, and the clause covers this case only.

A law concludes a relation from its parts, so the parts need givers too. A further part is noticed here and by the
proof of the law.
"""

import re
from collections.abc import Iterable
from dataclasses import dataclass

from rattle.antt import Definition
from statement.relations import Node
from statement.tables import Wrong
from statement.terms import Relation

LINE = re.compile(r"(.+?) (from|law|trust|case): (.+)$")
WITNESS = re.compile(r"(.+?) trust: (.+)$")
# The kinds by which clauses conclude a premise.
CONCLUDED = ("from", "law")
FIELDS = re.compile(r"(.+?) \{(.*)\}$")


@dataclass(eq=False)
class Line:
    """A line of promises.txt: the premises that it names, their kind of giver, and the clauses or the reason."""

    names: dict[str, list[str] | None]
    kind: str
    text: str

    @property
    def clauses(self) -> list[str]:
        """Return the clauses that conclude them."""
        return [clause.strip() for clause in self.text.split(",")] if self.kind in CONCLUDED else []

    def name_for(self, node: Node, definition: Definition | None) -> str:
        """Return the name by which the line names a premise, or ''."""
        for name in (node.name, definition.name if definition else ""):
            if name and name in self.names:
                return name
        text = node.term.text if isinstance(node.term, Relation) and not definition else ""
        patterns = {name: re.escape(name).replace(r"\*", ".*") for name in self.names if text}
        return next((name for name, pattern in patterns.items() if re.fullmatch(pattern, text)), "")


def parsed(text: str) -> Line:
    """Return the line after `premise: `."""
    found = LINE.match(text)
    if not found:
        raise Wrong(f"statement/promises.txt: not a premise with from, law, trust or case: {text}")
    names: dict[str, list[str] | None] = {}
    for name in found[1].split(";"):
        fields = FIELDS.match(name.strip())
        names[fields[1] if fields else name.strip()] = fields[2].split() if fields else None
    return Line(names, found[2], found[3])


@dataclass(eq=False)
class Witness:
    """A line `witness: NAME; NAME trust: sentence`: free variables of a conclusion, or words of the kit that say
    nothing of some ends, and the reason why they are allowed."""

    names: list[str]
    text: str


def witness(text: str) -> Witness:
    """Return the line after `witness: `."""
    found = WITNESS.match(text)
    if not found:
        raise Wrong(f"statement/promises.txt: not a witness with trust: {text}")
    return Witness([name.strip() for name in found[1].split(";")], found[2])


# The kinds of givers, in words.
WORDS = {"from": "concluded by", "law": "concluded by the law", "trust": "trusted:", "case": "a case:"}


def sentences(spoken: dict[Line, dict[str, Node]]) -> list[str]:
    """Return the givers of the premises that lines name: clauses first, then trust, then cases."""
    return [sentence(line, names) for kind in WORDS for line, names in spoken.items() if line.kind == kind]


def sentence(line: Line, names: Iterable[str]) -> str:
    """Return the giver of these premises of a line."""
    fields = {name: f" {{{' '.join(listed)}}}" for name, listed in line.names.items() if listed}
    return f"{'; '.join(name + fields.get(name, '') for name in names)}: {WORDS[line.kind]} {line.text}"
