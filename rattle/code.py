"""Read a file of code (`*.rt`): its functions, their clauses, and the outline for callers."""

import re
from collections.abc import Iterator
from dataclasses import dataclass

from rattle.lexer import PATTERNS, Kind

# In comments, texts and characters braces and words mean nothing.
QUIET = re.compile("|".join(PATTERNS[kind] for kind in (Kind.COMMENT, Kind.TEXT, Kind.CHAR)), re.DOTALL)
BLOCK = re.compile(r"(?m)^[ \t]*(?:pub(?:\(\w+\))?\s+)?(?:unsafe\s+)?((?:impl|trait|mod)\b[^{;]*)\{")
FUNCTION = re.compile(r"\bfn\s+(\w+)")
# The text before the brace of a clause: another brace after a signature opens the body.
CLAUSE = re.compile(r"\b(?:(requires|ensures)\b\s*\*?\s*(\w*)|ghost\s+\w+\s*:)\s*\Z")


@dataclass(frozen=True)
class Block:
    """A block of functions (`impl`, `trait` or `mod`): its head, and its places, from the head to the end."""

    head: str
    start: int
    end: int


@dataclass(frozen=True)
class Clause:
    """A clause: its kind (`requires` or `ensures`), its name ('' for none), and its places from its word to its brace.
    `inner` is the text in its braces, without comments."""

    kind: str
    name: str
    start: int
    end: int
    inner: str


@dataclass(frozen=True)
class Function:
    """A function: its name, the name's place, the innermost block around it, its signature after the name, without
    comments, its clauses, and the places of its body, which are the same where it has none."""

    name: str
    at: int
    around: Block | None
    signature: str
    clauses: tuple[Clause, ...]
    start: int
    end: int

    @property
    def block(self) -> str:
        """Return the head of the block around it, or ''."""
        return self.around.head if self.around else ""

    @property
    def has_body(self) -> bool:
        """Return whether it has a body: a method of a trait may have none."""
        return self.start < self.end


def blanked(text: str) -> str:
    """Return the text with blanks in place of comments, texts and characters, at the same places."""
    return QUIET.sub(lambda found: re.sub(r"[^\n]", " ", found[0]), text)


def without_comments(text: str) -> str:
    """Return the text with an empty line, or the end of one, in place of a comment."""
    return QUIET.sub(lambda found: "" if found[0].startswith("//") else found[0], text)


def closed(code: str, at: int) -> int:
    """Return the place after the brace that closes the one at `at`, or the end of the code."""
    depth = 0
    for brace in re.compile(r"[{}]").finditer(code, at):
        depth += 1 if brace[0] == "{" else -1
        if not depth:
            return brace.end()
    return len(code)


def blocks_of(code: str) -> list[Block]:
    """Return the blocks of code without comments, outer ones before inner ones."""
    return [Block(found[1], found.start(1), closed(code, found.end() - 1)) for found in BLOCK.finditer(code)]


def braces_of(code: str, at: int) -> Iterator[tuple[int, re.Match[str] | None]]:
    """Yield the braces of clauses after a function's name, with the text before them; at last its body, or its end."""
    start, depth = at, 0
    while at < len(code):
        if not depth and code[at] in "{;":
            clause = CLAUSE.search(code, start, at) if code[at] == "{" else None
            yield at, clause
            if not clause:
                return
        depth += (code[at] in "([") - (code[at] in ")]")
        at = closed(code, at) if code[at] == "{" else at + 1


def function_of(code: str, name: re.Match[str], blocks: list[Block]) -> Function:
    """Return the function whose name was matched."""
    braces = [*braces_of(code, name.end())]
    clauses = tuple(Clause(found[1], found[2], found.start(), closed(code, at), code[at + 1 : closed(code, at) - 1])
                    for at, found in braces if found and found[1])
    last = len(code) if not braces or braces[-1][1] else braces[-1][0]
    signature = code[name.end() : min([last, *(clause.start for clause in clauses)])]
    around = [block for block in blocks if block.start <= name.start() < block.end]
    end = closed(code, last) if code[last : last + 1] == "{" else last
    return Function(name[1], name.start(1), around[-1] if around else None, signature, clauses, last, end)


def functions_of(text: str) -> list[Function]:
    """Return the functions of a source text, in its order."""
    code = blanked(text)
    blocks = blocks_of(code)
    return [function_of(code, name, blocks) for name in FUNCTION.finditer(code)]


def item_of(text: str, function: Function) -> int:
    """Return the beginning of a function, with its attributes, words before `fn` and the comments above."""
    at = text.rfind("\n", 0, function.at) + 1
    while at and not re.search(r"(\A|[{};]|//![^\n]*|\n)\n\Z", text[:at]):
        at = text.rfind("\n", 0, at - 1) + 1
    return at


def outline(text: str) -> str:
    """Return the outline of a source text for the crates above: all but comments and bodies of functions."""
    for function in reversed(functions_of(text)):
        if function.has_body:
            text = text[: function.start] + ";" + text[function.end :]
    return re.sub(r"\s+", " ", without_comments(text)).strip()
