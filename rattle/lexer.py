"""The tokens of a source. Together they are its text, to the byte."""
import enum
import re
from collections.abc import Iterator
from dataclasses import dataclass


class Kind(enum.Enum):
    """The kind of a token."""
    SPACE = "space"
    COMMENT = "comment"
    TEXT = "text"
    CHAR = "char"
    LIFETIME = "lifetime"
    NUMBER = "number"
    WORD = "word"
    MARK = "mark"


# The first that fits is taken. A mark is one character: no form here needs to know `->` or `::` as one.
PATTERNS = {
    Kind.SPACE: r"\s+",
    Kind.COMMENT: r"//[^\n]*",
    Kind.TEXT: r'b?r(?P<hashes>#*)".*?"(?P=hashes)|[bc]?"(?:[^"\\]|\\.)*"',
    Kind.CHAR: r"b?'(?:\\(?:x[0-9A-Fa-f]{2}|u\{[0-9A-Fa-f_]+\}|.)|[^\\'\n])'",
    Kind.LIFETIME: r"'[A-Za-z_][A-Za-z0-9_]*",
    Kind.NUMBER: r"[0-9][A-Za-z0-9_]*(?:\.[0-9][A-Za-z0-9_]*)?",
    Kind.WORD: r"[A-Za-z_][A-Za-z0-9_]*",
    Kind.MARK: r".",
}
TOKEN = re.compile("|".join(f"(?P<{kind.name}>{pattern})" for kind, pattern in PATTERNS.items()), re.DOTALL)


@dataclass(frozen=True)
class Token:
    """A piece of a source, and its place."""
    kind: Kind
    text: str
    at: int

    @property
    def end(self) -> int:
        """Return its end."""
        return self.at + len(self.text)

    @property
    def is_code(self) -> bool:
        """Return whether it is more than a space or a comment."""
        return self.kind not in (Kind.SPACE, Kind.COMMENT)


def tokens(text: str) -> Iterator[Token]:
    """Return all tokens of a source, spaces and comments too."""
    for found in TOKEN.finditer(text):
        assert found.lastgroup is not None
        yield Token(Kind[found.lastgroup], found[0], found.start())
