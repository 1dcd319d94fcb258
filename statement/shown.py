"""The statement as text."""

import re
import textwrap
from collections.abc import Iterable, Mapping

from rattle.antt import Definition
from statement import evidence, tables
from statement.promises import Promise
from statement.reach import Chapter
from statement.source import Type

WIDTH = 110
HEAD = """Of each: its sentence; the clauses that carry it; its premises, which stand left of an arrow there, and which
clause concludes each, or that it is trusted; each definition that the clauses reach, and no other, the highest crate
first, and in a crate each behind the first one that uses it; the types of the code; the words of the kit. Under a
definition stands what it was held against:"""


def folded(text: str) -> list[str]:
    """Return a text in lines of at most this many letters."""
    words = " ".join(text.split())
    return textwrap.wrap(words, WIDTH, break_long_words=False, break_on_hyphens=False) or [""]


def counted(number: int, word: str) -> str:
    """Return a number of things in words."""
    return f"{number} {word}" if number == 1 else f"{number} {word}s"


def summary(counts: tuple[int, int, int, int]) -> str:
    """Return the counts of a promise in words."""
    definitions, lines, types, words = counts
    of_ours = f"{counted(definitions, 'definition')} in {counted(lines, 'line')}"
    return f"{of_ours}, {counted(types, 'type')} of the code and {counted(words, 'word')} of the kit"


def meaning(kind: Type) -> str:
    """Return the first sentence of the comment above a type."""
    text = " ".join(" ".join(kind.comment).split(" # ")[0].split())
    first = re.match(r"(.*?[.;])(?: |$)", text)
    return first[1] if first else text


def declared(kind: Type) -> list[str]:
    """Return the text of a type without comments, or its value in contracts."""
    if kind.value:
        return [f"in contracts it is: {' '.join(kind.value.split())}"]
    return [line for line in kind.text.splitlines() if line.strip() and not line.lstrip().startswith(("///", "//"))]


def indented(lines: Iterable[str], step: str = "    ") -> list[str]:
    """Return indented lines."""
    return [f"{step}{line}".rstrip() for line in lines]


class Text:
    """The statement as lines of text. `pieces` has the evidence of definitions, by their labels."""

    def __init__(self, pieces: dict[str, list[evidence.Evidence]], meanings: Mapping[str, str]) -> None:
        self.evidence, self.meanings, self.lines = pieces, meanings, list[str]()

    def say(self, *lines: str) -> None:
        """Add lines."""
        self.lines += lines

    def head(self, promises: list[Promise]) -> None:
        """Add the head: the content of the statement, and how to read it."""
        self.say("# What has to be believed", "")
        self.say(*folded(f"{counted(len(promises), 'promise')}. {HEAD}"))
        self.say(*(f"  {kind}: {meaning}" for kind, (meaning, _) in evidence.KINDS.items()), "")
        self.say("How much there is to read:")
        self.say(*(f"  {promise.title}: {summary(promise.reach.counts)}" for promise in promises), "", "The language:")
        words = {word: meaning for word, meaning in self.meanings.items() if word.startswith(tables.LANGUAGE)}
        self.say(*(f"  {word.removeprefix(tables.LANGUAGE)}  {meaning}" for word, meaning in words.items()), "")

    def promise(self, promise: Promise) -> None:
        """Add a promise and its reach."""
        self.say(f"## {promise.title}", "", *indented(folded(promise.sentence), "> "), "")
        self.say(f"({promise.fields['in']}; in the table of docs/PROMISES.md: {promise.fields['row']})", "")
        for carrier in promise.carriers:
            self.say(f"Carried by {carrier.function.label}, {carrier.function.path}:{carrier.function.line}")
            for lines in dict.fromkeys(tuple(clause.lines) for clause in carrier.clauses):
                self.say(*indented(lines))
            self.say("")
        self.premises(promise)
        self.say(f"It reaches {summary(promise.reach.counts)}.", "")
        for chapter in promise.reach.chapters:
            self.chapter(chapter)
        self.kit(promise)
        self.without(promise)

    def premises(self, promise: Promise) -> None:
        """Add the premises of a promise with their givers."""
        self.say("Its premises, and what gives each:" if promise.grounds else "It has no premise.", "")
        for sentence in promise.grounds:
            first, *more = folded(sentence)
            self.say(f"    {first}", *indented(more, " " * 8))
        self.say("")

    def chapter(self, chapter: Chapter) -> None:
        """Add a crate's part of the statement."""
        lines = sum(len(definition.code) for definition in chapter.definitions)
        count = f"{counted(len(chapter.definitions), 'definition')} in {counted(lines, 'line')}"
        self.say(f"### {chapter.crate}: {count}", "")
        for definition in chapter.definitions:
            self.definition(definition)
        for kind in chapter.types:
            self.type(kind)

    def definition(self, definition: Definition) -> None:
        """Add a definition and its evidence."""
        self.say(f"[{definition.title}] {definition.path}:{definition.line}")
        self.say(*indented([*definition.comment, *definition.lines]))
        self.say(*(f"    = {piece.label}" for piece in self.evidence.get(definition.label, [])), "")

    def type(self, kind: Type) -> None:
        """Add a type of the code."""
        self.say(f"[{kind.name}, {kind.kind} of the code] {kind.path}:{kind.line}")
        self.say(*indented(folded(meaning(kind))), *indented(declared(kind)), "")

    def kit(self, promise: Promise) -> None:
        """Add the words of the kit."""
        self.say("### Words of the kit", "")
        self.say(*(f"{word.name} ({word.crate}): {self.meanings[word.label]}" for word in promise.reach.kit), "")

    def without(self, promise: Promise) -> None:
        """Add the definitions without evidence in the table."""
        bare = evidence.bare(promise.reach.definitions, self.evidence)
        self.say(f"### Without evidence of their own: {len(bare)} of {len(promise.reach.definitions)}", "")
        self.say(*folded(", ".join(definition.label for definition in bare) or "none"), "")


def text(promises: list[Promise], chosen: list[Promise], pieces: dict[str, list[evidence.Evidence]],
         meanings: Mapping[str, str]) -> str:
    """Return the statement of the chosen promises."""
    shown = Text(pieces, meanings)
    shown.head(promises)
    for promise in chosen:
        shown.promise(promise)
    return "\n".join(shown.lines)
