"""The statement as one self-contained page of HTML, in which words lead to their meanings.

A promise has its sentence, its clauses and the names of all that it reaches, in the order of reach.py; each definition
stands once, in the chapter of its crate, behind the promises.
"""

import html
import re
from collections.abc import Iterable, Mapping

from rattle.antt import Definition
from statement import tables
from statement.evidence import KINDS, Evidence
from statement.promises import Promise
from statement.shown import counted, declared, meaning, summary
from statement.source import Type
from statement.world import Item, Links, World

STYLE = """
body { margin: 0 auto; max-width: 64rem; padding: 1rem; font: 1rem/1.5 serif; color: #222; background: #fff; }
pre { font: .85rem/1.45 monospace; background: #f6f6f4; padding: .6rem .8rem; overflow-x: auto; margin: .3rem 0; }
a { color: #1a4f8b; text-decoration: none; } a:hover { text-decoration: underline; }
blockquote { margin: .5rem 0; padding-left: 1rem; border-left: .25rem solid #ccc; }
h2 { margin-top: 3rem; border-bottom: 1px solid #ccc; } h4 { margin: 1.4rem 0 .2rem; font-family: monospace; }
.at, .evidence { color: #666; font-size: .85rem; } .bare { color: #a33; } .c { color: #6a6a6a; }
:target { background: #fff6d0; }
"""
# A possible word in a line, or a part of one: a field after a dot is none. HTML has the text between as it is.
PIECE = re.compile(r"[^\s(){}\[\];,]+|\[\]")


def anchor(item: Item | Promise) -> str:
    """Return the anchor of an item."""
    if isinstance(item, Promise):
        return "promise-" + re.sub(r"\W+", "-", item.title)
    front = "" if isinstance(item, (Definition, Type)) else "kit-"
    part = f".{item.part}" if isinstance(item, Definition) and item.part else ""
    letters = [each if each.isalnum() or each in "._:" else f"-{ord(each):x}" for each in item.label]
    return front + "".join(letters) + part


def linked(word: str, item: Item | Promise) -> str:
    """Return a word that leads to its meaning."""
    return f'<a href="#{anchor(item)}">{html.escape(word)}</a>'


def line_of(line: str, links: Links) -> str:
    """Return a line in which words lead to their meanings, but for fields that get a value."""
    if line.lstrip().startswith(("--", "//")):
        return f'<span class="c">{html.escape(line)}</span>'
    return PIECE.sub(lambda piece: piece_of(line, piece, links), line)


def piece_of(line: str, piece: re.Match[str], links: Links) -> str:
    """Return a piece of a line, which leads to its meaning."""
    word, steps = piece[0], piece[0].split(".")
    before = line[: piece.start()].rstrip()
    # An equation of the definition itself begins at the left edge.
    if piece.start() and line[piece.end() :].startswith(" = ") and before[-1:] in ("", "{", ";"):
        return html.escape(word)
    for head in (".".join(steps[:2]), steps[0], steps[0].rstrip(":")):
        if head and head in links:
            return linked(head, links[head]) + html.escape(word[len(head) :])
    return html.escape(word)


class Page:
    """The page, as pieces of HTML."""

    def __init__(self, world: World, promises: list[Promise], evidence: dict[str, list[Evidence]],
                 meanings: Mapping[str, str]) -> None:
        self.world, self.evidence, self.meanings, self.pieces = world, evidence, meanings, list[str]()
        # The items that no promise opens: no word leads there.
        reached = {definition for promise in promises for definition in promise.reach.definitions}
        self.unopened = {definition for promise in promises for definition in promise.between} - reached

    def say(self, *pieces: str) -> None:
        """Add pieces of HTML."""
        self.pieces += pieces

    def code(self, lines: Iterable[str], links: Links) -> None:
        """Add lines of a definition, or of code."""
        # An operator is known by its parts too.
        opened = {word: item for word, item in links.items() if item not in self.unopened}
        parts = {part: item for item in opened.values() for part in item.name.split("◌") if "◌" in item.name and part}
        known = {**parts, **opened}
        self.say("<pre>" + "\n".join(line_of(line, known) for line in lines) + "</pre>")

    def head(self, promises: list[Promise]) -> None:
        """Add the head of the page: its content, and how to read it."""
        self.say("<h1>What has to be believed</h1><p>Of each promise: its sentence, the clauses that carry it, and all"
                 " that these reach, in a")
        self.say("reader's order: the highest crate first, and in a crate each definition behind the first one that"
                 " uses it. Each word")
        self.say("leads to what it means.</p><ul>")
        self.say(*(f"<li>{linked(each.title, each)}: {summary(each.reach.counts)}</li>" for each in promises))
        self.say("</ul><p>What a definition was held against stands below it:</p><ul>")
        self.say(*(f"<li>{kind}: {meaning}</li>" for kind, (meaning, _) in KINDS.items()), "</ul>")

    def promise(self, promise: Promise) -> None:
        """Add a promise, and the names of all definitions that it reaches."""
        quoted = f"<blockquote>{html.escape(promise.sentence)}</blockquote>"
        self.say(f'<h2 id="{anchor(promise)}">{html.escape(promise.title)}</h2>{quoted}')
        self.say(f'<p class="at">{promise.fields["in"]}; in the table of docs/PROMISES.md: {promise.fields["row"]}</p>')
        for each in promise.carriers:
            place = f'<span class="at">{each.function.path}:{each.function.line}</span>'
            self.say(f"<p>Carried by <code>{html.escape(each.function.label)}</code> {place}</p>")
            for clause in {tuple(clause.lines): clause for clause in each.clauses}.values():
                self.code(clause.lines, self.world.links_of_clause(each.function, clause))
        self.premises(promise)
        for chapter in promise.reach.chapters:
            items: list[Definition | Type] = [*chapter.definitions, *chapter.types]
            names = ", ".join(linked(each.name, each) for each in items)
            self.say(f"<p><b>{chapter.crate}</b> ({counted(len(chapter.definitions), 'definition')}): {names}</p>")
        self.say(f"<p><b>the kit</b>: {', '.join(linked(each.name, each) for each in promise.reach.kit)}</p>")

    def premises(self, promise: Promise) -> None:
        """Add the premises of a promise with their givers."""
        grounds = promise.grounds
        self.say("<p>Its premises, and what gives each:</p><ul>" if grounds else "<p>It has no premise.</p><ul>")
        self.say(*(f"<li>{html.escape(sentence)}</li>" for sentence in grounds), "</ul>")

    def title(self, item: Item, title: str, place: str) -> None:
        """Add the title of a definition or a type, and its place."""
        self.say(f'<h4 id="{anchor(item)}">{html.escape(title)} <span class="at">{place}</span></h4>')

    def definition(self, definition: Definition) -> None:
        """Add a definition and its evidence."""
        self.title(definition, definition.title, f"{definition.path}:{definition.line}")
        self.code([*definition.comment, *definition.lines], self.world.links(definition))
        pieces = [html.escape(each.label) for each in self.evidence.get(definition.label, [])]
        shown = "<br>".join(pieces) or "<span class=bare>no evidence of its own</span>"
        self.say(f'<div class="evidence">{shown}</div>')

    def type(self, kind: Type) -> None:
        """Add a type of the code."""
        self.title(kind, kind.name, f"{kind.kind} of the code, {kind.path}:{kind.line}")
        self.say(f"<p>{html.escape(meaning(kind))}</p>")
        self.code(declared(kind), self.world.links(kind))

    def crates(self, promises: list[Promise]) -> None:
        """Add every definition and type that a promise reaches, once, in the order of the first such promise."""
        chapters = [chapter for promise in promises for chapter in promise.reach.chapters]
        for crate in reversed(self.world.crates):
            mine = [chapter for chapter in chapters if chapter.crate == crate]
            if mine:
                self.say(f'<h2 id="{crate}">{crate}</h2>')
            for definition in dict.fromkeys(each for chapter in mine for each in chapter.definitions):
                self.definition(definition)
            for kind in dict.fromkeys(each for chapter in mine for each in chapter.types):
                self.type(kind)

    def words(self, promises: list[Promise]) -> None:
        """Add the words of the kit and of the language."""
        self.say("<h2>The kit</h2><ul>")
        for kit_word in dict.fromkeys(each for promise in promises for each in promise.reach.kit):
            meaning = html.escape(self.meanings[kit_word.label])
            name = html.escape(kit_word.name)
            self.say(f'<li id="{anchor(kit_word)}"><b>{name}</b> ({kit_word.crate}): {meaning}</li>')
        self.say("</ul><h2>The language</h2><ul>")
        for word, meaning in self.meanings.items():
            if word.startswith(tables.LANGUAGE):
                self.say(f"<li><b>{word.removeprefix(tables.LANGUAGE)}</b>: {html.escape(meaning)}</li>")
        self.say("</ul>")


def page(world: World, promises: list[Promise], evidence: dict[str, list[Evidence]],
         meanings: Mapping[str, str]) -> str:
    """Return the page of all promises."""
    made = Page(world, promises, evidence, meanings)
    made.head(promises)
    for promise in promises:
        made.promise(promise)
    made.crates(promises)
    made.words(promises)
    body = "\n".join(made.pieces)
    head = f'<meta charset="utf-8"><title>What has to be believed</title><style>{STYLE}</style>'
    return f'<!doctype html><html lang="en">{head}<body>\n{body}\n</body></html>\n'
