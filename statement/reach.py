"""The reach of a promise, in the order in which it reads best.

Each crate is a chapter; the highest crate comes first. Within a chapter a definition follows the first definition that
uses it, and the definitions that it uses follow it (depth first, in the order of the text). So a reader meets a
sentence with the terms of its own layer, such as *session*, *stopped* and *recovered*. The terms of a lower layer, such
as *holds* and *image*, are defined in the chapter of that layer, after all their uses. Depth first over all crates
would lead from the first line of the headline to the bytes of a page; breadth first would mix the crates.
"""

from collections.abc import Callable, Collection, Iterable
from dataclasses import dataclass

from rattle.antt import Definition
from statement.source import Type
from statement.world import Item, KitWord, World

# The direct reach of an item.
Uses = Callable[[Item], list[Item]]


@dataclass
class Chapter:
    """A crate: its definitions and its types, in their order."""

    crate: str
    definitions: list[Definition]
    types: list[Type]


@dataclass
class Reach:
    """The reach of a promise."""

    chapters: list[Chapter]
    kit: list[KitWord]

    @property
    def definitions(self) -> list[Definition]:
        """Return all definitions."""
        return [definition for each in self.chapters for definition in each.definitions]

    @property
    def counts(self) -> tuple[int, int, int, int]:
        """Return the numbers of definitions, of their lines, of types of the code and of words of the kit."""
        lines = sum(len(definition.code) for definition in self.definitions)
        return len(self.definitions), lines, sum(len(each.types) for each in self.chapters), len(self.kit)


def take(uses: Uses, crate: str, items: Iterable[Item], found: dict[Item, None]) -> None:
    """Take these items of a crate, every one followed by its uses of the crate."""
    for item in items:
        if item.crate == crate and item not in found and not isinstance(item, KitWord):
            found[item] = None
            take(uses, crate, uses(item), found)


def closure(world: World, first: Iterable[Item]) -> set[Item]:
    """Return all items in reach of these, in no order."""
    found, due = set[Item](), list(first)
    while due:
        item = due.pop()
        if item not in found:
            found.add(item)
            due += world.uses(item)
    return found


def reach(world: World, first: list[Item], between: Collection[Item] = ()) -> Reach:
    """Return the reach of these items, without the words between a clause and a law and their own reach."""
    def uses(item: Item) -> list[Item]:
        return [used for used in world.uses(item) if used not in between]

    every, chapters = [item for item in first if item not in between], list[Chapter]()
    for crate in reversed(world.crates):
        found = dict[Item, None]()
        take(uses, crate, every, found)
        every += [used for item in found for used in uses(item)]
        if found:
            definitions = [item for item in found if isinstance(item, Definition)]
            chapters.append(Chapter(crate, definitions, [item for item in found if isinstance(item, Type)]))
    return Reach(chapters, sorted({item for item in every if isinstance(item, KitWord)}, key=lambda item: item.label))
