"""Complete words for a shell, from the command's own parsers.

operations/install/ropepeach.bash and operations/install/_ropepeach call `ropepeach complete -- WORDS`, whose last
word is the one to complete.
"""
from __future__ import annotations

import itertools
from collections.abc import Sequence

from ropepeach.cli.output import OUTPUT_OPTIONS
from ropepeach.cli.parser import parser_of
from ropepeach.cli.subcommands import SUBCOMMANDS, Subcommand

# Other possible first arguments.
GENERAL = ("help", "version", "--help", "--version")


def candidates(words: Sequence[str]) -> list[str]:
    """Return the words that may replace the last word. If the list is empty, the shell offers files."""
    *given, word = words or [""]
    before = list(itertools.dropwhile(OUTPUT_OPTIONS.__contains__, given))
    if not before:
        offered = [*SUBCOMMANDS, *GENERAL]
    elif before[0] == "help":
        offered = list(SUBCOMMANDS) if len(before) == 1 else []
    elif before[0] in SUBCOMMANDS:
        offered = words_after(SUBCOMMANDS[before[0]], before[-1], word)
    else:
        offered = []
    return sorted(text for text in offered if text.startswith(word))


def words_after(subcommand: Subcommand, before: str, word: str) -> list[str]:
    """Return the arguments that may follow: the values of an option with choices, or options."""
    actions = parser_of(subcommand)._actions
    for action in actions:
        if before in action.option_strings and action.nargs != 0:
            return [str(choice) for choice in action.choices or ()]
    if word.startswith("-"):
        return [text for action in actions for text in action.option_strings]
    return []
