"""The parsers of the command line: options are whole words, help fits the terminal, a usage error has two lines."""
from __future__ import annotations

import argparse
import contextlib
import os
import re
import sys
from collections.abc import Iterable
from typing import NoReturn

from ropepeach import __version__
from ropepeach.cli import output
from ropepeach.cli.statuses import Status
from ropepeach.cli.subcommands import GROUPS, SUBCOMMANDS, Subcommand
from ropepeach.faults import printable

PURPOSE = "Fills, mirrors and maintains ResourceSync sources. `ropepeach help COMMAND` describes a command."
# Help has at most this many columns: longer lines are hard to read.
WIDEST = 80


class Formatter(argparse.HelpFormatter):
    """Help that is readable from 60 columns on."""

    def __init__(self, prog: str) -> None:
        super().__init__(prog, max_help_position=20, width=min(terminal_width() - 2, WIDEST))

    def _fill_text(self, text: str, width: int, indent: str) -> str:
        return "".join(indent + line for line in paragraphs(text, width).splitlines(keepends=True))


class Parser(argparse.ArgumentParser):
    """A parser of whole options, which ends a run by a line on the error and a line on --help."""

    misused: int = Status.MISUSED

    def __init__(self, prog: str, description: str | None = None, epilog: str | None = None) -> None:
        super().__init__(prog, description=description, epilog=epilog, formatter_class=Formatter, allow_abbrev=False)

    def error(self, message: str) -> NoReturn:
        """End the run with an error of usage."""
        wrong = re.match(r"unrecognized arguments: (--[^ =]+)", message)
        hint = meant(wrong[1], self._option_string_actions) if wrong else ""
        self.exit(self.misused, f"{self.prog}: error: {printable(message)}{hint}\nTry '{self.prog} --help'.\n")


def meant(word: str, words: Iterable[str]) -> str:
    """Return a question for the most similar of some words, or an empty text."""
    from difflib import get_close_matches

    return "".join(f"; did you mean {near}?" for near in get_close_matches(word, words, n=1))


def terminal_width() -> int:
    """Return the columns of the terminal: COLUMNS, else those of standard output, else 80."""
    # (`shutil.get_terminal_size` does the same; its import takes a tenth of the time of --help)
    with contextlib.suppress(KeyError, ValueError):
        if (columns := int(os.environ["COLUMNS"])) > 0:
            return columns
    with contextlib.suppress(AttributeError, ValueError, OSError):
        return os.get_terminal_size(sys.__stdout__.fileno()).columns or WIDEST
    return WIDEST


def paragraphs(text: str, width: int) -> str:
    """Wrap a text to a width. An empty line separates paragraphs; an indented line is an item of a list, and a line
    with more indentation continues its item.
    """
    import textwrap

    blocks = []
    for block in textwrap.dedent(text).strip().split("\n\n"):
        items: list[str] = []
        for line in block.splitlines():
            if items and (not line.startswith(" ") or 0 < indent_of(items[-1]) < indent_of(line)):
                items[-1] += f" {line.lstrip()}"
            else:
                items.append(line)
        blocks.append("\n".join(wrapped(item, width) for item in items))
    return "\n\n".join(blocks)


def indent_of(line: str) -> int:
    """Return the number of spaces before a line."""
    return len(line) - len(line.lstrip(" "))


def wrapped(item: str, width: int) -> str:
    """Wrap a paragraph, or a list item with a mark of up to ten characters; indent later lines to the item's text."""
    from textwrap import fill

    front = re.match(r" +\S.{0,9}?  +| *", item)
    hang = " " * len(front[0] if front else "")
    return fill(item, width, subsequent_indent=hang, break_long_words=False, break_on_hyphens=False)


def parser_of(subcommand: Subcommand) -> Parser:
    """Return the parser of a subcommand, whose module is imported."""
    module, prog = subcommand.load(), f"ropepeach {subcommand.name}"
    statuses = "\n".join(f"  {int(status):<4} {meaning}" for status, meaning in subcommand.statuses.items())
    examples = "\n".join(f"  {prog} {example}" for example in subcommand.examples)
    parser = Parser(prog, module.__doc__, f"exit status:\n{statuses}\n\nexamples:\n{examples}")
    parser.misused = subcommand.misused
    module.add_arguments(parser)
    output.add_output_options(parser)
    return parser


def overview() -> Parser:
    """Return the parser of the command without a subcommand, whose help lists the subcommands."""
    parts = {f"to {group}": [(name, SUBCOMMANDS[name].help) for name in names.split()]
             for group, names in GROUPS.items()}
    parts["other commands"] = [("help", "describe a command"), ("version", "print the version")]
    listed = "\n\n".join(f"{title}:\n" + "\n".join(f"  {name:<10}  {purpose}" for name, purpose in entries)
                         for title, entries in parts.items())
    parser = Parser("ropepeach", PURPOSE, listed)
    parser.add_argument("command", metavar="COMMAND", nargs="?", help="a command; its arguments follow")
    parser.add_argument("--version", action="version", version=f"ropepeach {__version__}",
                        help="print the version and exit")
    return parser
