"""The command `ropepeach`: run a subcommand, and report its end by one line and an exit status."""
from __future__ import annotations

import argparse
import gc
import io
import itertools
import os
import signal
import sys
from collections.abc import Sequence
from typing import NoReturn

from ropepeach.cli import output
from ropepeach.cli.output import OUTPUT_OPTIONS
from ropepeach.cli.parser import meant, overview, parser_of
from ropepeach.cli.statuses import Status
from ropepeach.cli.stops import STOPS
from ropepeach.cli.subcommands import SUBCOMMANDS, Subcommand
from ropepeach.faults import Fault, Misused, lines_of


def refuse(name: str, front: str = "") -> NoReturn:
    """End the run: there is no command of this name."""
    hint = meant(name, SUBCOMMANDS) or f"; choose from {', '.join(SUBCOMMANDS)}"
    overview().error(f"{front}there is no command {name!r}{hint}")


def print_help(words: Sequence[str]) -> NoReturn:
    """Print the help of the command, or of the named subcommand, and exit."""
    if words and (words[0] not in SUBCOMMANDS or len(words) > 1):
        refuse(" ".join(words), "help: ")
    parser = parser_of(SUBCOMMANDS[words[0]]) if words else overview()
    parser.print_help()
    parser.exit()


def print_completions(words: Sequence[str]) -> NoReturn:
    """Print the candidates for the last word of a command line, and exit."""
    from ropepeach.cli import completion

    for word in completion.candidates(words):
        print(word)
    sys.exit(Status.DONE)


def parsed(words: Sequence[str]) -> tuple[Subcommand, argparse.Namespace]:
    """Parse the command line; exit if it names no subcommand. Without words print the overview as an error."""
    if not words:
        overview().print_help(sys.stderr)
        sys.exit(Status.MISUSED)
    front = list(itertools.takewhile(OUTPUT_OPTIONS.__contains__, words))
    words = words[len(front):]
    name = words[0] if words else ""
    if name == "help":
        print_help(words[1:])
    if name == "version":
        words, name = ["--version"], "--version"
    if name == "complete":
        print_completions(words[2:])
    if name in SUBCOMMANDS:
        return SUBCOMMANDS[name], parser_of(SUBCOMMANDS[name]).parse_args([*front, *words[1:]])
    if name.startswith("-"):
        overview().parse_args(words)
    if not name:
        overview().error("name a command")
    refuse(name)


def outcome(subcommand: Subcommand, arguments: argparse.Namespace) -> int:
    """Run a subcommand; return the exit status. A fault that ends it is written as a line."""
    name = f"ropepeach {subcommand.name}"
    try:
        STOPS.listen([signal.SIGINT, *([signal.SIGTERM] if Status.TERMINATED in subcommand.statuses else [])])
        return subcommand.load().run(arguments)
    except KeyboardInterrupt as stop:
        status = int(getattr(stop, "status", Status.INTERRUPTED))
        output.error(name, [subcommand.statuses[status].replace(" by Ctrl-C", "").replace(" by SIGTERM", "")])
        return status
    except Fault as fault:
        output.error(name, lines_of(fault))
        return subcommand.misused if isinstance(fault, Misused) else fault.status
    except BrokenPipeError:
        raise
    except OSError as fault:
        output.error(name, lines_of(fault))
        return Status.UNUSABLE


def dispatch(words: Sequence[str]) -> int:
    """Run the subcommand of a command line; return the exit status."""
    try:
        subcommand, arguments = parsed(words)
    except SystemExit:
        sys.stdout.flush()
        raise
    if not gc.isenabled():
        gc.freeze()
        gc.enable()
    try:
        output.begin_run(arguments)
        status = outcome(subcommand, arguments)
        output.end_run(subcommand.name, status)
        return status
    except BrokenPipeError:
        raise
    except OSError as fault:
        output.current.journal = None
        output.error(f"ropepeach {subcommand.name}", lines_of(fault))
        return Status.UNUSABLE


def main(words: Sequence[str] | None = None) -> int:
    """Run the command with these arguments, or with those of the process; return the exit status."""
    # (characters that the terminal's encoding lacks, and bytes that are no text, are written by their numbers)
    for stream in (sys.stdout, sys.stderr):
        if isinstance(stream, io.TextIOWrapper):
            stream.reconfigure(errors="backslashreplace")
    try:
        return dispatch(sys.argv[1:] if words is None else words)
    except BrokenPipeError:
        # The reader of standard output has left; Python must not try to flush it once more.
        os.dup2(os.open(os.devnull, os.O_WRONLY), sys.stdout.fileno())
        return Status.ENDED_EARLY
