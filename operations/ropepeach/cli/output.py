"""The output of a run: results on standard output, messages on standard error; with --json one object on standard
output.

The object has the fields `command`, `version`, `status`, `results` and `messages` (ropepeach(1)).
"""
from __future__ import annotations

import argparse
import enum
import sys
from collections.abc import Iterable, Mapping
from typing import IO

from ropepeach import __version__
from ropepeach.faults import printable


class MessageLevel(enum.Enum):
    """The level of a message: --quiet leaves only errors, --verbose adds details."""

    ERROR = "error"
    MESSAGE = "message"
    DETAIL = "detail"


class Output:
    """The state of the output of a run. `source` is the source that this process works for, if there are several.

    (A dataclass would take longer to import than all else of a small command.)
    """

    def __init__(self) -> None:
        self.levels = frozenset({MessageLevel.ERROR, MessageLevel.MESSAGE})
        # With --json: an open file without a name, with a JSON line for every result and message of all processes.
        self.journal: IO[str] | None = None
        self.source = ""

    @property
    def is_quiet(self) -> bool:
        """Return whether only results and errors are wanted."""
        return MessageLevel.MESSAGE not in self.levels

    def note(self, kind: str, value: object) -> None:
        """Record a result or a message for the JSON output."""
        if self.journal:
            import json

            self.journal.write(json.dumps([kind, value]) + "\n")
            self.journal.flush()


current = Output()


# The options of all commands, which may also come before the name of a command.
OUTPUT_OPTIONS = frozenset(("-v", "--verbose", "-q", "--quiet", "--json"))


def add_output_options(parser: argparse.ArgumentParser) -> None:
    """Add the options that all commands have."""
    amount = parser.add_mutually_exclusive_group()
    amount.add_argument("-v", "--verbose", action="store_true", help="also report each resource and each request")
    amount.add_argument("-q", "--quiet", action="store_true",
                        help="print errors and requested results only: no summary, no messages, no progress bar")
    parser.add_argument("--json", action="store_true", help="print one object of JSON, as described in ropepeach(1)")


def begin_run(arguments: argparse.Namespace) -> None:
    """Begin the output of a run with these arguments."""
    wanted = {MessageLevel.ERROR: True, MessageLevel.MESSAGE: not arguments.quiet,
              MessageLevel.DETAIL: arguments.verbose}
    current.levels = frozenset(level for level, is_wanted in wanted.items() if is_wanted)
    current.source, current.journal = "", None
    if arguments.json:
        import tempfile

        # (the processes of a run append whole lines to it)
        current.journal = tempfile.TemporaryFile("a+", encoding="ascii")


def end_run(command: str, status: int) -> None:
    """End the output of a run: with --json print the object."""
    journal, current.journal = current.journal, None
    if journal:
        import json

        with journal:
            journal.seek(0)
            entries = [json.loads(line) for line in journal]
        found = {"command": command, "version": __version__, "status": int(status),
                 "results": [value for kind, value in entries if kind == "result"],
                 "messages": [value for kind, value in entries if kind == "message"]}
        print(json.dumps(found, indent=2))
    sys.stdout.flush()


def result(text: str, **facts: object) -> None:
    """Write a result: a line on standard output; in JSON an object of the facts, with the line as `text`."""
    results([text], {"text": printable(text), **facts})


def results(lines: Iterable[str], facts: Mapping[str, object]) -> None:
    """Write a result of several lines, or its facts as a JSON object."""
    if current.journal:
        current.note("result", facts)
        return
    for line in lines:
        print(printable(line))
    sys.stdout.flush()


def summary(text: str, **facts: object) -> None:
    """Write the summary of a run, a result that --quiet leaves out."""
    if current.journal or not current.is_quiet:
        result(text, **facts)


def message(text: str) -> None:
    """Write a message for the user."""
    write_line(MessageLevel.MESSAGE, text)


def detail(text: str) -> None:
    """Write a message that only --verbose shows."""
    write_line(MessageLevel.DETAIL, text)


def error(name: str, lines: Iterable[str]) -> None:
    """Write the error that ended a run: lines, the first with the name of the command."""
    for number, line in enumerate(lines):
        write_line(MessageLevel.ERROR, line, front=f"{name}: " if number == 0 else "")


def write_line(level: MessageLevel, text: str, front: str = "") -> None:
    """Write a message to standard error, above the progress bar if there is one."""
    if level not in current.levels:
        return
    source = {"source": current.source} if current.source else {}
    current.note("message", {"level": level.value, "text": printable(text), **source})
    if sys.stderr.isatty():
        # (it takes longer to import than all else here)
        from tqdm import tqdm

        tqdm.write(printable(front + text), file=sys.stderr)
    else:
        print(printable(front + text), file=sys.stderr)
    sys.stderr.flush()
