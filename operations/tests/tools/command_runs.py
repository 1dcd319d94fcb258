"""Run the command with a timeout, and compare its manual pages with its declarations."""
from __future__ import annotations

import argparse
import json
import re
import subprocess
import sys
import traceback
import xml.etree.ElementTree as ElementTree

import pytest
from collections.abc import Callable, Collection, Mapping, Sequence
from contextlib import AbstractContextManager
from pathlib import Path
from typing import Any
from unittest import mock

from operations.tests.tools import COMMAND as COMMAND
from ropepeach.cli.parser import parser_of
from ropepeach.cli.subcommands import SUBCOMMANDS
from tests.program import ROOT

Ran = subprocess.CompletedProcess[str]
# The timeout of a command in seconds.
SECONDS = 60
# Options of every command.
GENERAL = {"--help", "--verbose", "--quiet", "--json"}


def run_command(*words: str, seconds: float = SECONDS, behind: Sequence[str] = ()) -> Ran:
    """Run the command, possibly through another program, and return the ended process."""
    return subprocess.run([*behind, *COMMAND, *words], capture_output=True, text=True, timeout=seconds,
                          stdin=subprocess.DEVNULL)


def status_of(process: Ran, status: int, *phrases: str) -> str:
    """Assert the status of a run, and phrases in its output; return the output."""
    output = process.stdout + process.stderr
    assert process.returncode == status, f"status {process.returncode}, and not {status}: {output[:300]!r}"
    for phrase in phrases:
        assert phrase in output, f"no {phrase!r} in {output[:400]!r}"
    return output


def lines_of(process: Ran) -> list[str]:
    """Return the lines of the output of a run."""
    return process.stdout.splitlines()


def json_of(*words: str) -> Any:
    """Return the only result in the object that a run prints."""
    process = run_command(*words)
    assert process.returncode == 0, f"status {process.returncode}: {process.stderr[:300]!r}"
    results = json.loads(process.stdout)["results"]
    assert len(results) == 1, f"{len(results)} results, and not one"
    return results[0]


def plain_of(lines: str) -> str:
    """Return the text of some lines of mdoc(7), without macros, on one line."""
    lines = re.sub(r"(?m)^\.Fl ", ".Fl -", lines)
    lines = re.sub(r"(?m)^\.(?:Fl|Ar|Pa|Ql|Ic|Cm) ", "", lines)
    return " ".join(lines.split())


def statuses_in(page: str) -> dict[str, str]:
    """Return the exit statuses of a page, and their meanings."""
    section = page.partition(".Sh EXIT STATUS\n")[2].partition(".Sh ")[0].partition(".El\n")[0]
    items = re.findall(r"(?ms)^\.It (\d+)\n(.*?)(?=^\.It|\Z)", section)
    return {status: plain_of(text) for status, text in items}


def sentence(text: str) -> str:
    """Return a text as a sentence."""
    return f"{text[0].upper()}{text[1:]}."


def compare_options(page: str, actions: Sequence[argparse.Action]) -> int:
    """Compare the options and arguments of a page with those of the command; return the number of options.

    ropepeach(1) has the common options.
    """
    shown = [action for action in actions if action.help != argparse.SUPPRESS]
    options = [action.option_strings for action in shown
               if action.option_strings and not GENERAL.intersection(action.option_strings)]
    synopsis = page.partition(".Sh SYNOPSIS\n")[2].partition(".Sh DESCRIPTION")[0]
    for place, lines in (("described", re.findall(r"(?m)^\.It (Fl .*)", page)),
                         ("in the synopsis", re.findall(r"(?m)^\.Op (Fl .*)", synopsis))):
        written = {f"--{option}" for line in lines for option in re.findall(r"(?:Fl |\| )-([a-z-]+)", line)}
        assert written <= {option for words in options for option in words}, place
        missing = [words for words in options if not written.intersection(words)]
        assert not missing, f"options that are not {place}: {missing}"
    # (`mirror` writes the brackets of an optional argument itself)
    arguments = [str(action.metavar).lower().strip("[]") for action in shown if not action.option_strings]
    first = re.split(r"(?m)^\.Nm .*\n", synopsis)[1]
    named = " ".join(re.findall(r"(?m)^\.(?:Op )?Ar (.*)", first)).split()
    assert named == arguments, f"arguments {named} in the synopsis, and not {arguments}"
    return len(options)


def page_of(name: str) -> str:
    """Compare the manual page of a subcommand with its declaration, and with its printed help."""
    page, helptext = (ROOT / f"operations/install/ropepeach-{name}.1").read_text(), run_command(name, "--help").stdout
    declared = SUBCOMMANDS[name]
    count = compare_options(page, parser_of(declared)._actions)
    meanings = {str(int(status)): sentence(text) for status, text in declared.statuses.items()}
    assert statuses_in(page) == meanings, f"statuses {statuses_in(page)}, and not {meanings}"
    printed = helptext.partition("exit status:")[2].partition("examples:")[0]
    assert re.findall(r"(?m)^  (\d+)  ", printed) == list(meanings), f"statuses of --help: {printed}"
    assert f"\n.Nd {declared.help.replace('`', '')}\n" in page, f"the page is not to {declared.help!r}"
    whole, overview = (ROOT / "operations/install/ropepeach.1").read_text(), run_command("--help").stdout
    assert f".Cm {name}" in whole and f".Xr ropepeach-{name} 1" in whole, "ropepeach(1) does not name it"
    assert " ".join(declared.help.split()[:3]) in overview, f"the overview does not {declared.help!r}"
    return f"{count} options, {len(meanings)} statuses: {declared.help}"
