"""Reports the state of every source of this machine, a line each, and the worst one by the exit status.

The sources are those of /etc/ropepeach/NAME.env. Each is examined as by `ropepeach health NAME`: its lists, its file
and the file system. A source that was not verified within 9 days is a warning.
"""
from __future__ import annotations

import argparse

from ropepeach.admin import machine
from ropepeach.cli import numbers, output
from ropepeach.faults import Unusable
from ropepeach.health.command import measured, side_by_side, verdict_on
from ropepeach.health.source import Subject

# A verification each week is due, and may take two days.
VERIFICATION_AGE = 9.0


def add_arguments(parser: argparse.ArgumentParser) -> None:
    """Add the arguments of the command."""
    parser.add_argument("--max-time", type=numbers.positive, default=10, metavar="SECONDS",
                        help="timeout of a response (10)")
    parser.set_defaults(patience=0, certificate=None, changes_warning=None, changes_critical=None, change_age=None,
                        publication_age=None, verification_age=VERIFICATION_AGE)


def run(arguments: argparse.Namespace) -> int:
    """Print a line for every source; return the worst status."""
    sources = machine.other_settings("")
    if not sources:
        raise Unusable(f"there is no source here: {machine.SETTINGS_FOLDER} has no NAME.env with FILE and PORT")
    subjects = [Subject(settings.address, str(settings.file)) for settings in sources.values()]
    verdicts = []
    for name, finding in zip(sources, side_by_side(subjects, arguments)):
        status, _, words, state = verdict_on(finding, arguments)
        output.result(f"{name}: {status.name}: {'; '.join([*words, *state])}", name=name, source=finding.subject.url,
                      health=status.name, troubles=words, figures=measured(finding, status))
        verdicts.append(status)
    return max(verdicts)
