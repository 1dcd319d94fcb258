"""Takes a source of this machine out of service: its units and its site. Its file and its settings are kept.

`ropepeach new NAME` with the same base serves it again.
"""
from __future__ import annotations

import argparse
import os

from ropepeach.admin import machine
from ropepeach.admin.steps import Action, Program, add_dry_run, carry_out
from ropepeach.cli import output
from ropepeach.cli.statuses import Status


def add_arguments(parser: argparse.ArgumentParser) -> None:
    """Add the arguments of the command."""
    machine.add_source(parser)
    add_dry_run(parser)


def steps_of(place: machine.Place) -> list[Action]:
    """Return the steps: the site first, so that it never leads to a stopped source."""
    steps: list[Action] = []
    if os.path.lexists(place.enabled_site):
        steps += [Program("its site, disabled", ("rm", str(place.enabled_site))),
                  Program("nginx, without the site", ("systemctl", "reload-or-restart", "nginx"))]
    units = [*place.installed_timers(), place.unit()]
    return [*steps, Program("its units, stopped and disabled", ("systemctl", "disable", "--now", *units))]


def run(arguments: argparse.Namespace) -> int:
    """Take it out of service, and print the path of its file."""
    if not arguments.dry_run:
        machine.wants("systemctl")
    place = machine.Place(arguments.name)
    settings = place.served()
    carry_out(steps_of(place), arguments.dry_run)
    if not arguments.dry_run:
        site = f", {place.site}" if place.site.exists() else ""
        output.result(f"{place.unit()} is out of service; kept: {settings.file}, {place.settings}{site}")
    return Status.DONE
