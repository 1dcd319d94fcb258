"""Replaces a source's file by a backup. The old file is kept next to it, under a name with the time.

The backup is copied, its room is reserved, it is opened, and its bodies are compared with their digests before the
source is stopped. Changes after the backup are lost, and no Change List names them: mirrors that have seen them need
a baseline (`ropepeach mirror --baseline`).
"""
from __future__ import annotations

import argparse
import datetime
import os
from pathlib import Path

from ropepeach.admin import USER, machine
from ropepeach.admin.backup import tested
from ropepeach.admin.steps import Action, Program, add_dry_run, as_user, cache_steps, carry_out
from ropepeach.cli import output
from ropepeach.cli.statuses import Status
from ropepeach.faults import Fault, Unusable


def add_arguments(parser: argparse.ArgumentParser) -> None:
    """Add the arguments of the command."""
    machine.add_source(parser)
    parser.add_argument("backup", metavar="FILE", help="the backup, as made by `ropepeach backup`")
    add_dry_run(parser)


def copy_steps(backup: Path, fresh: str) -> list[Action]:
    """Return the steps that copy the backup to a new file. Only the user of the units writes in its folder."""
    length = str(os.stat(backup).st_size)
    return [
        Program("no file of a run that was stopped", as_user(USER, "rm", "-f", fresh)),
        Program("the backup, beside the file",
                ("sh", "-c", f'exec runuser -u {USER} -- dd status=none bs=1M conv=fsync of="$2" < "$1"',
                 "sh", str(backup), fresh)),
        Program("its room, reserved", as_user(USER, "fallocate", "--length", length, fresh)),
        Program("all of it on the disk", as_user(USER, "sync", fresh)),
    ]


def place_steps(place: machine.Place, fresh: str, file: Path, old_file: str) -> list[Action]:
    """Return the steps from the stop of the source to its start. FILE exists at every moment."""
    steps: list[Action] = [Program("the source, stopped", ("systemctl", "stop", place.unit()))]
    if os.path.lexists(file):
        steps.append(Program("the old file, kept", as_user(USER, "ln", "-T", str(file), old_file)))
    steps += [Program("the backup in its place", as_user(USER, "mv", "-T", fresh, str(file))),
              Program("the names on the disk", as_user(USER, "sync", str(file.parent)))]
    return [*steps, *cache_steps(place.cache), Program("the source, started", ("systemctl", "start", place.unit()))]


def check_base(place: machine.Place, backup: Path, file: Path) -> None:
    """Raise `Unusable` unless the backup is one of this source, whose own file may be damaged."""
    base = machine.base_of(backup)
    if base is None:
        raise Unusable(f"{backup}: there is no such file")
    try:
        old_base = machine.base_of(file)
    except Fault:
        old_base = None
    if old_base not in (None, base):
        raise Unusable(f"{backup}: it is a source at {base}, and {place.name} is one at {old_base}")


def run(arguments: argparse.Namespace) -> int:
    """Restore the backup, and print the name of the old file."""
    if not arguments.dry_run:
        machine.wants("systemctl", "rs_source", "runuser", "fallocate")
    place, backup = machine.Place(arguments.name), Path(arguments.backup)
    file = place.served().file
    check_base(place, backup, file)
    now = datetime.datetime.now(datetime.timezone.utc)
    fresh, old_file = f"{file}.restored", f"{file}.before-{now:%Y%m%dT%H%M%SZ}"
    first, then = copy_steps(backup, fresh), place_steps(place, fresh, file, old_file)
    if arguments.dry_run:
        carry_out([*first, *then], is_dry=True)
        return Status.DONE
    machine.check_room(file.parent, os.stat(backup).st_size, "make room")
    carry_out(first)
    summary = tested(Path(fresh), as_user(USER))
    carry_out(then)
    output.result(f"{file}: {summary}; the old file is {old_file}")
    output.result("fill it again (ropepeach fill), and let mirrors read a baseline (ropepeach mirror --baseline)")
    return Status.DONE
