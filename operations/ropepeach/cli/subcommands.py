"""The table of the subcommands of `ropepeach`.

The overview, --help, completion and the tests of the manual pages read this table. Importing it imports no subcommand.
"""
from __future__ import annotations

import argparse
import importlib
from collections.abc import Mapping
from typing import NamedTuple, Protocol, cast

from ropepeach.cli.statuses import Health, Status


class Module(Protocol):
    """The module of a subcommand. Its docstring is the description of its --help."""

    __doc__: str | None

    def add_arguments(self, parser: argparse.ArgumentParser) -> None:
        """Add the arguments of the subcommand to its parser."""

    def run(self, arguments: argparse.Namespace) -> int:
        """Run the subcommand; return the exit status."""


class Subcommand(NamedTuple):
    """A subcommand: its name, its one-line help, its module below `ropepeach`, the arguments of examples, and its exit
    statuses with their meanings.

    The manual page ropepeach-NAME(1) has the help as its one-line description, and the meanings as its EXIT STATUS.
    """

    name: str
    help: str
    module: str
    examples: tuple[str, ...]
    statuses: Mapping[int, str]
    misused: int = Status.MISUSED

    def load(self) -> Module:
        """Import the module."""
        return cast(Module, importlib.import_module(f"ropepeach.{self.module}"))


ENDED_EARLY = "the run ended early; completed work is kept"
UNHELPFUL_SOURCE = "the source does not answer, its answer contradicts its lists, or a limit is reached"
STEP_FAILED = "a step failed; remove its cause and run it again"
WRONG_ARGUMENTS = "wrong arguments"
NOT_ROOT, INVALID_FILE = f"{WRONG_ARGUMENTS}, or not root", f"{WRONG_ARGUMENTS}, or the file is invalid"
STOPPED = "stopped by Ctrl-C"
GOES_ON, RUN_AGAIN = f"{STOPPED}; the next run goes on", f"{STOPPED}; run it again"


def declared(name: str, purpose: str, module: str, examples: tuple[str, ...], statuses: Mapping[int, str],
             misused: int = Status.MISUSED) -> Subcommand:
    """Declare a subcommand. Wrong arguments and Ctrl-C have a usual meaning, unless `statuses` has another."""
    usual = {misused: WRONG_ARGUMENTS, Status.INTERRUPTED: STOPPED}
    return Subcommand(name, purpose, module, examples, dict(sorted({**usual, **statuses}.items())), misused)


TABLE = (
    declared("fill", "upload a folder to a source, and publish it", "fill.command",
             ("--dry-run /srv/papers http://127.0.0.1:8080", "--max-delete 100 /srv/papers http://127.0.0.1:8080"), {
        Status.DONE: "the source holds the files of the folder",
        Status.ENDED_EARLY: ENDED_EARLY,
        Status.UNUSABLE: "a file or folder cannot be read; or all was done, but some files were left out",
        Status.INTERRUPTED: GOES_ON,
    }),
    declared("publish", "publish what a source holds, if something changed", "fill.publish",
             ("papers", "--dry-run http://127.0.0.1:8080"), {
        Status.DONE: "the Resource List has what the source holds",
        Status.ENDED_EARLY: UNHELPFUL_SOURCE,
        Status.UNUSABLE: "a file cannot be read",
    }),
    declared("mirror", "mirror a source into a folder", "mirror.command",
             ("https://source.example.org /srv/mirror", "--dry-run https://source.example.org /srv/mirror"), {
        Status.DONE: "the folder equals the source at the printed moment",
        Status.ENDED_EARLY: "the source does not answer, its answer contradicts its lists, listed resources are gone, "
                            "or a limit is reached; the next run goes on",
        Status.UNUSABLE: "the folder cannot be used: another run has it, it mirrors another source, its disk is full",
        Status.INTERRUPTED: GOES_ON,
        Status.TERMINATED: "stopped by SIGTERM; the next run goes on",
    }),
    declared("check", "report missing, corrupt and unknown files in a mirror", "mirror.check",
             ("/srv/mirror", "--repair /srv/mirror"), {
        Status.DONE: "every file is correct, or was repaired",
        Status.ENDED_EARLY: UNHELPFUL_SOURCE,
        Status.UNUSABLE: "the folder cannot be used: it is no mirror, another run has it, its files are unrecorded",
        Status.DAMAGED: "files are missing, corrupt or unknown",
        Status.INTERRUPTED: RUN_AGAIN,
    }),
    declared("look", "show how full a source's file is, also while it is served", "disk.look",
             ("/var/lib/ropepeach/source.disk", "--put 4096 --json /var/lib/ropepeach/source.disk"), {
        Status.DONE: "the file holds a source",
        Status.ENDED_EARLY: "the file changes faster than it can be read",
        Status.UNUSABLE: "a file cannot be read or written",
        Status.DAMAGED: "the file is damaged; the output names the rule that it breaks",
        Status.NO_SOURCE: "the file holds no source",
    }),
    declared("size", "estimate the disk size for a folder", "disk.size",
             ("/srv/papers", "--base https://papers.example.org --links /srv/papers"), {
        Status.DONE: "the size is printed",
        Status.ENDED_EARLY: "the folder is too large for one source",
        Status.UNUSABLE: "a file or folder cannot be read; or the size is printed, but some files were left out",
    }),
    declared("why", "diagnose `Device` errors of a file and a port", "admin.why",
             ("/var/lib/ropepeach/source.disk", "/var/lib/ropepeach/source.disk 8080"), {
        Status.DONE: "no cause is found",
        Status.ENDED_EARLY: "a cause is found; the output names it",
        Status.UNUSABLE: "the file cannot be examined",
    }),
    declared("health", "report the health of a source, for monitoring", "health.command",
             ("http://127.0.0.1:8080", "--publication-age 8 http://127.0.0.1:8080"), {
        Health.OK: "good",
        Health.WARNING: "warning",
        Health.CRITICAL: "critical",
        Health.UNKNOWN: "unknown: wrong arguments, or the file of --prometheus cannot be written",
    }, Health.UNKNOWN),
    declared("status", "report the state of every source of this machine", "health.status",
             ("--json", "--max-time 60"), {
        Health.OK: "every source is good",
        Health.WARNING: "the worst state is a warning",
        Health.CRITICAL: "the worst state is critical",
        Health.UNKNOWN: "unknown: wrong arguments, or this machine has no source",
    }, Health.UNKNOWN),
    declared("new", "create a source on this machine: file, units and site", "admin.new",
             ("papers --base https://a.example.org --for /srv/papers", "try --base http://localhost:8000 --http"), {
        Status.DONE: "the source is served",
        Status.ENDED_EARLY: STEP_FAILED,
        Status.MISUSED: NOT_ROOT,
        Status.UNUSABLE: "a requirement is missing; the output names it",
        Status.INTERRUPTED: RUN_AGAIN,
    }),
    declared("remove", "take a source out of service, and keep its file", "admin.remove",
             ("--dry-run papers", "papers"), {
        Status.DONE: "the source is out of service",
        Status.ENDED_EARLY: STEP_FAILED,
        Status.MISUSED: NOT_ROOT,
        Status.UNUSABLE: "this machine has no such source",
        Status.INTERRUPTED: RUN_AGAIN,
    }),
    declared("backup", "copy a source's file while it is served, and verify the copy", "admin.backup",
             ("--dry-run papers /backup/papers.disk", "papers /backup/papers.disk"), {
        Status.DONE: "the copy is complete",
        Status.ENDED_EARLY: "the copy was not made, or is damaged; no file has its name",
        Status.MISUSED: NOT_ROOT,
        Status.UNUSABLE: "this machine has no such source, or a file cannot be used",
        Status.INTERRUPTED: f"{STOPPED}; no file has the name of the copy",
    }),
    declared("restore", "replace a source's file by a backup", "admin.restore",
             ("--dry-run papers /backup/papers.disk", "papers /backup/papers.disk"), {
        Status.DONE: "the backup is served",
        Status.ENDED_EARLY: STEP_FAILED,
        Status.MISUSED: NOT_ROOT,
        Status.UNUSABLE: "this machine has no such source, or the backup cannot be used",
        Status.INTERRUPTED: RUN_AGAIN,
    }),
    declared("site", "write the nginx site for a source", "admin.site",
             ("https://papers.example.org", "https://papers.example.org --name papers --port 8081"), {
        Status.DONE: "the site is written",
        Status.UNUSABLE: "standard output cannot be written",
    }),
    declared("collection", "set up and query a collection of sources", "collection.show",
             ("collection.toml --into /etc/ropepeach", "collection.toml"), {
        Status.DONE: "the files are written, or every source is healthy",
        Status.ENDED_EARLY: "a source does not answer, or holds a name of another source",
        Status.MISUSED: INVALID_FILE,
        Status.UNUSABLE: "a file cannot be read or written",
    }),
    declared("grow", "move resources to a new source of a collection", "collection.grow",
             ("--dry-run collection.toml", "collection.toml"), {
        Status.DONE: "every resource is in its own source, and in no other",
        Status.ENDED_EARLY: ENDED_EARLY,
        Status.MISUSED: INVALID_FILE,
        Status.UNUSABLE: "a file cannot be read",
        Status.INTERRUPTED: GOES_ON,
    }),
    declared("takeover", "take a source over from another machine, on a replicated store", "admin.takeover",
             ("/srv/source/source.disk 10.0.0.1", "--planned /srv/source/source.disk 10.0.0.1"), {
        Status.DONE: "every step is done, and the file opens: start the program",
        Status.ENDED_EARLY: "a step is not done; the output names it",
        Status.UNUSABLE: "the store, the mount or the file cannot be queried",
        Status.INTERRUPTED: f"{STOPPED}; nothing was started",
    }),
)
# The parts of the overview, and the names of their commands.
GROUPS = {"serve": "new remove site size collection grow takeover", "fill": "fill publish", "mirror": "mirror check",
          "look after": "status health look why backup restore"}
SUBCOMMANDS: Mapping[str, Subcommand] = {subcommand.name: subcommand for subcommand in TABLE}
