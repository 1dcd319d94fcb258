"""The exit statuses of `ropepeach`. cli/subcommands.py declares their meanings for the subcommands."""
from __future__ import annotations

import enum


class Status(enum.IntEnum):
    """How a run ended."""

    DONE = 0
    ENDED_EARLY = 1
    MISUSED = 2
    UNUSABLE = 3
    DAMAGED = 4
    NO_SOURCE = 5
    INTERRUPTED = 130
    TERMINATED = 143


class Health(enum.IntEnum):
    """The health of a source: the exit statuses of monitoring plugins."""

    OK = 0
    WARNING = 1
    CRITICAL = 2
    UNKNOWN = 3
