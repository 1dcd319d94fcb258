"""Test that `ropepeach health` reports a source with little room: resources, blocks, free runs, the file system."""
from __future__ import annotations

import argparse
import os
import subprocess
import time
from pathlib import Path
from unittest import mock

import pytest

from operations.tests.tools.command_runs import run_command, status_of
from operations.tests.tools.lists_server import documents_of, serving
from ropepeach.cli.statuses import Health
from ropepeach.health import command, source
from tests.reading.crash_model import State

BASE, SIZE, SECONDS = "https://source.example.org", 1_048_576, 60
BLOCK, DAY = 512, 86_400
# The percentages of a warning, and of a critical state.
LIMITS = [(89, ()), (90, (Health.WARNING,)), (97, (Health.WARNING,)), (98, (Health.CRITICAL,)),
          (100, (Health.CRITICAL,))]
# No limit of an age or of the changes.
USUAL = argparse.Namespace(changes_warning=None, changes_critical=None)


def statuses_of(finding: source.SourceHealth) -> tuple[Health, ...]:
    """Return the severities of the problems of a source."""
    return tuple(trouble.status for trouble in command.troubles(finding, USUAL, []))


@pytest.mark.parametrize("share, statuses", LIMITS)
def test_nearly_50000_resources_are_reported(share: int, statuses: tuple[Health, ...]) -> None:
    """At 50,000 a source refuses new names."""
    finding = source.SourceHealth(source.Subject(BASE), is_up=True, published_count=500 * share)
    assert statuses_of(finding) == statuses
    assert all("TooManyResources" in trouble.words for trouble in command.troubles(finding, USUAL, []))


@pytest.mark.parametrize("share, statuses", LIMITS)
def test_a_nearly_full_file_system_is_reported(share: int, statuses: tuple[Health, ...], room: Path) -> None:
    """The share is that of `df`: bytes that only root may use do not count."""
    system = mock.Mock(f_blocks=1_100, f_bfree=1_100 - 10 * share, f_bavail=1_000 - 10 * share, f_frsize=4_096)
    (room / "a.disk").write_bytes(b"")
    finding = source.SourceHealth(source.Subject(BASE, str(room / "a.disk")), is_up=True)
    with mock.patch.object(os, "statvfs", lambda _: system):
        finding.look()
    finding.file_fault = ""
    assert statuses_of(finding) == statuses


def put(program: str, name: str, blocks: int, days: float = 0) -> None:
    """Put a body of this many blocks into a.disk, this many days ago."""
    moment = round(1_000 * (time.time() - DAY * days))
    script = f"at {moment}\nput {name} {'61' * (BLOCK * blocks)} a/b\n"
    subprocess.run([program, "run", "a.disk"], input=script.encode(), check=True, capture_output=True, timeout=SECONDS)


def formatted(program: str) -> None:
    """Make the file of a source without resources."""
    subprocess.run([program, "format", "a.disk", str(SIZE), BASE, "2"], check=True, capture_output=True,
                   timeout=SECONDS)


# The blocks of the bodies in a file of 2,048 blocks, the status, and words of the line.
BODIES = [((900,), 0, "blocks used of 2,048"), ((980,), 1, "Full comes closer (the longest body of 30 days has 980"),
          ((1_020,), 2, "Full is near (the longest body of 30 days has 1,020"),
          ((60,) * 31, 1, "Full comes closer (1,8"), ((100,) * 20, 2, "Full is near (2,0")]


@pytest.mark.parametrize("bodies, status, words", BODIES)
def test_a_nearly_full_file_is_reported(bodies: tuple[int, ...], status: int, words: str, program: str,
                                        room: Path) -> None:
    """The blocks count, and the longest free run, which the longest body of 30 days needs."""
    formatted(program)
    for number, blocks in enumerate(bodies):
        put(program, f"n{number}", blocks)
    with serving(documents_of(State(BASE, 2))) as server:
        output = status_of(run_command("health", server.url, "--file", "a.disk"), status, words)
    assert f"{len(bodies):,} resources held of 50,000" in output, output


def test_a_file_that_was_never_verified_counts_from_its_first_change(program: str, room: Path) -> None:
    """A fresh source needs no verification yet."""
    formatted(program)
    with serving(documents_of(State(BASE, 2))) as server:
        words = ["health", server.url, "--file", "a.disk", "--verification-age"]
        status_of(run_command(*words, "8"), 0, "last verification never")
        put(program, "a", 1, days=7)
        put(program, "b", 1)
        status_of(run_command(*words, "8"), 0, "last verification never")
        status_of(run_command(*words, "6"), 1, "no verification within 144 hours")


def test_a_damaged_file_is_reported(room: Path) -> None:
    """The line has the reason."""
    (room / "a.disk").write_bytes(bytes(2 * BLOCK))
    with serving(documents_of(State(BASE, 2))) as server:
        status_of(run_command("health", server.url, "--file", "a.disk"), 1, "neither slot of the file is open")
