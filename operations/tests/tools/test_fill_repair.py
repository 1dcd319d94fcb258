"""Test how `ropepeach fill` repairs damaged bodies of a source, and skips files that cannot be resources."""
from __future__ import annotations

import os
import pathlib
from unittest import mock

import pytest

from operations.tests.tools.fill_runs import COUNT, damage, filled, put, remembered, status_and_puts, verified
from operations.tests.tools.running import written
from ropepeach.fill import files


@pytest.mark.parametrize("words", [
    ["--repair"], ["--again", "d/02.txt", "--again", "d/11.txt"]], ids=str)
def test_a_damaged_body_is_put_again(words: list[str], program: str, room: pathlib.Path) -> None:
    """`fill` without an option detects no damage; --repair verifies all bodies, and --again puts the named files."""
    with remembered(program, room) as (server, _):
        damage(server, "d/02.txt", "d/11.txt")
        assert verified(server) == ["damaged d/02.txt", "damaged d/11.txt", f"verified {COUNT - 2}"]
        assert status_and_puts(server.url) == (0, "0 put")
        _, printed, messages, _ = filled(server.url, *words, "--dry-run")
        assert printed.splitlines()[:2] == ["put d/02.txt", "put d/11.txt"], messages
        status, printed, messages, _ = filled(server.url, *words)
        assert (status, put(printed)) == (0, "2 put"), messages
        assert verified(server) == [f"verified {COUNT}"]
        server.holds("folder")


def test_again_without_a_file_is_refused(program: str, room: pathlib.Path) -> None:
    """fill exits 1, and changes no resource."""
    with remembered(program, room) as (server, _):
        before = server.disk.read_bytes()
        status, _, messages, _ = filled(server.url, "--again", "d/none", "--again", "d/02.txt")
        assert status == 1, messages
        assert "--again d/none: FOLDER has no such file, or --exclude leaves it out; nothing was changed" in messages
        assert server.disk.read_bytes() == before


def test_a_damaged_body_without_a_file_is_deleted(program: str, room: pathlib.Path) -> None:
    """The body is deleted as any resource without a file."""
    with remembered(program, room) as (server, _):
        damage(server, "d/02.txt")
        os.remove("folder/d/02.txt")
        status, printed, _, _ = filled(server.url, "--repair")
        assert (status, put(printed), "1 deleted" in printed) == (0, "0 put", True)
        assert verified(server) == [f"verified {COUNT - 1}"]


def test_skip_unlawful_counts_links_pipes_and_long_names(program: str, room: pathlib.Path) -> None:
    """The exit status is 0; it is 3 for an unreadable file."""
    with remembered(program, room) as (server, _):
        os.symlink("d", "folder/link")
        os.mkfifo("folder/pipe")
        written("folder", {"l" * 241: b"x"})
        status, printed, messages, _ = filled(server.url)
        assert (status, messages.count("left out ")) == (3, 3)
        status, printed, messages, _ = filled(server.url, "--skip-unlawful")
        assert (status, messages, "3 left out" in printed) == (0, "", True)
        growing = mock.patch.object(files.Files, "read_unchanged", side_effect=files.Unfit("it changes"))
        written("folder", {"more": b"x"})
        with growing:
            status, _, messages, _ = filled(server.url, "--skip-unlawful")
        assert (status, messages) == (3, "left out more: it changes\n")
