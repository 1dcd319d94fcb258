"""Test the set-up: the missing packages, their users, and the output if nothing may be installed."""

import contextlib
import io
import os
from pathlib import Path
from unittest import mock

from gate.tested import line_of
from tests.house import setup

TABLE = """# a remark

shell | sh | gate | to begin with
none | no-such-command | test | the tour
later | no-such-either | bench | speed
file | /no/such/file | test | pages
"""


def test_what_is_missing() -> None:
    assert [package.name for package in setup.packages(TABLE)] == ["shell", "none", "later", "file"]
    assert [package.name for package in setup.missing(TABLE)] == ["none", "file"]


def run_setup(user: int, **environment: str) -> tuple[str, list[str]]:
    """Return the output for a user, and the installed packages."""
    installed: list[str] = []
    with (contextlib.redirect_stdout(io.StringIO()) as out, mock.patch.dict(os.environ, environment),
          mock.patch.object(os, "getuid", lambda: user), mock.patch.object(setup, "install", installed.extend)):
        assert setup.setup(TABLE)
    return out.getvalue(), installed


def test_each_part_that_is_left_out_is_named() -> None:
    for user, is_set_up, wanted in ((0, "", ["none", "file"]), (0, "no", []), (1000, "", [])):
        output, installed = run_setup(user, SETUP=is_set_up)
        assert installed == wanted
        assert output.startswith("== this machine lacks of Debian: none, file (packages.txt)\n")
        left_out = [("none", "no-such-command", "the tour"), ("file", "/no/such/file", "pages")]
        lines = [line_of(name, f"there is no {what} here: {part}") for name, what, part in left_out]
        assert output.endswith("".join(f"{line}\n" for line in lines))


def test_nothing_is_said_where_nothing_is_missing() -> None:
    with contextlib.redirect_stdout(io.StringIO()) as out:
        assert setup.setup("shell | sh | gate | to begin with\n")
    assert out.getvalue() == ""


def test_nothing_begins_without_what_the_gate_needs() -> None:
    with contextlib.redirect_stdout(io.StringIO()), mock.patch.dict(os.environ, {"SETUP": "no"}):
        assert not setup.setup("none | no-such-command | gate | to begin with\n")


def test_the_table_says_what_for() -> None:
    every = setup.packages(Path(setup.ROOT, "packages.txt").read_text())
    assert len({package.name for package in every}) == len(every)
    users = ("gate", "test", "bench", "replicas", "arm64", "pictures")
    assert all(package.name and package.mark and package.use and package.user in users for package in every)
