"""Fixtures of the tests of the command `ropepeach`."""
from __future__ import annotations

import itertools
import os
import pathlib
from collections.abc import Iterator

import pytest

from operations.tests.harness.command import Ropepeach
from operations.tests.harness.folder import Mirror
from operations.tests.harness.server import Server, serving
from operations.tests.harness.source import FakeSource, OwnSource

# The numbers of the folders of state.
RUNS = itertools.count()


@pytest.fixture(autouse=True)
def own_state(monkeypatch: pytest.MonkeyPatch) -> None:
    """Let the command keep its state in a folder of this test: tests run side by side."""
    monkeypatch.setenv("XDG_STATE_HOME", f"{os.environ['ROPEPEACH_TESTS_STATE']}/{os.getpid()}-{next(RUNS)}")


@pytest.fixture
def ropepeach(tmp_path: pathlib.Path) -> Ropepeach:
    """Return the command, with an empty working folder."""
    return Ropepeach(tmp_path)


@pytest.fixture
def server() -> Iterator[Server]:
    """Run a fake server without responses."""
    with serving() as running:
        yield running


@pytest.fixture
def source(server: Server) -> FakeSource:
    """Return a source with digests, lengths, moments, a Resource List and a Change List."""
    return FakeSource(server)


@pytest.fixture
def own(server: Server) -> OwnSource:
    """Return a source in the form of this project."""
    return OwnSource(server)


@pytest.fixture
def mirror(tmp_path: pathlib.Path) -> Mirror:
    """Return the folder of the mirror."""
    return Mirror(tmp_path)
