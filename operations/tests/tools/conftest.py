"""Fixtures of the tests of the command: sources with documents that a test writes."""
from __future__ import annotations

import pathlib
from collections.abc import Iterator

import pytest

from operations.tests.tools import nginx_site
from operations.tests.tools.hostile_source import Liar
from operations.tests.tools.static_source import Static


@pytest.fixture
def liar() -> Iterator[Liar]:
    """Serve a Ropepeach whose responses a test changes."""
    with Liar() as running:
        yield running


@pytest.fixture
def site() -> Iterator[Static]:
    """Serve the files and lists of other software."""
    with Static() as running:
        yield running


@pytest.fixture
def nginx(room: pathlib.Path) -> Iterator[nginx_site.Site]:
    """Serve a folder by nginx."""
    with nginx_site.site(room / "n") as running:
        yield running
