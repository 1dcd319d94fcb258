"""Draw random histories, and run the process of their commands."""
from __future__ import annotations

from collections.abc import Iterator

import pytest

from operations.tests.model.runs import Runner
from tests.seeds import give_seeds

# The number of histories of a deep run.
DEEP = 1_000


def pytest_generate_tests(metafunc: pytest.Metafunc) -> None:
    """Draw as many histories as a module has in HISTORIES."""
    give_seeds(metafunc, "HISTORIES", metafunc.module.HISTORIES, DEEP)


@pytest.fixture(scope="session")
def runner() -> Iterator[Runner]:
    """Return a process that runs commands."""
    with Runner() as running:
        yield running
