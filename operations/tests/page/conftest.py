"""Start browsers for the tests of the page."""
from __future__ import annotations

from collections.abc import Callable, Iterator
from pathlib import Path
from typing import TYPE_CHECKING

import pytest

from tests.program import room_in_memory

if TYPE_CHECKING:
    from operations.tests.page.browser import Asking
    from operations.tests.page.looked import Looked


def begun(begin: Callable[[str], Asking]) -> Iterator[Asking]:
    """Run a browser with its own folder."""
    from selenium.common.exceptions import WebDriverException
    with room_in_memory("browser-") as folder:
        try:
            browser = begin(folder)
        except (WebDriverException, OSError) as fault:
            pytest.skip(f"a browser does not begin here: {type(fault).__name__} {str(fault)[:300]}")
        try:
            yield browser
        finally:
            browser.close()


@pytest.fixture(scope="session")
def chromium() -> Iterator[Asking]:
    """Run Chromium."""
    from operations.tests.page.browser import Browser
    yield from begun(Browser)


@pytest.fixture(scope="session")
def firefox() -> Iterator[Asking]:
    """Run Firefox."""
    from operations.tests.page.firefox import Firefox
    yield from begun(Firefox)


@pytest.fixture
def look(request: pytest.FixtureRequest, program: str, room: Path) -> Looked:
    """Return a browser without a history, Chromium by default, and a folder for sources and nginx."""
    from operations.tests.page.looked import Looked
    browser = request.getfixturevalue(getattr(request, "param", "chromium"))
    browser.forget()
    return Looked(program, room, browser, bool(request.config.getoption("--long")))
