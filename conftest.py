"""Fixtures, markers and options of all tests."""

import os
import shutil
import signal
from collections.abc import Generator, Iterator
from contextlib import chdir
from pathlib import Path
from typing import Any

import pytest

from tests.program import ROOT, room_in_memory

# The programs that tests run: the proved one, and the one that cargo builds of the same sources.
PROGRAMS = {"proved": "crates/rs_source/out/rs_source",
            "plain": "out/rust/ropepeach-plain-*/target/release/rs_source"}


def pytest_addoption(parser: pytest.Parser) -> None:
    """Add --long, --histories and --executed."""
    parser.addoption("--long", action="store_true", help="also run tests marked long, and draw more random cases")
    parser.addoption("--executed", type=Path, metavar="FOLDER", help="note the executed modules of `ropepeach`")
    parser.addoption("--histories", type=int, metavar="N", help="draw N random histories per kind of source (40)")


def pytest_configure() -> None:
    """Let Ctrl-C reach the tests and their commands (a shell's background run ignores SIGINT), and find nginx.

    SIGTERM ends the fixtures too, so that no machine stays.
    """
    for number in (signal.SIGINT, signal.SIGTERM):
        signal.signal(number, signal.default_int_handler)
    # (Debian has nginx there, and users who are not root do not)
    os.environ["PATH"] += ":/usr/sbin:/sbin"


def pytest_generate_tests(metafunc: pytest.Metafunc) -> None:
    """Run a test marked `plain` on both programs, unless PROGRAM names one."""
    is_of_both = "program" in metafunc.fixturenames and metafunc.definition.get_closest_marker("plain")
    if is_of_both and not os.environ.get("PROGRAM"):
        metafunc.parametrize("program", [*PROGRAMS], indirect=True, scope="session")


def pytest_collection_modifyitems(config: pytest.Config, items: list[pytest.Item]) -> None:
    """Leave out long tests without --long; give those without a timeout ten times the default one."""
    long = [item for item in items if item.get_closest_marker("long")]
    if not config.getoption("--long"):
        config.hook.pytest_deselected(items=long)
        items[:] = [item for item in items if item not in long]
    for item in long:
        if not item.get_closest_marker("timeout"):
            item.add_marker(pytest.mark.timeout(10 * float(config.getini("timeout"))))


def pytest_runtest_setup(item: pytest.Item) -> None:
    """Skip, with a reason, where the machine lacks a requirement."""
    for marker in item.iter_markers("needs"):
        for name in marker.args:
            if not shutil.which(name):
                pytest.skip(f"there is no {name} here")
    if item.get_closest_marker("root") and os.geteuid():
        pytest.skip("it needs root")


@pytest.hookimpl(tryfirst=True)  # type: ignore[misc]
def pytest_runtest_protocol(item: pytest.Item) -> None:
    """With --executed, let each process of Python note the modules of `ropepeach` that it imports."""
    if folder := item.config.getoption("--executed"):
        os.environ["ROPEPEACH_EXECUTED"] = str(folder / item.nodeid.partition("::")[0].replace("/", "%"))
        os.environ["PYTHONPATH"] = str(ROOT / "tests/executed")


@pytest.hookimpl(hookwrapper=True)  # type: ignore[misc]
def pytest_runtest_makereport() -> Generator[None, Any, None]:
    """With STRICT=1 a skip for a missing requirement is a failure."""
    outcome = yield
    report = outcome.get_result()
    is_strict = os.environ.get("STRICT", "") not in ("", "0")
    if is_strict and report.skipped and not hasattr(report, "wasxfail"):
        why = report.longrepr[2] if isinstance(report.longrepr, tuple) else report.longrepr
        report.outcome, report.longrepr = "failed", f"not tried: {why}"


def program_of(kind: str) -> str:
    """Return the path of a program, or skip the test."""
    if path := next(ROOT.glob(PROGRAMS[kind]), None):
        return str(path)
    pytest.skip(f"there is no {kind} program: make {'build' if kind == 'proved' else 'rust'}")


@pytest.fixture(scope="session")
def program(request: pytest.FixtureRequest) -> str:
    """Return the program that PROGRAM names, or else the proved one; `plain` tests get both in turn."""
    if named := os.environ.get("PROGRAM"):
        return os.path.abspath(named)
    return program_of(getattr(request, "param", "proved"))


@pytest.fixture(scope="session")
def plain_program() -> str:
    """Return the path of the plain program, or of the one that PLAIN names."""
    named = os.environ.get("PLAIN")
    return os.path.abspath(named) if named else program_of("plain")


@pytest.fixture
def room() -> Iterator[Path]:
    """Return an empty folder in memory, the current folder of the test."""
    with room_in_memory("test-") as folder, chdir(folder):
        yield Path(folder)
