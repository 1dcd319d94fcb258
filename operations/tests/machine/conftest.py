"""Boot the machine of all tests of this folder once, with the packages of the program and two sources.

The tests run in the order of ORDER, as later ones need the sources, sites and certificates of earlier ones.
"""
from __future__ import annotations

import os
import shutil
import tempfile
from collections.abc import Iterator
from pathlib import Path

import pytest

from operations.package.build import build
from operations.tests.machine import debian
from operations.tests.machine.debian import Missing
from operations.tests.machine.machine import Machine, Packages
from operations.tests.machine.page import commands
from operations.tests.stamped import stamp_of
from tests.program import ROOT, Differs

ORDER = ["test_machine", "test_new", "test_month", "test_door", "test_edge", "test_wrong_units", "test_upgrade"]
# The time of the packages where there is no git.
MOMENT = "1767225600"
# The Debian that boots.
SUITE = os.environ.get("SUITE", debian.SUITE)


def pytest_collection_modifyitems(items: list[pytest.Item]) -> None:
    """Sort the tests of this folder by their module; leave all others in place."""
    places = [place for place, item in enumerate(items) if item.path.parent == Path(__file__).parent]
    ours = sorted((items[place] for place in places), key=lambda item: ORDER.index(item.path.stem))
    for place, item in zip(places, ours):
        items[place] = item


@pytest.fixture(scope="session")
def place() -> Iterator[Path]:
    """Return a folder for the packages and the machine."""
    with tempfile.TemporaryDirectory(prefix="machine-", dir=debian.place()) as room:
        yield Path(room)


@pytest.fixture(scope="session")
def packages(program: str, place: Path) -> Packages:
    """Build the packages of the program, and packages of a later version."""
    os.environ.setdefault("SOURCE_DATE_EPOCH", MOMENT)
    version = (ROOT / "VERSION").read_text().strip()
    return Packages(*([Path(deb) for deb in build(Path(program), number, place / number, stamp_of(program))]
                      for number in (version, f"{version}+later")))


@pytest.fixture(scope="session")
def booted(place: Path) -> Iterator[Machine]:
    """Boot a machine without the packages; skip where this machine cannot."""
    try:
        debian.unpacked(place / "root", SUITE)
        running = Machine(place / "root").__enter__()
    except Missing as what:
        pytest.skip(f"this machine has not {what}")
    try:
        try:
            running.boot()
        except (Missing, Differs, OSError) as fault:
            pytest.skip(f"a machine does not boot here: {fault}")
        yield running
    finally:
        running.__exit__()


@pytest.fixture(scope="session")
def installed(booted: Machine, packages: Packages) -> Machine:
    """Run the page's `apt install` of the packages, without a network."""
    for deb in packages.first:
        shutil.copy(deb, booted.root / "root")
    booted.shell(f"cd /root; {commands('Installing', 'apt install').splitlines()[0]}", seconds=120)
    return booted


@pytest.fixture(scope="session")
def machine(installed: Machine) -> Machine:
    """Run the page's commands that make two sources; the first one answers as soon as they end."""
    Path(installed.root, "etc/hosts").write_text("127.0.0.1 localhost source.example.org\n")
    installed.shell(commands("By hand", "rs_source format"))
    installed.output("curl", "-fsS", "http://127.0.0.1:8080/capabilitylist.xml")
    installed.shell(commands("The units", "second.env"))
    installed.output("curl", "-fsS", "http://127.0.0.1:8081/capabilitylist.xml")
    return installed
