"""Test that a subcommand of `ropepeach` imports few modules, which take most of its startup time."""
from __future__ import annotations

import functools
import os
import re
import subprocess

import pytest

from operations.tests import PYTHON
from ropepeach.cli.subcommands import SUBCOMMANDS
from tests.program import TOOLS

SECONDS = 60
# The folder of Debian's packaged modules.
PACKAGES = "/usr/lib/python3/dist-packages"
# Modules whose import takes at least 10 ms of a processor.
HTTP, XML, BARS, DATABASE = ("pycurl",), ("xml.etree.ElementTree", "defusedxml"), ("tqdm",), ("sqlite3",)
# libcurl replaces these for all commands.
NEVER = ("urllib3", "http.client", "ssl", "email", "urllib.request")
CLASSES = ("dataclasses", "json")
LOCAL = (*HTTP, *XML, *BARS, *DATABASE, "multiprocessing")
# Unused modules of a subcommand's run; no run shows a bar where standard error is no terminal.
WITHOUT = {
    ("--help",): (*LOCAL, *CLASSES, "shutil", "tempfile"),
    ("help",): (*LOCAL, *CLASSES, "shutil", "tempfile"),
    ("why", "/none", "1"): (*LOCAL, *CLASSES, "textwrap"),
    ("health", "http://127.0.0.1:1"): (*BARS, *DATABASE, "multiprocessing", "json"),
    # (a mirror keeps its file table in a database)
    ("mirror", "http://127.0.0.1:1", "/none/m", "--patience", "0"): (*BARS, "multiprocessing", "concurrent.futures"),
    ("look", "/none"): LOCAL,
    ("size", "/none"): LOCAL,
    ("fill", "/none", "http://127.0.0.1:1"): (*BARS, "multiprocessing"),
    ("site", "https://a.example"): (*LOCAL, "json", "tomllib", "hashlib"),
    ("new", "a", "--base", "http://a.example", "--http", "--no-site", "--dry-run"): (*LOCAL, "tomllib"),
    ("remove", "none", "--dry-run"): (*LOCAL, "tomllib"),
    ("takeover", "/none", "10.0.0.1"): LOCAL,
}
# The most modules of a run, without those of an empty Python program.
MOST = {"--help": 50, "help": 50, "why": 70, "health": 195, "mirror": 230, "look": 93, "size": 92, "fill": 220,
        "site": 79, "new": 110, "remove": 99, "takeover": 78}
# Other packages that a subcommand imports, in addition to its own and `cli`; disk/formula.py has limits of options.
OTHERS = {
    "health": {"http", "resync"}, "mirror": {"http", "resync"}, "look": {"resync"},
    "size": {"fill", "mirror", "resync"}, "new": {"disk"},
    "fill": {"admin", "collection", "http", "mirror", "resync"},
}
FORMULA = "ropepeach.disk.formula"
# Modules of another subcommand that it imports.
BY_OTHERS = {"new": {"ropepeach.admin.site"}}


def imported(*words: str) -> set[str]:
    """Return the modules that a run of Python imports, without those that this machine adds to every run."""
    run = subprocess.run([PYTHON, "-S", "-X", "importtime", *words], capture_output=True, text=True, timeout=SECONDS,
                         env=os.environ | {"PYTHONPATH": PACKAGES})
    return set(re.findall(r"(?m)^import time: .*\| +(\S+)$", run.stderr))


@functools.cache
def imported_by_command(words: tuple[str, ...]) -> set[str]:
    """Return the modules that a run of the command imports, without those of an empty Python program."""
    return imported(str(TOOLS / "ropepeach-command"), *words) - imported("-c", "pass")


@pytest.mark.parametrize("words", WITHOUT, ids=" ".join)
def test_no_run_imports_modules_without_use(words: tuple[str, ...]) -> None:
    """The number of modules is limited too."""
    modules = imported_by_command(words)
    assert not modules & {*WITHOUT[words], *NEVER}
    assert "ropepeach.cli.command" in modules
    assert len(modules) <= MOST[words[0]]


@pytest.mark.parametrize("words", WITHOUT, ids=" ".join)
def test_a_subcommand_imports_its_own_package(words: tuple[str, ...]) -> None:
    """A table has the other packages; the overview imports no module of a subcommand."""
    modules, declared = imported_by_command(words), SUBCOMMANDS.get(words[0])
    own = {declared.module.partition(".")[0]} if declared else set()
    found = {name.split(".")[1] for name in modules - {FORMULA}
             if name.count(".") > 1 and name.startswith("ropepeach.")}
    assert found - {"cli"} <= own | OTHERS.get(words[0], set())
    of_others = modules & {f"ropepeach.{other.module}" for other in SUBCOMMANDS.values() if other.name != words[0]}
    assert of_others <= BY_OTHERS.get(words[0], set())
