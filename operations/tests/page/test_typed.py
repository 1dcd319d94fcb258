"""Check the types of the page's scripts: TypeScript's compiler accepts them by their JSDoc."""
from __future__ import annotations

import re
import subprocess

import pytest

from operations.tests.page.site import PAGE
from tests.program import SECONDS

COMPILER = "tsc"
OPTIONS = ["--allowJs", "--checkJs", "--noEmit", "--strict", "--noUnusedLocals", "--target", "es2022", "--module",
           "es2022", "--moduleResolution", "node", "--lib", "es2022,dom,dom.iterable"]
# Exported functions and classes, and parts of classes, without JSDoc.
EXPORTED = r"export (?:async )?(?:function|class) \w+"
PART = r"  (?:async |get )?(?!if|for|while|switch|constructor)\w+(?=\(.*\) \{$)"
BARE = re.compile(rf"(?m)(?<!\*/)\n((?:{EXPORTED}|{PART}).*)")


@pytest.mark.needs(COMPILER)
def test_the_scripts_have_no_type_errors() -> None:
    scripts = sorted(path.name for path in PAGE.glob("*.js"))
    assert scripts
    process = subprocess.run([COMPILER, *OPTIONS, *scripts], cwd=PAGE, capture_output=True, text=True, timeout=SECONDS)
    assert (process.stdout + process.stderr, process.returncode) == ("", 0)


def test_the_page_preloads_every_module() -> None:
    """All modules load in one step: the page names each that `main.js` needs."""
    preloaded = re.findall(r'rel="modulepreload" href="site/([a-z]+\.js)"', (PAGE / "index.html").read_text())
    assert sorted([*preloaded, "main.js"]) == sorted(path.name for path in PAGE.glob("*.js"))


def test_functions_and_classes_of_the_scripts_have_jsdoc() -> None:
    assert [f"{path.name}: {line.strip()}" for path in sorted(PAGE.glob("*.js"))
            for line in BARE.findall(path.read_text())] == []
