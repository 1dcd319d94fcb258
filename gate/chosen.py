"""The files of tests that a change touches, the nearest first.

A change of a file touches the tests in it, and those that import it, directly or through other modules; the tests that
name it, or its folder, in a text; and the tests that run the command `ropepeach` into it, by the table executed.txt,
which `python3 -m gate.tested --note` writes.
"""

import ast
import subprocess
from collections.abc import Iterable, Iterator
from dataclasses import dataclass
from functools import cache
from pathlib import Path

from rattle.tables import lines
from tests.modules import imported, place_of

# The folder of the command, whose modules import each other by its own name.
COMMAND = "operations/ropepeach/"
# The tests that read every text of the repository: a change always touches them.
ALWAYS = "tests/house/"


@dataclass(frozen=True)
class Executed:
    """The seconds that the tests of a file take, and the modules of the command that they execute."""

    seconds: float
    modules: frozenset[str]


def changed(root: Path) -> list[str]:
    """Return the files that differ from the last commit: changed, new or removed, and both names of a moved file."""
    commands = (["diff", "--name-only", "--no-renames", "-z", "HEAD"],
                ["ls-files", "-z", "--others", "--exclude-standard"])
    outputs = [subprocess.run(["git", *words], cwd=root, capture_output=True, check=True).stdout.decode()
               for words in commands]
    return sorted({name for output in outputs for name in output.split("\0") if name})


def crates(uses: Iterable[str], names: list[str]) -> list[str]:
    """Return the crates whose code, specs or proofs are among these files, in the order of the crates."""
    places = {crate: tuple(f"crates/{crate}/{part}/" for part in ("src", "specs", "proofs")) for crate in uses}
    return [crate for crate in uses if any(name.startswith(places[crate]) for name in names)]


def recorded(text: str) -> dict[str, Executed]:
    """Return the table by file of tests: a line has the file, its seconds, and modules below `ropepeach`."""
    rows = map(str.split, lines(text))
    return {file: Executed(float(seconds), frozenset(f"{COMMAND}{name.replace('.', '/')}" for name in modules))
            for file, seconds, *modules in rows}


def files_of(root: Path, module: str) -> Iterator[Path]:
    """Yield the file of an imported module, if it is one of the repository."""
    place = place_of(root, module)
    yield from (file for file in (place.with_suffix(".py"), place / "__init__.py") if file.is_file())


@cache
def texts_in(file: Path) -> frozenset[str]:
    """Return the texts of a file of Python that may be paths: those with a slash, and names of files at the top."""
    found = (node.value for node in ast.walk(ast.parse(file.read_bytes())) if isinstance(node, ast.Constant))
    return frozenset(text.strip("/") for text in found if isinstance(text, str) and " " not in text and len(text) > 3)


def distances(root: Path, file: Path) -> dict[str, int]:
    """Return the files that a file of tests imports, each with the length of the shortest chain of imports."""
    found, waiting = {file: 0}, [file]
    for path in waiting:
        for other in (other for name in imported(path) for other in files_of(root, name) if other not in found):
            found[other] = found[path] + 1
            waiting.append(other)
    return {str(path.relative_to(root)): length for path, length in found.items()}


def nearness(root: Path, test: str, name: str, table: dict[str, Executed]) -> float | None:
    """Return how far a changed file is from a file of tests (0 is nearest), or None if it does not touch the tests."""
    near = distances(root, root / test)
    if name in near:
        return near[name]
    if name.startswith(COMMAND):
        # (tests without a line may run anything)
        module = name.removesuffix(".py").removesuffix("/__init__")
        modules = table[test].modules if test in table else frozenset([module])
        # The fewer modules the tests execute, the more of them concern this one.
        return 1 + len(modules) / 100 if module in modules else None
    named = {text for path in near for text in texts_in(root / path)}
    return 2 if any(name == text or "/" in text and name.startswith(f"{text}/") for text in named) else None


def touched(root: Path, tests: Iterable[str], names: list[str], table: dict[str, Executed]) -> list[str]:
    """Return the files of tests that a change of these files touches, the nearest first, then the fastest."""
    found: list[tuple[float, float, str]] = []
    for test in tests:
        near = [length for name in names if (length := nearness(root, test, name, table)) is not None]
        if near or test.startswith(ALWAYS):
            found.append((min(near, default=2), table[test].seconds if test in table else 0, test))
    return [test for _, _, test in sorted(found)]
