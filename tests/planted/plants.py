"""Planted bugs: changes of a file that tests must notice. bugs/ has the tables."""
from __future__ import annotations

import ast
import importlib
import os
import pkgutil
import random
import re
import shlex
from collections import Counter
from collections.abc import Iterator
from dataclasses import dataclass
from enum import Enum
from pathlib import Path

from tests.planted import bugs as tables

# The numbers of bugs of the program and of other files that the gate draws; every bug of the program needs a build.
OF_PROGRAM, OF_OTHERS = 2, 8
# A setting of the environment before the command-line arguments of tests.
SETTING = re.compile(r"[A-Z]+=\S+")
# The words of a -k expression that are not names of tests.
OPERATORS = {"and", "or", "not"}


class Unfit(Exception):
    """The bug cannot be planted."""


class Runner(Enum):
    """The program that runs the tests of a bug."""

    PYTEST = "pytest"
    # Tests of a library in Rust.
    CARGO = "cargo"


@dataclass(frozen=True)
class Bug:
    """A bug: its description, its file, the text that it replaces and the new text, and the tests that must notice it.

    bugs/__init__.py has the forms of `tests`. Only --long tries a bug whose tests take minutes (`is_long`).
    """

    what: str
    file: str
    old: str
    new: str
    tests: str
    is_long: bool = False

    @property
    def slug(self) -> str:
        """Return the description as the id of a test."""
        return re.sub(r"[^a-z0-9]+", "-", self.what.lower()).strip("-")

    @property
    def is_of_program(self) -> bool:
        """Return whether the bug is in the program."""
        return self.file.startswith("crates/")

    @property
    def text(self) -> str:
        """Return the text that PLANTED=TEXT searches for TEXT."""
        return f"{self.what} {self.file} {self.tests}"

    def planted(self, text: str) -> str:
        """Return the text of the file with the bug. Raise Unfit unless the old text occurs once."""
        count = text.count(self.old)
        if count != 1:
            raise Unfit(f"{self.file}: the old text occurs {count} times instead of once: {self.old!r}")
        return text.replace(self.old, self.new)


def runner_of(tests: str) -> Runner:
    """Return the program that runs these tests."""
    first = next(word for word in shlex.split(tests) if not SETTING.fullmatch(word))
    return Runner.CARGO if first == "cargo" else Runner.PYTEST


def words_of(tests: str) -> list[str]:
    """Return the command-line arguments for these tests, without settings and the name of the runner."""
    words = [word for word in shlex.split(tests) if not SETTING.fullmatch(word)]
    return words[1:] if words[0] in ("pytest", "cargo") else words


def settings_of(tests: str) -> dict[str, str]:
    """Return the settings of the environment for these tests, as `SEED=74`."""
    return dict(word.split("=", 1) for word in shlex.split(tests) if SETTING.fullmatch(word))


def all_bugs() -> list[Bug]:
    """Return the bugs of all lists in the modules of bugs/."""
    found: dict[int, Bug] = {}
    for module in pkgutil.iter_modules(tables.__path__):
        for value in vars(importlib.import_module(f"{tables.__name__}.{module.name}")).values():
            if isinstance(value, list):
                found |= {id(bug): bug for bug in value if isinstance(bug, Bug)}
    return list(found.values())


def drawn(bugs: list[Bug], seed: int) -> list[Bug]:
    """Return the bugs that the gate plants: some of the program and some of other files, all with quick tests."""
    draw, quick = random.Random(seed), [bug for bug in bugs if not bug.is_long and "--long" not in bug.tests.split()]
    kinds = [(OF_PROGRAM, [bug for bug in quick if bug.is_of_program]),
             (OF_OTHERS, [bug for bug in quick if not bug.is_of_program])]
    return [bug for most, kind in kinds for bug in draw.sample(kind, min(most, len(kind)))]


def wrong_rows(bugs: list[Bug], root: Path) -> list[str]:
    """Return the faults of the tables: duplicate ids, old texts that do not occur exactly once, missing tests."""
    wrong = [f"{slug} is the id of {count} bugs" for slug, count in Counter(bug.slug for bug in bugs).items()
             if count > 1]
    for bug in bugs:
        try:
            text = bug.planted((root / bug.file).read_text())
            if bug.file.endswith(".py"):
                ast.parse(text)
        except (Unfit, OSError, SyntaxError) as why:
            wrong.append(f"{bug.what}: {why}")
        wrong += [f"{bug.what}: {why}" for why in missing_tests(bug.tests, root)]
    return wrong


def missing_tests(tests: str, root: Path) -> Iterator[str]:
    """Yield a line for every missing file or test among these arguments."""
    words = words_of(tests)
    match runner_of(tests):
        case Runner.CARGO:
            if not (root / "crates" / words[0]).is_dir():
                yield f"there is no crate {words[0]}"
        case Runner.PYTEST:
            yield from missing_nodes(words, root)


def missing_nodes(words: list[str], root: Path) -> Iterator[str]:
    """Yield a line for every node id of pytest and every word of -k that matches no test."""
    chosen = [words[at + 1] for at, word in enumerate(words[:-1]) if word == "-k"]
    names = {name for word in words if "/" in word for name in names_below(root / word.partition("::")[0])}
    if not any("/" in word for word in words):
        yield f"these words name no test: {' '.join(words)}"
    for word in words:
        path, *parts = word.split("::")
        if "/" in path and not (root / path).exists():
            yield f"there is no {path}"
        elif "/" in path:
            found = names_below(root / path)
            yield from (f"{path} has no {part}" for part in parts
                        if part.partition("[")[0] not in found | {"runTest"})
    for word in re.findall(r"\w+", " ".join(chosen)):
        if word not in OPERATORS and not any(word in name for name in names):
            yield f"no test has {word} in its name"


def names_below(path: Path) -> set[str]:
    """Return the names of the test files at a path, and the names that they define."""
    files = sorted(path.rglob("test_*.py")) if path.is_dir() else [path] * path.exists()
    defined = re.compile(r"(?m)^\s*(?:(?:async )?def|class) (\w+)|^(\w+)(?::.*)? = ")
    found = {name for file in files for pair in defined.findall(file.read_text()) for name in pair if name}
    return found | {file.stem for file in files}
