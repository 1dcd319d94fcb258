"""Draw random trees of files, and rules for them."""
from __future__ import annotations

import contextlib
import random
from pathlib import Path

from ropepeach.resync.filters import Rule

# Characters of names, and fragments of patterns that replace a character of a path.
CHARACTERS = "aab.bc[]*?\\-é{x!"
WILD = ["*", "?", "**", "[a-c]", "[!a]", "[^b/]", "[[:alpha:]]", "[[:punct:]]", "***", "[]a]", "[a-", "[\\]]"]
PIECES = ["a", "b", "c", ".", "/", "*", "**", "?", "[ab]", "[!b]", "\\", "[[:digit:]", "[:alnum:]", "[-a]", "[a\\-c]",
          "é", "-", "[a/]"]


def made(source: Path, draws: random.Random) -> Path:
    """Make a folder of files and folders, and return it."""
    source.mkdir(parents=True)
    folders = [source]
    for _ in range(draws.randint(3, 25)):
        name = "".join(draws.choice(CHARACTERS) for _ in range(draws.randint(1, 3)))
        path = draws.choice(folders) / name
        # (a name may be drawn twice, once for a file and once for a folder)
        with contextlib.suppress(OSError):
            if draws.random() < 0.4:
                path.mkdir()
                folders.append(path)
            elif name.strip("."):
                path.touch()
    return source


def pattern_for(paths: list[str], draws: random.Random) -> str:
    """Return a pattern: a path with some characters changed, or joined fragments."""
    if paths and draws.random() < 0.6:
        path = draws.choice(paths)
        text = "".join(draws.choice([*WILD, f"\\{character}"]) if draws.random() < 0.25 else character
                       for character in path)
        text = text.partition("/")[2] or text if draws.random() < 0.3 else text
    else:
        text = "".join(draws.choice(PIECES) for _ in range(draws.randint(1, 5)))
    front, end = draws.choice(["", "", "", "/"]), draws.choice(["", "", "", "", "", "/", "/***"])
    return f"{front}{text}{end}"


def rules_for(paths: set[str], draws: random.Random) -> list[Rule]:
    """Return some rules for a tree of these paths."""
    patterns = [pattern_for(sorted(paths), draws) for _ in range(draws.randint(1, 5))]
    # (the command refuses other kinds of rsync rules, which test_patterns.py tests)
    return [Rule(pattern, draws.random() < 0.4)
            for pattern in patterns if pattern != "!" and pattern[:2] not in ("+ ", "- ")]
