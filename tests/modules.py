"""Python files as modules: the place of a module, the name that imports a file, and its imports."""

import ast
from functools import cache
from pathlib import Path

from tests.program import ROOT

# The folders of packages that are imported by their own name.
ELSEWHERE = {"ropepeach": "operations"}


def module_of(file: Path, root: Path = ROOT) -> str:
    """Return the name by which a file is imported; a folder that runs as a program has the name of its `__main__`."""
    parts = file.relative_to(root).with_suffix("").parts
    is_elsewhere = parts[1:] and ELSEWHERE.get(parts[1]) == parts[0]
    return ".".join(parts[1:] if is_elsewhere else parts).removesuffix(".__init__")


def place_of(root: Path, module: str) -> Path:
    """Return the folder of a module, or its file without the suffix, for a module of the repository."""
    parts = module.split(".")
    return root.joinpath(ELSEWHERE.get(parts[0], ""), *parts)


@cache
def imported(file: Path) -> frozenset[str]:
    """Return the modules and their names that a file imports, also within functions, as dotted names.

    A file that is no Python has none.
    """
    found: set[str] = set()
    try:
        tree = ast.parse(file.read_bytes())
    except (SyntaxError, ValueError):
        return frozenset()
    for node in ast.walk(tree):
        if isinstance(node, ast.Import):
            found |= {name.name for name in node.names}
        elif isinstance(node, ast.ImportFrom) and node.module:
            found |= {node.module, *(f"{node.module}.{name.name}" for name in node.names)}
    return frozenset(found)
