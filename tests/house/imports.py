"""Find faults of Python files: measures missing from the Makefile, programs among the examples, cyclic imports.

  - The Makefile names every measure, and no other module imports from a measure: shared code has a file of its own.
  - examples/ has no Python program except `demo`.
  - No module imports itself through other modules, including imports within functions.
"""
import graphlib
import re
from collections.abc import Mapping
from pathlib import Path

from tests.modules import imported, module_of
from tests.program import ROOT

MEASURES = sorted((ROOT / "bench").rglob("*.py"))
FOLDERS = ("bench", "gate", "operations/ropepeach", "operations/tests", "rattle", "rust", "statement", "tests")
FILES = [file for name in FOLDERS for file in sorted((ROOT / name).rglob("*.py"))]
# The program of `make demo`, which runs the examples.
DEMO = ROOT / "examples" / "demo"


def is_python(file: Path) -> bool:
    """Return whether a file is Python, by its name or its first line."""
    first = file.read_bytes().partition(b"\n")[0]
    return file.suffix == ".py" or first.startswith(b"#!") and b"python" in first


def cycle_in(imports: Mapping[str, set[str]]) -> list[str]:
    """Return a cycle of imports, with its first module repeated at its end, or an empty list."""
    try:
        graphlib.TopologicalSorter(imports).prepare()
    except graphlib.CycleError as fault:
        return list(reversed(fault.args[1]))
    return []


def ours(files: list[Path], root: Path = ROOT) -> dict[str, set[str]]:
    """Return the imports of these modules among themselves; a package counts as its `__init__`."""
    modules = {module_of(file, root): file for file in files}
    # A module that imports from its own package only takes another module from it.
    return {name: {other for other in imported(file) if other in modules and not f"{name}.".startswith(f"{other}.")}
            for name, file in modules.items()}


def faults() -> list[str]:
    """Return a line for each fault of the repository."""
    run = {module_of(file) for file in MEASURES if "\nif __name__ ==" in file.read_text()}
    makefile = (ROOT / "Makefile").read_text()
    found = [f"{module_of(file)} imports from {name}" for file in MEASURES for name in sorted(imported(file) & run)]
    found += [f"the Makefile does not name {module}" for module in sorted(run)
              if not re.search(rf"(?<![\w.]){re.escape(module)}\b", makefile)]
    examples = [path for path in sorted((ROOT / "examples").rglob("*")) if path.is_file() and path != DEMO]
    found += [f"{path.relative_to(ROOT)}: a program, and no example" for path in examples if is_python(path)]
    cycle = cycle_in(ours(FILES))
    return found + ([f"modules that import each other: {' '.join(cycle)}"] if cycle else [])
