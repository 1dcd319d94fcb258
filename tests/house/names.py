"""Find public names of the command `ropepeach` that several of its modules define.

A public function, class or constant has one home: its name has one meaning, and a reader finds it by its name alone.
"""
import ast
from collections.abc import Iterator
from pathlib import Path

from tests.program import ROOT

PACKAGE = ROOT / "operations/ropepeach"
# Names that modules share by design: the first two belong to subcommands, the third to modules that run as programs.
INTERFACE = {"add_arguments", "run", "main"}


def targets_of(statement: ast.stmt) -> list[ast.expr]:
    """Return the targets of an assignment."""
    if isinstance(statement, ast.Assign):
        return statement.targets
    return [statement.target] if isinstance(statement, ast.AnnAssign) else []


def names_in(text: str) -> Iterator[str]:
    """Yield the names that a module defines at its top."""
    for statement in ast.parse(text).body:
        if isinstance(statement, ast.FunctionDef | ast.AsyncFunctionDef | ast.ClassDef):
            yield statement.name
        for target in targets_of(statement):
            yield from (node.id for node in ast.walk(target) if isinstance(node, ast.Name))


def homes_in(folder: Path) -> dict[str, list[str]]:
    """Return the public names that several modules below a folder define, with these modules."""
    homes: dict[str, list[str]] = {}
    for file in sorted(folder.rglob("*.py")):
        for name in sorted(set(names_in(file.read_text())) - INTERFACE):
            if not name.startswith("_"):
                homes.setdefault(name, []).append(str(file.relative_to(folder)))
    return {name: files for name, files in sorted(homes.items()) if len(files) > 1}
