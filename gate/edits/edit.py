"""Must-fail edits: their changes, and their outcomes."""

import os
import re
from collections.abc import Iterable, Mapping
from dataclasses import dataclass, field
from enum import Enum
from pathlib import Path

from gate.edits.symbols import symbol_of
from rattle.code import Function, functions_of

# The texts of files, by their paths in a crate.
Texts = dict[str, str]


class Outcome(Enum):
    """The outcome of an edit. All but the first are errors of the gate."""

    REFUSED = "refused"
    PROVED = "NOT REFUSED"
    NO_GOAL = "BY NO GOAL"
    NOT_APPLIED = "NOT APPLIED"
    NOT_READ = "NOT READ"
    NOT_TRIED = "NOT TRIED"


@dataclass
class Edit:
    """An edit of a crate: pairs of texts, the symbols of the functions whose bodies alone it changes, the first one."""

    label: str
    pairs: list[tuple[str, str, str]]
    outcome: Outcome = Outcome.NOT_TRIED
    why: str = ""
    symbols: set[str] = field(default_factory=set)
    function: Function | None = None
    # The goal by which it was last seen refused, or '' where none is known, and those of its function as it is.
    goal: str = ""
    others: list[str] = field(default_factory=list)

    @property
    def is_refused(self) -> bool:
        """Whether it came out as wanted."""
        return self.outcome is Outcome.REFUSED


def of_crate(root: str | Path, name: str, known: Mapping[str, str]) -> list[Edit]:
    """The edits of a crate, with the goals that are known.
    A file has lines 'file: PATH', followed by pairs of lines 'old: TEXT' and 'new: TEXT'."""
    found: list[Edit] = []
    for file in sorted(Path(root, "crates", name, "must-fail").glob("*.edit")):
        pairs: list[tuple[str, str, str]] = []
        path, label = "", f"{name}/{file.stem}"
        old: str | None = None
        for word, text in re.findall(r"(?m)^(file|old|new): ?(.*)$", file.read_text()):
            if word == "file":
                path = text.strip()
            elif word == "old":
                old = text
            elif old is not None:
                pairs.append((path, old, text))
                old = None
        found.append(Edit(label, pairs, goal=known.get(label, "")))
    return found


def applied(edit: Edit, folder: str | Path, texts: Texts | None = None) -> Texts | None:
    """These texts with those of the files that the edit changes, by their paths. None where it can't be applied."""
    texts = dict(texts or {})
    for path, old, new in edit.pairs:
        is_text = re.match(r"(src|specs|proofs)/(?!.*\.\.)", path) and os.path.isfile(f"{folder}/{path}")
        if path not in texts and is_text:
            texts[path] = Path(folder, path).read_text()
        text = texts.get(path, "")
        if not old or text.count(old) != 1:
            return None
        texts[path] = text.replace(old, new)
    return texts if edit.pairs else None


def look(edit: Edit, folder: str | Path, symbols: Iterable[str]) -> None:
    """Finds the functions in whose bodies all that the edit changes lies: none where it changes anything else."""
    found: dict[str | None, Function | None] = {}
    texts: Texts = {}
    for path, old, new in edit.pairs:
        text = texts.get(path) or Path(folder, path).read_text()
        texts[path] = text.replace(old, new)
        start = text.index(old) + len(os.path.commonprefix([old, new]))
        end = max(start, text.index(old) + len(old) - len(os.path.commonprefix([old[::-1], new[::-1]])))
        every = functions_of(text) if path.startswith("src/") else []
        inside = [one for one in every if one.start < start and end < one.end]
        # In a function inside another one, an error may be of either.
        symbol = symbol_of(path, inside[0], symbols) if len(inside) == 1 else None
        found.setdefault(symbol, inside[0] if inside else None)
    edit.symbols = {symbol for symbol in found if symbol} if all(found) else set()
    edit.function = next(iter(found.values()))
