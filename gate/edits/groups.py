"""Groups of must-fail edits that one check tries."""

from collections.abc import Iterable
from dataclasses import dataclass, field
from pathlib import Path

from gate.edits import copies
from gate.edits.edit import Edit, Texts, applied


@dataclass
class Group:
    """Edits that one check tries: by the symbols of functions or copies, and the texts of all."""

    tried: dict[str, Edit] = field(default_factory=dict)
    texts: Texts = field(default_factory=dict)

    def takes(self, edit: Edit, folder: str | Path) -> bool:
        """Takes an edit, on a copy of its function or, where that has none, in its place. False where it can't."""
        texts: Texts | None
        edited = applied(edit, folder)
        if edited and copies.can_be_copied(edit, folder):
            texts, symbols = copies.with_copy(self.texts, folder, edit, edited, len(self.tried))
        else:
            symbols = edit.symbols
            texts = None if symbols & {*self.tried} else applied(edit, folder, self.texts)
        if texts:
            self.texts, self.tried = texts, {**self.tried, **dict.fromkeys(symbols, edit)}
        return bool(texts)


def grouped(edits: Iterable[Edit], folder: str | Path) -> list[Group]:
    """Return groups of edits for one check each. Edits without a copy come first, while their texts occur once."""
    groups: list[Group] = []
    for edit in sorted(edits, key=lambda one: copies.can_be_copied(one, folder)):
        if not any(group.takes(edit, folder) for group in groups):
            groups.append(Group())
            groups[-1].takes(edit, folder)
    return groups
