"""Check a run of fill by the files of its folder (operations/docs/OPERATING.md, ropepeach-fill(1)).

  - After a run with status 0, or 3 if something was left out, the source has the files of the folder, with their
    types, and keeps its resources at or below names that were left out; the Resource List has all of them. The counts
    are the needed changes.
  - After a run that ends early, a name has its old bytes or those of the folder. The run counts exactly the
    acknowledged changes.
  - A run puts no body that the source has, and deletes no name that has a file. If it would delete more than allowed,
    it changes nothing.
  - Deletions come first, to make room. After a refusal that ends the run it sends no more changes. A group has at
    most 16 changes.
  - Concurrent puts and deletions by others stay, or the folder's files replace them; the run goes on.
"""
from __future__ import annotations

import dataclasses

from operations.tests.model.runs import Ended, number_before
from operations.tests.model.taking import Taking

# Bytes and type by name.
Bodies = dict[str, tuple[bytes, str]]


@dataclasses.dataclass
class Wanted:
    """The task of a run: files by name, with their types; names that are left out, and options. A type from a pattern
    is compared, a type from the ending of a name is not.
    """

    files: dict[str, tuple[bytes, str]]
    is_typed: set[str]
    left_out: set[str]
    options: list[str]


class Expected:
    """The changes that a run must make, by the resources of the source before it."""

    def __init__(self, wanted: Wanted, source: Taking) -> None:
        self.wanted, self.source = wanted, source
        self.before = held_by(source)
        self.was_published = source.is_published()
        files = wanted.files
        self.differing = {name for name, (body, kind) in files.items() if self.differs(name, body, kind)}
        # A source that is full twice has no room for good.
        self.is_full = source.due > 2 or (source.due > 0 and "--no-publish" in wanted.options)
        stays = tuple(f"{name}/" for name in wanted.left_out)
        self.gone = {name for name in self.before.keys() - files.keys() - wanted.left_out
                     if not name.startswith(stays)}

    def differs(self, name: str, body: bytes, kind: str) -> bool:
        """Return whether a file must be put."""
        before = self.before.get(name)
        return before is None or before[0] != body or (name in self.wanted.is_typed and before[1] != kind)

    def is_refused(self) -> bool:
        """Return whether the run would delete more than allowed."""
        options = self.wanted.options
        if "--max-delete" in options:
            return len(self.gone) > int(options[options.index("--max-delete") + 1])
        return 2 * len(self.gone) > len(self.before) and "--yes" not in options

    def must_end_well(self) -> bool:
        """Return whether the run must succeed: changes by others do not prevent it, if all may be deleted."""
        if self.source.name == "full":
            return not self.is_full and not self.is_refused()
        if self.source.name == "shared":
            return "--yes" in self.wanted.options
        return self.source.name == "calm" and not self.is_refused()

    def may_be(self, name: str) -> list[tuple[bytes, str] | None]:
        """Return the bytes that a name may have after a run, wherever it ended."""
        before, file = self.before.get(name), self.wanted.files.get(name)
        if name in self.gone:
            return [before, None]
        return [before, file] if name in self.differing else [before]


def held_by(source: Taking) -> Bodies:
    """Return the bytes and types of a source's resources."""
    return {name: (body, entry.kind) for name, (body, entry) in source.history.state.held.items()}


def fault_of(expected: Expected, ended: Ended, others: set[str]) -> str:
    """Return the fault of a run, or "". Others have changed these names meanwhile."""
    source, wanted = expected.source, expected.wanted
    all_wanted = {("put", name) for name in expected.differing} | {("delete", name) for name in expected.gone}
    is_done = ended.status in (0, 3) and not others
    needless = sorted(all_wanted ^ set(source.sent) if is_done else set(source.sent) - all_wanted)
    if needless and not (others and {name for _, name in needless} <= others):
        return f"it sent too much or too little: {needless}"
    is_changed = bool(ended.status in (0, 3) or source.sent or source.publications)
    if expected.is_refused() and not others and is_changed:
        return f"it deletes {len(expected.gone)} of {len(expected.before)}"
    if "--no-publish" in wanted.options and source.publications:
        return "it published"
    if source.misused:
        return f"it sent {source.misused}"
    if source.behind:
        return f"it went on behind a refusal, with {source.behind}"
    if source.name == "calm" and source.sent != sorted(source.sent, key=lambda change: change[0]):
        return "it put something before a deletion"
    resources = held_by(source)
    if ended.status in (0, 3):
        return fault_at_end(expected, ended, resources, others)
    if ended.status >= 0 and expected.must_end_well():
        return "it ended early where nothing stood against a good end"
    names = (resources.keys() | expected.before.keys()) - others
    wrong = sorted(name for name in names if resources.get(name) not in expected.may_be(name))
    return f"after an early end these are wrong: {wrong}" if wrong else fault_of_counts(ended, source)


def fault_of_counts(ended: Ended, source: Taking) -> str:
    """Return the fault in the counts of a run that ended early."""
    kinds = [what for what, _ in source.acknowledged]
    acknowledged = kinds.count("put"), kinds.count("delete")
    if ended.status < 0:
        return ""
    is_told = " put (" in ended.output
    counted = tuple(number_before(word, ended.output) if is_told else 0 for word in ("put", "deleted"))
    return "" if counted == acknowledged else f"it counts {counted}, and {acknowledged} were acknowledged"


def fault_at_end(expected: Expected, ended: Ended, resources: Bodies, others: set[str]) -> str:
    """Return the fault of a run with status 0 or 3."""
    source, wanted = expected.source, expected.wanted
    if (ended.status == 3) != bool(wanted.left_out):
        return f"status {ended.status}, and {len(wanted.left_out)} were left out"
    resources_wanted = {name: resource for name, resource in expected.before.items() if name not in expected.gone}
    resources_wanted |= {name: wanted.files[name] for name in expected.differing}
    names = (resources_wanted.keys() | resources.keys()) - others
    wrong = sorted(name for name in names if resources_wanted.get(name) != resources.get(name))
    if wrong:
        return f"these are not what the folder has: {wrong}"
    if others:
        return ""
    same = len(wanted.files) - len(expected.differing)
    counted = tuple(number_before(word, ended.output) for word in ("put", "deleted", "the same", "left out"))
    right = len(expected.differing), len(expected.gone), same, len(wanted.left_out)
    if counted != right:
        return f"it counts {counted}, and the model has {right}"
    is_due = bool(expected.differing or expected.gone or not expected.was_published)
    if "--no-publish" not in wanted.options and not source.is_published():
        return "the Resource List is not what is held"
    if source.name == "calm" and source.publications != (is_due and "--no-publish" not in wanted.options):
        return f"it published {source.publications} times"
    return ""
