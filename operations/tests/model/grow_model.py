"""Check a run of grow by the sources of a collection (ropepeach-grow(1)).

  - After a run with status 0, every resource is in its own source only, with its old bytes and type; the run has
    reported the number of moved names, and every changed source has published.
  - All puts are acknowledged before the first deletion. The run sends no change if the description lacks a source, or
    if two sources hold a name with different bytes.
  - The run puts names only into their own sources, and deletes them only from other sources.

test_collection.py checks after every response that some source holds every resource with its newest bytes.
"""
from __future__ import annotations

import hashlib

from operations.tests.model.fill_model import held_by
from operations.tests.model.runs import Ended
from operations.tests.model.taking import Taking

# Bytes and type by name, by source.
Sources = dict[str, dict[str, tuple[bytes, str]]]


def home_of(name: str, members: list[str]) -> str:
    """Return the source of a name (ropepeach-collection(1))."""
    return max(members, key=lambda member: hashlib.sha256(member.encode() + b"\0" + name.encode()).digest())


class Expected:
    """The moves that a run must make, by the resources before it."""

    def __init__(self, sources: dict[str, Taking], is_named: bool) -> None:
        self.sources, self.is_named = sources, is_named
        self.before: Sources = {member: held_by(taking) for member, taking in sources.items()}
        self.homes = {name: home_of(name, list(sources)) for resources in self.before.values() for name in resources}
        self.going = {(member, name) for member, resources in self.before.items() for name in resources
                      if self.homes[name] != member}
        bodies = {name: {resources[name] for resources in self.before.values() if name in resources}
                  for name in self.homes}
        self.differing = {name for name, those in bodies.items() if len(those) > 1}
        self.coming = {(self.homes[name], name) for _, name in self.going
                       if name not in self.before[self.homes[name]]}

    def is_refused(self) -> bool:
        """Return whether the run must make no change."""
        return not self.is_named or bool(self.differing)

    def after(self) -> Sources:
        """Return the resources of all sources at the end."""
        bodies = {name: resources[name] for resources in self.before.values() for name in resources}
        return {member: {name: bodies[name] for name, home in self.homes.items() if home == member}
                for member in self.sources}


def fault_of(expected: Expected, ended: Ended, options: list[str], others: set[str], is_dry: bool) -> str:
    """Return the fault of a run, or "". Others have put these names meanwhile."""
    sources = expected.sources
    sent = {(member, *change) for member, taking in sources.items() for change in taking.sent}
    put = {(member, name) for member, what, name in sent if what == "put"}
    deleted = {(member, name) for member, what, name in sent if what == "delete"}
    has_published = any(taking.publications for taking in sources.values())
    if (expected.is_refused() or is_dry) and (sent or has_published):
        return f"it changed something: {sorted(sent)}"
    if expected.is_refused() and not others and ended.status == 0:
        return f"it ended well, though {sorted(expected.differing)} differ"
    if put - expected.coming or deleted - expected.going:
        return f"it moved more: {sorted(put - expected.coming)} {sorted(deleted - expected.going)}"
    acknowledged = {(member, name) for member, taking in sources.items()
                    for what, name in taking.acknowledged if what == "put"}
    if deleted and expected.coming - acknowledged:
        return f"it deletes before these puts are acknowledged: {sorted(expected.coming - acknowledged)}"
    if "--no-publish" in options and has_published:
        return "it published"
    if ended.status == 0 and not is_dry:
        return fault_at_end(expected, ended, options, others)
    if is_dry and ended.status == 0:
        return fault_of_dry(expected, ended, others)
    is_calm = all(taking.name == "calm" for taking in sources.values())
    return "it ended early where all answers were right" if is_calm and not expected.is_refused() else ""


def fault_at_end(expected: Expected, ended: Ended, options: list[str], others: set[str]) -> str:
    """Return the fault of a run with status 0."""
    sources = expected.sources
    found: Sources = {member: held_by(taking) for member, taking in sources.items()}
    wanted = expected.after()
    wrong = sorted({(member, name) for member in sources
                    for name in (found[member].keys() | wanted[member].keys()) - others
                    if found[member].get(name) != wanted[member].get(name)})
    if wrong:
        return f"these are not where they live, or have other bytes: {wrong}"
    astray = sorted((member, name) for member, resources in found.items()
                    for name in resources if expected.homes[name] != member)
    if astray:
        return f"these were changed meanwhile, and status 0 tells nothing of them: {astray}"
    if others:
        return ""
    changed = [member for member, taking in sources.items() if taking.sent]
    unpublished = [member for member in changed if not sources[member].is_published()]
    if unpublished and "--no-publish" not in options:
        return f"these have not published what they hold: {unpublished}"
    return fault_of_lines(expected, ended)


def first_line(expected: Expected) -> str:
    """Return the line of a run that reports its work."""
    count = sum(map(len, expected.before.values()))
    going, coming = len(expected.going), len(expected.coming)
    return f"{going:,} of {count:,} are where they do not live; {coming:,} have to be put"


def fault_of_lines(expected: Expected, ended: Ended) -> str:
    """Return the fault in the lines of a successful run."""
    lines = [first_line(expected)]
    for member in expected.sources:
        put, deleted = (sum(destination == member for destination, _ in those)
                        for those in (expected.coming, expected.going))
        lines += [f"{member}: {put:,} put, {deleted:,} deleted"] if put or deleted else []
    output = ended.output.splitlines()
    return "" if output == lines else f"it told {output}, and the model has {lines}"


def fault_of_dry(expected: Expected, ended: Ended, others: set[str]) -> str:
    """Return the fault in the lines of a dry run."""
    output = sorted(ended.output.splitlines())
    moves = [f"move {member} {expected.homes[name]} {name}" for member, name in expected.going]
    wanted = sorted([first_line(expected), *moves])
    return "" if others or output == wanted else f"a dry run told {output}, and the model has {wanted}"
