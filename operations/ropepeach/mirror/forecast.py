"""The actions of a run by the current lists, for a dry run."""
from __future__ import annotations

from ropepeach.mirror.aims import entries_in
from ropepeach.mirror.engine import Engine
from ropepeach.resync.facts import length_of
from ropepeach.resync.lists import Dropped


class Forecast:
    """The files that a run would fetch, or ask for, and those that it would remove."""

    def __init__(self, engine: Engine, is_baseline: bool) -> None:
        """Read the lists. Raise Fault if they would make the run fail."""
        engine.aims.is_dry = True
        engine.folder.count()
        try:
            aim = engine.aims.aim(is_baseline)
        except Dropped:
            aim = engine.aims.aim(True)
        engine.check_required(aim, aim.wanted)
        self.engine, self.aim, self.going = engine, aim, engine.names_to_delete(aim.wanted)
        self.lacking = {entry.name: length_of(entry.choices[0]) for entry in entries_in(aim.wanted)
                        if engine.fitting(entry) is None}

    def check(self) -> None:
        """Raise the Fault that the run would end with."""
        self.engine.limits.check_removals(len(self.going), self.engine.folder.file_count)
        self.engine.folder.check_room(self.lacking.items)

    def lines(self, front: str = "") -> list[str]:
        """Return a line for every resource, and one for all."""
        size, is_own = sum(self.lacking.values()), self.engine.hosts is None
        fetching = f"to fetch ({size:,} bytes)" if is_own else f"to ask for ({size:,} bytes listed)"
        summary = f"{self.aim.way}: {len(self.lacking):,} {fetching}, {len(self.going):,} to remove"
        return [*(f"remove {front}{name}" for name in self.going), *(f"fetch {front}{name}" for name in self.lacking),
                f"{summary}; as of {self.aim.moment}" if is_own else summary]
