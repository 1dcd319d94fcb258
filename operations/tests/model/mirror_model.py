"""Check a run of the mirror by the history of its source (operations/docs/DESTINATIONS.md).

- A run with status 0 reports a moment: the folder equals the source after all changes up to it, and the mirror
  remembers the moment. It includes all changes before the run began, unless a response was older.
- Any other run keeps the remembered moment, or forgets it before a baseline. Every file is complete, with bytes that
  its name once had; files without a change since that moment have the bytes of then.
- No run removes more old files than allowed.
- If nothing changes and all responses are correct, a run succeeds. It requests exactly the missing files, and reports
  them.
"""
from __future__ import annotations

import pathlib
from typing import NamedTuple

from operations.tests.model.histories import History, laid_out
from operations.tests.model.runs import Ended, number_behind
from operations.tests.model.weather import Weather
from tests.reading import crash_model


class Before(NamedTuple):
    """A mirror before a run: its files, the moment that it remembers, the number of changes of its source, and whether
    the folder exists.
    """

    files: dict[str, bytes]
    remembered: str | None
    changes: int
    is_there: bool


def files_of(folder: pathlib.Path) -> dict[str, bytes]:
    """Return the files of a mirror without the mirror's own."""
    found = {str(path.relative_to(folder)): path for path in folder.rglob("*") if path.is_file()}
    return {name: path.read_bytes() for name, path in found.items() if not name.startswith("#")}


def names_of(files: dict[str, bytes]) -> set[str]:
    """Return the names of the resources with these files."""
    return {path.removesuffix("#") for path in files}


class Expected:
    """The facts before a run, and the faults after it."""

    def __init__(self, history: History, before: Before, options: list[str], weather: Weather) -> None:
        self.history, self.before, self.options, self.weather = history, before, options, weather
        state = history.state
        remembered = before.remembered or ""
        self.is_incremental = "--baseline" not in options and text(state.begin) <= remembered
        self.since = remembered if self.is_incremental else text(state.at)
        later = [when for when, _, _ in history.changes if when > self.since]
        self.until = later[-1] if later else self.since

    def must_end_well(self) -> bool:
        """Return whether the run must succeed."""
        if "--incremental" in self.options and self.before.remembered is None:
            return False
        may_go = self.lost(laid_out(self.history.resources_at())) <= self.may_lose()
        return self.weather.name == "calm" and may_go

    def lost(self, after: dict[str, bytes]) -> int:
        """Return the number of resources that are gone."""
        return len(names_of(self.before.files) - names_of(after))

    def may_lose(self) -> int:
        """Return the number of resources that the run may remove."""
        count = len(names_of(self.before.files))
        if "--max-delete" in self.options:
            return int(self.options[self.options.index("--max-delete") + 1])
        return count if "--yes" in self.options else count // 2


def text(moment: int) -> str:
    """Return a moment in the form of documents."""
    return str(crash_model.moment_text(moment))


def fault_of(expected: Expected, ended: Ended, after: Before, requests: list[str]) -> str:
    """Return the fault of the folder after a run, or ""."""
    if expected.lost(after.files) > expected.may_lose():
        return f"{expected.lost(after.files)} resources are gone, and {expected.may_lose()} may be"
    if ended.status == 0:
        return fault_at_end(expected, ended, after) or fault_in_calm(expected, ended, requests)
    if expected.must_end_well():
        return f"status {ended.status} where all answers were right"
    return fault_amid(expected, after)


def fault_at_end(expected: Expected, ended: Ended, after: Before) -> str:
    """Return the fault of a run with status 0."""
    moment, history = ended.output.split()[-1], expected.history
    if "--incremental" in expected.options and expected.before.remembered is None:
        return "it began with a baseline"
    if after.remembered != moment:
        return f"it told {moment}, and remembers {after.remembered}"
    wanted = laid_out(history.resources_at(moment))
    paths = wanted.keys() | after.files.keys()
    differing = sorted(path for path in paths if wanted.get(path) != after.files.get(path))
    if differing:
        return f"as of {moment} these differ: {differing}"
    count = sum(when <= moment for when, _, _ in history.changes)
    if count < expected.before.changes and not expected.weather.has_lied:
        return f"it has {count} changes, and {expected.before.changes} stood when it began"
    return ""


def fault_amid(expected: Expected, after: Before) -> str:
    """Return the fault of a failed or killed run."""
    history, remembered = expected.history, after.remembered
    if remembered not in (expected.before.remembered, None):
        return f"it remembers {remembered}, which was {expected.before.remembered} before"
    known = {(name, body) for _, name, body in history.changes}
    changed = [(path, body) for path, body in after.files.items() if expected.before.files.get(path) != body]
    foreign = [path for path, body in changed if (path.removesuffix("#"), body) not in known]
    if foreign:
        return f"these have bytes that no put made: {foreign}"
    if remembered is not None and expected.before.files.keys() >= laid_out(history.resources_at(remembered)).keys():
        then = history.resources_at(remembered)
        found = {path.removesuffix("#"): body for path, body in after.files.items()}
        still = then.keys() - {name for when, name, _ in history.changes if when > remembered}
        differing = sorted(name for name in still if found.get(name) != then[name])
        if differing:
            return f"as of {remembered}, which is remembered, these differ: {differing}"
    return ""


def fault_in_calm(expected: Expected, ended: Ended, requests: list[str]) -> str:
    """Return the fault of a run whose source did not change and answered correctly."""
    if expected.weather.name != "calm" or expected.weather.has_lied:
        return ""
    history, before = expected.history, expected.before.files
    found = {path.removesuffix("#"): body for path, body in before.items()}
    wanted = history.resources_at()
    if expected.is_incremental:
        later = {name for when, name, _ in history.changes if when > expected.since}
        wanted = {name: body for name, body in wanted.items() if name in later}
    lacking = sorted(name for name, body in wanted.items() if found.get(name) != body)
    fetched = sorted(path.removeprefix("/resource/") for path in requests if path.startswith("/resource/"))
    gone = len(found.keys() - history.resources_at().keys())
    counted = (number_behind(word, ended.output) for word in ("fetched", "removed"))
    counts = (ended.output.split(":")[0], ended.output.split()[-1], *counted)
    counts_wanted = ("incremental" if expected.is_incremental else "baseline", expected.until, len(lacking), gone)
    if counts != counts_wanted:
        return f"it told {counts}, and the model has {counts_wanted}"
    if fetched != lacking:
        return f"it asked for {fetched}, and lacked {lacking}"
    parts = sorted(path for path in requests if path.startswith("/changelist/"))
    later_parts = parts_after(history, expected.since)
    return "" if parts == later_parts else f"it asked for {parts}, and not for {later_parts}"


def parts_after(history: History, moment: str) -> list[str]:
    """Return the parts of the Change List that may have changes after a moment. A full part ends at its last change."""
    state = history.state
    parts = crash_model.chunks(state.changes, state.limit)
    if len(parts) <= 1:
        return []
    is_later = [len(part) < state.limit or text(part[-1].moment) > moment for part in parts]
    return sorted(f"/changelist/{number}.xml" for number, later in enumerate(is_later, state.first) if later)
