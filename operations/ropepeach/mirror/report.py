"""The report of a run: its summary, how the files were compared, and whether the folder is exactly as listed."""
from __future__ import annotations

import time
from collections.abc import Mapping

from ropepeach.cli import output
from ropepeach.mirror.aims import EXACT, Aim
from ropepeach.mirror.engine import Engine
from ropepeach.resync.facts import Check
from ropepeach.resync.lists import StrictRule

# The words of the checks in a summary, the strongest first.
WORDS = {Check.SHA_512: "by SHA-512", Check.SHA_256: "by SHA-256", Check.SHA_1: "by SHA-1",
         Check.MD5: "by MD5", Check.LENGTH: "by length", Check.NOTHING: "not at all"}


def describe(engine: Engine, aim: Aim) -> None:
    """Print the summary of a run, and whether the folder is exact."""
    facts: dict[str, object] = {"way": aim.way, "fetched": engine.fetched, "bytes": engine.bytes,
                                "removed": engine.removed, "moment": aim.moment}
    if engine.hosts is None:
        output.summary(line_of(engine, aim), **facts, exact=True, rule=None)
        return
    words = {check.value for check in Check}
    compared = {Check(word): count for word, count in engine.catalogue.known.compared().items() if word in words}
    faults = [StrictRule.ORDERED.value] if aim.rule is StrictRule.ORDERED else []
    faults += [f"{len(engine.missing):,} resources are gone"] if engine.missing else []
    faults += [f"{len(aim.dead):,} lists are gone"] if aim.dead else []
    sure = exactness(compared, aim.passed, aim.moment, "; ".join(faults))
    is_exact = sure.startswith(EXACT)
    rule = None if is_exact else aim.rule or (StrictRule.HELD if engine.missing else StrictRule.COMPARED)
    output.summary(f"{work_of(engine, aim)}; compared {counted(compared)}; {sure}", **facts,
                   compared={check.value: count for check, count in compared.items()}, passed=dict(aim.passed),
                   exact=is_exact, rule=None if rule is None else {"name": rule.word, "text": rule.value})


def line_of(engine: Engine, aim: Aim) -> str:
    """Return the summary of a run of a Ropepeach."""
    return f"{work_of(engine, aim)}; as of {aim.moment}"


def work_of(engine: Engine, aim: Aim) -> str:
    """Return how much a run fetched, removed and read, and how long it took."""
    seconds = max(time.monotonic() - engine.started, 0.001)
    again = f", {engine.again:,} anew" if engine.again else ""
    rate = f"{engine.bytes / 1_000_000 / seconds:.1f} MB a second"
    return (f"{aim.way}: fetched {engine.fetched:,}{again} ({engine.bytes:,} bytes, {rate}), "
            f"removed {engine.removed:,}, read {engine.aims.asked.documents:,} documents, {seconds:.1f} seconds")


def exactness(compared: Mapping[Check, int], passed: Mapping[str, int], moment: str | None, more: str = "") -> str:
    """Return that a folder is exactly as its source's lists say, with their moment, or why it is not.

    It is exact if the lists have a moment, every file was compared with a digest, no entry was skipped, and there is no
    other fault.
    """
    unsure = compared.get(Check.LENGTH, 0) + compared.get(Check.NOTHING, 0)
    reasons = [f"{unsure:,} without a digest"] if unsure else []
    reasons += [f"{count:,} {why} passed over" for why, count in sorted(passed.items()) if count]
    reasons += [] if moment else ["the Resource List has no `at`"]
    reasons += [more] if more else []
    if not reasons:
        return f"{EXACT}, as listed at {moment}"
    return f"not exact ({'; '.join(reasons)})" + (f", as listed at {moment}" if moment else "")


def counted(compared: Mapping[Check, int]) -> str:
    """Return how the files were compared: `412 by SHA-256, 3 by length, 9 not at all`."""
    return ", ".join(f"{compared[check]:,} {words}" for check, words in WORDS.items() if compared.get(check)) or "none"
