"""Measure resources per second that a source takes and gives, alone and in parallel with others. The rate should be
constant until the processors are used up.

The processors of a machine may run at half speed for minutes. So the test compares seconds per processor second of the
source's own work. The processors are used up when all sources, at the rate of a single source, would need more of them
than the machine has.
"""
from __future__ import annotations

import collections
import contextlib
import os
import pathlib
import re
import statistics
import tempfile

from operations.tests.collection.host import SETTINGS, Host
from operations.tests.collection.measuring import Meter
from operations.tests.tools.running import written

# Numbers of parallel sources; resources per source; bytes per resource.
BESIDE, RESOURCES, BODY = (1, 2, 3, 4), 20_000, 1_024
# Repetitions per number of sources, interleaved; the report has the median.
TRIALS = 3
# The seconds per source that a mirror prints, without waits for lists that nginx may cache.
OWN = re.compile(r"([0-9.]+) seconds; as of")


def measured(program: str, count: int) -> dict[str, tuple[float, float]]:
    """Return the seconds per source of parallel fills and mirrors, and the processor seconds of a source's own work."""
    files = {f"{number % 50}/{number}.txt": b"%07d\n" % number * (BODY // 8) for number in range(count * RESOURCES)}
    folder, found = written("folder", files), dict[str, tuple[float, float]]()
    with Host(program, pathlib.Path.cwd(), [f"s{number}" for number in range(1, count + 1)], size=64 << 20,
              limit=1_000) as host:
        meter = Meter("rates", ".", host)
        for what, *words in (["fill", str(folder), SETTINGS], ["mirror", host.address, "mirror"]):
            used = sum(meter.used())
            with meter.part(f"{what}, {count} side by side", count * RESOURCES) as lasted:
                output = host.well(what, *words)
            seconds = statistics.median([float(text) for text in OWN.findall(output)] or [lasted()])
            found[what] = seconds, (sum(meter.used()) - used) / count
    return found


def tell_rates(program: str) -> None:
    """Measure and print the rate of a source among every number of sources, and alone."""
    found = collections.defaultdict[tuple[str, int], list[tuple[float, float]]](list)
    for count in BESIDE * TRIALS:
        with tempfile.TemporaryDirectory(dir=".") as room, contextlib.chdir(room):
            for what, seconds in measured(program, count).items():
                found[what, count].append(seconds)
    for (what, count), trials in sorted(found.items()):
        slowness, alone = (statistics.median(seconds / own for seconds, own in those)
                           for those in (trials, found[what, 1]))
        rate = RESOURCES / statistics.median(seconds for seconds, _ in trials)
        used_up = "; the processors are used up" if count / alone > (os.cpu_count() or 1) else ""
        print(f"rates: {what}: {count} side by side: {rate:,.0f} resources a second each; "
              f"{slowness:.2f} s for a second of a processor, "
              f"{alone / slowness:.2f} of the rate of one alone{used_up}", flush=True)
