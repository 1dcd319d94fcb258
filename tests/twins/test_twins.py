"""Tests of the proved program and the plain one (rust/README.md): equal input gives equal results.

The output, the exit status, and the file afterwards must be equal to the byte. Scripts, disks and requests come from
tests/hostile, by number and seed: a program should never meet most of them. A case is a line of a script, a disk, a
request or a command line.

CASES=N tries at least N cases in all, SEED=N sets another seed, CASE=N runs one turn of all kinds by its number.
"""
from pathlib import Path

import pytest

from tests import hunting
from tests.served_source import Ended, with_clock
from tests.twins.twin_runs import SEED, Differ, Twins, disks, requests, script, words

pytestmark = [pytest.mark.needs("cc"), pytest.mark.timeout(7200)]

CASES, SHORT = 1_000_000, 10_000
# The kinds of one turn.
TURN = [script, script, disks, script, script, requests, script, script, disks, script, script, words, script, script,
        disks]


@hunting.in_parts
def test_both_programs_do_the_same(request: pytest.FixtureRequest, program: str, plain_program: str, room: Path,
                                   part: int) -> None:
    twins, seed = Twins((program, plain_program), room, with_clock(room)), hunting.seed(SEED)
    share = -(-hunting.number(request.config, "CASES", SHORT, CASES) // hunting.PARTS)
    count, found = 0, []
    for turn in hunting.numbers(part):
        for at, kind in enumerate(TURN):
            number = turn * TURN.count(kind) + TURN[:at].count(kind)
            try:
                count += kind(twins, seed, number)
            except (Differ, Ended) as fault:
                found.append(f"turn {turn} of seed {seed}, {kind.__name__} {number}: {fault}")
        if count >= share:
            break
    hunting.report(found)
