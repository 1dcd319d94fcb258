"""Tests of the program on hostile scripts.

A script is made from its number and the seed (made_scripts.py): lawful lines, and lines with a field at an edge, with a
byte changed, cut, doubled, changed at random, or far too long. `rs_source mem` runs it once, from a pipe: whole, byte
by byte, or in random pieces, one per read. The output must equal, byte for byte, that of an independent reading of
docs/SCRIPT.md and docs/DOCUMENTS.md (line_judge.py, front_model.py, crash_model.py), with status 0 and no message.

LINES=N tries at least N lines in all, SEED=N sets another seed, CASE=N tries one script by its number. A failure names
files with the bytes of the scripts.
"""
from pathlib import Path

import pytest

from tests import hunting
from tests.hostile import made_scripts
from tests.hostile.script_runs import faults, run, wanted_of

pytestmark = [pytest.mark.plain, pytest.mark.timeout(7200)]

SEED, LINES, SHORT = 20261125, 100_000, 2_000


@hunting.in_parts
def test_a_script_of_any_bytes_is_answered_by_the_rules(request: pytest.FixtureRequest, program: str, room: Path,
                                                        tmp_path: Path, part: int) -> None:
    seed, found, total = hunting.seed(SEED), list[str](), 0
    share = -(-hunting.number(request.config, "LINES", SHORT, LINES) // hunting.PARTS)
    for number in hunting.numbers(part):
        made = made_scripts.script_of(seed, number)
        lines, answers = wanted_of(made)
        if wrong := faults(lines, answers, run(program, str(room), made)):
            kept = tmp_path / f"{number}.script"
            kept.write_bytes(made.data)
            words = f"mem {made.size} {made.base} {made.limit}, {kept}"
            found.append(f"script {number} of seed {seed}, {made.what}: {words}\n  " + "\n  ".join(wrong))
        if (total := total + len(lines)) >= share:
            break
    hunting.report(found)
