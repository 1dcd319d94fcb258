"""Tests of the program whose reads and writes fail after any byte of scripts and requests.

The scripts and the requests are worked rows. The input and output of a script (ends_of_scripts.py) are reset
connections, closed pipes and failing writes; a later run on the file continues the script. The clients of a server
(ends_of_requests.py) reset their connection after any byte of a request, leave without the response, or receive only
part of it; the server must answer the next request. line_judge.py, request_judge.py and front_model.py compute the
right outcome from docs/SCRIPT.md and docs/HTTP.md. The gate tries the ends and the middle of every line and answer.
"""
from pathlib import Path

import pytest

from tests import hunting
from tests.ends import ends_of_requests, ends_of_scripts
from tests.ends.ends_of_requests import WAYS, Serving
from tests.ends.ends_of_scripts import ROWS_OF_SCRIPTS, Runs, Script
from tests.ends.failing_ends import with_failing

pytestmark = [pytest.mark.plain, pytest.mark.needs("cc"), pytest.mark.timeout(1800)]

# The long form splits the cases of a script into this many parts.
PARTS = 12


@pytest.mark.parametrize("part", [0, *(pytest.param(part, marks=pytest.mark.long) for part in range(1, PARTS))])
@pytest.mark.parametrize("row", ROWS_OF_SCRIPTS)
def test_a_script_ends_right_where_its_ends_fail(request: pytest.FixtureRequest, program: str, room: Path, row: str,
                                                 part: int) -> None:
    script = Script(row)
    is_long = request.config.getoption("--long")
    cases = list(ends_of_scripts.cases_of(script))[part::PARTS] if is_long else ends_of_scripts.few_of(script)
    runs, found = Runs(program, str(room), with_failing(room)), []
    for case in cases:
        if wrong := ends_of_scripts.faults(case, runs.outcome(case)):
            found.append(f"{case.way} behind byte {case.at}: " + "\n  ".join(wrong))
    hunting.report(found)
    assert cases


@pytest.mark.parametrize("way", WAYS, ids=lambda way: way if isinstance(way, str) else "leaves")
@pytest.mark.parametrize("number", range(ends_of_requests.COUNT))
def test_a_request_ends_right_where_its_connection_fails(program: str, room: Path, number: int,
                                                         way: str | tuple[str, ...]) -> None:
    serving = Serving(program, str(room), with_failing(room))
    failed, found = serving.faults(serving.requests()[number], way, 1)
    hunting.report(found)
    assert failed > 0
