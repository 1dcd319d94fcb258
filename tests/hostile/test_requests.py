"""Tests of the program with hostile requests.

A round of requests is made from its number and the seed (made_requests.py): lawful requests, and requests with one part
at an edge, with a byte changed, cut at any byte, heads of about 8,192 bytes and 32 fields, bodies that are short, long
or followed by garbage. In a round the program serves a new file four times, with a hundred connections per run; its
clock advances, stops or goes back with every connection. A client sends a request whole, byte by byte, or in random
pieces, ends its output, and reads to the end; some clients leave at once, or reset their connection. The responses,
with their dates and moments, must equal, byte for byte, those of an independent reading of docs/HTTP.md and
docs/DOCUMENTS.md (request_judge.py, request_heads.py, front_model.py, crash_model.py). At the end of a round
disk_judge.py reads the file, which must have the state after the accepted commands.

REQUESTS=N sends at least N requests in all, SEED=N sets another seed, CASE=N sends one round by its number.
"""
from pathlib import Path

import pytest

from tests import hunting
from tests.hostile import made_requests, odd_clients
from tests.hostile.request_rounds import Round
from tests.program import Differs
from tests.served_source import Ended, with_clock

pytestmark = [pytest.mark.plain, pytest.mark.needs("cc"), pytest.mark.timeout(7200)]

SEED, REQUESTS, SHORT, PARTS = 20261125, 100_000, 1_600, 4


@pytest.mark.parametrize("part", range(PARTS))
def test_any_requests_are_answered_by_the_rules(request: pytest.FixtureRequest, program: str, room: Path,
                                                part: int) -> None:
    seed, count, found = hunting.seed(SEED), hunting.number(request.config, "REQUESTS", SHORT, REQUESTS), list[str]()
    environment, lost, total = with_clock(room), 0, 0
    for number in hunting.cases(-(-count // made_requests.REQUESTS_IN), part, PARTS):
        trial = Round(program, environment, str(room), seed, number)
        try:
            trial.look()
        except (Differs, Ended) as fault:
            found.append(f"round {number} of seed {seed}: {fault}")
        lost, total = lost + trial.counts.pop("lost", 0), total + trial.counts.total()
    hunting.report(found)
    assert lost <= max(total // 1_000, 1), f"{lost} of {total} responses were cut by a reset"


def test_a_client_that_leaves_disturbs_no_other(request: pytest.FixtureRequest, program: str, room: Path) -> None:
    """A server at the system's clock answers plain requests while other clients leave, stay silent or reset."""
    odd_clients.look(program, room, 12 if request.config.getoption("--long") else 2)
