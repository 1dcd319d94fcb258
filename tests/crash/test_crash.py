"""Tests of the program after a crash at any of its calls on a file.

No proof covers this test: it runs the built program. It records the calls by which sessions of commands change a file
(recorded_calls.py), makes images of a crash within and after every call (crash_images.py), and runs the program on
them. The counts, documents and bodies must equal those of a plain model (crash_model.py) after some number of commands:
at least the commands answered before the crash, and at most the begun ones. A destination (crash_lists.py) reads the
Resource List and later changes, and must get the resources with their lengths, digests and types. Further commands
continue some images, and crash again.
"""
import random
from dataclasses import dataclass
from pathlib import Path

import pytest

from tests import hunting
from tests.crash import crash_wrong
from tests.crash.crash_sessions import Crashes, Session
from tests.reading.crash_model import State
from tests.rows.reader import ROWS

pytestmark = [pytest.mark.plain, pytest.mark.needs("cc"), pytest.mark.timeout(3600)]

SEED = 20261124
BASE = "http://127.0.0.1:8080"
# The worked rows whose commands form the first session.
SHORT_ROWS = ["each_command", "blocks_taken_again"]
LONG_ROWS = [*SHORT_ROWS, "three_changes", "splitting_changes", "put_again_after_delete"]
LONG_ROWS += ["closed_parts", "special_characters", "published_empty", "splitting_resources"]
LONG_ROWS += ["listed_until_next_publication", "fewer_parts_later"]


@dataclass(frozen=True)
class Plan:
    """The rows of the first session, the commands of later sessions, and the images per moment (crash_images)."""

    rows: list[str]
    commands: int
    rounds: int
    picks: int


SHORT = Plan(SHORT_ROWS, 6, 0, 4)
LONG = Plan(LONG_ROWS, 20, 3, 0)
# The first session continues in this many ways, with two more sessions in each; the gate tries the first two.
WAYS = [0, 1, *(pytest.param(way, marks=pytest.mark.long) for way in (2, 3))]
NAMES = ["a", "b/c", "x&y", "o'k", "page", "~u_v-w.x"]
TYPES = ["text/plain", 'text/html; charset="utf-8"', "application/octet-stream"]
LENGTHS = [0, 1, 3, 40, 511, 512, 513, 1500]


def lines_of_rows(rows: list[str]) -> list[str]:
    """Return the commands of worked rows, without `show`."""
    texts = [(ROWS / f"{row}.in").read_text() for row in rows]
    lines = [line for text in texts for line in text.splitlines()]
    return [line for line in lines if line.split(" ")[0] in ("at", "put", "delete", "publish")]


def change_at_random(rng: random.Random) -> str:
    """Return a random put or delete of one of a few names."""
    name, length = rng.choice(NAMES), rng.choice(LENGTHS)
    body = bytes(rng.randrange(256) for _ in range(length)).hex() or "-"
    return f"put {name} {body} {rng.choice(TYPES)}" if rng.random() < 0.7 else f"delete {name}"


def lines_at_random(rng: random.Random, count: int) -> list[str]:
    """Return random commands: changes, publications and groups of changes."""
    lines = [f"at {951_782_400_000 + rng.randrange(10**9)}"]
    for _ in range(count):
        choice, changes = rng.random(), [change_at_random(rng) for _ in range(rng.choice((1, 2, 3)))]
        group = "\n".join([f"group {len(changes)}", *changes])
        lines.append(changes[0] if choice < 0.75 else "publish" if choice < 0.88 else group)
    return lines


@pytest.fixture
def plan(request: pytest.FixtureRequest) -> Plan:
    """Return the plan of the gate or of the long form."""
    return LONG if request.config.getoption("--long") else SHORT


@pytest.fixture
def crashes(request: pytest.FixtureRequest, program: str, room: Path) -> Crashes:
    """Return a runner with a fixed seed; the long form draws the seed."""
    seed = hunting.seed(random.randrange(10**9) if request.config.getoption("--long") else SEED)
    print(f"SEED={seed}")
    return Crashes(program, room, random.Random(f"{seed} {request.node.name}"))


def first_session(crashes: Crashes, plan: Plan) -> Session:
    """Return the session of the worked rows."""
    state = State(BASE, 2)
    return crashes.session(crashes.formatted(65_536, state), state, lines_of_rows(plan.rows))


@pytest.mark.parametrize("way", WAYS)
def test_a_crash_leaves_the_state_after_a_prefix_of_the_commands(crashes: Crashes, plan: Plan, way: int) -> None:
    """Images of the first session, continued twice, open to the state after a prefix of the commands."""
    session = first_session(crashes, plan)
    for number in range(3):
        images = crashes.look(session, plan, 1 if number < 2 else 0)
        hunting.report(crashes.faults)
        if images:
            image, state = images[0]
            session = crashes.session(image, state, lines_at_random(crashes.rng, plan.commands))
    assert crashes.sessions >= 3


def test_a_crash_leaves_a_state_of_several_pages(crashes: Crashes, plan: Plan) -> None:
    crashes.look(crashes.paged(BASE), plan, 0)
    hunting.report(crashes.faults)


def test_a_crash_leaves_a_state_of_a_disk_of_version_1(crashes: Crashes, plan: Plan) -> None:
    crashes.look(crashes.of_version_1(), plan, 0)
    hunting.report(crashes.faults)


@pytest.mark.parametrize("change", crash_wrong.WRONG)
def test_the_judge_rejects_the_recording_of_a_wrong_program(crashes: Crashes, change: crash_wrong.Change) -> None:
    session = first_session(crashes, SHORT)
    assert not crashes.passes(session, change)
