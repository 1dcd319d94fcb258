"""Seeds of random tests: one test per seed, so the id of a failed test replays it."""
from __future__ import annotations

import datetime
import os
import re

import pytest

# The seed of a bounded run.
SEED = 20261129


def give_seeds(metafunc: pytest.Metafunc, setting: str, count: int, deep: int) -> None:
    """Give a test its seeds, if it has the argument `seed`.

    Ids on the command line name theirs. SETTING=N in the environment draws N, --long draws as many as `deep` says, both
    from the seed that SEED has, or from the date. Otherwise a test has `count` seeds, always the same.
    """
    if "seed" not in metafunc.fixturenames:
        return
    name = re.escape(metafunc.function.__name__)
    seeds = re.findall(rf"::{name}\[(\d+-\d+)\]", " ".join(metafunc.config.args))
    wanted, is_long = os.environ.get(setting), metafunc.config.getoption("--long")
    seed = os.environ.get("SEED") or (f"{datetime.date.today():%Y%m%d}" if wanted or is_long else SEED)
    total = int(wanted or (deep if is_long else count))
    metafunc.parametrize("seed", seeds or [f"{seed}-{number}" for number in range(total)])
