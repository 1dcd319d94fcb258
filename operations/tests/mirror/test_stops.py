"""Stop mirrors at every call that changes their folder, and complete them by the next run.

`kill -9` seldom hits the calls that move files and folders. So these tests count the calls of mirror/folder.py and
mirror/tree.py that change a folder, and end a run at all of them in turn.
"""
from __future__ import annotations

import contextlib
import hashlib
import itertools
import math
import os
import pathlib
import random
import shutil
from collections.abc import Callable, Iterator, Mapping
from typing import Any
from unittest import mock

import pytest

from operations.tests.mirror.mirrors import files_of, laid_out
from ropepeach.mirror import folder as mirror_folder, tree
from ropepeach.resync.facts import exact_facts
from tests.seeds import give_seeds

# Histories, and histories of a deep run.
HISTORIES, DEEP = 15, 1_000
# Any moment.
MOMENT = "2000-02-29T00:00:00.000Z"
CALLS = {"replace", "mkdir", "rmdir", "remove"}
NAMES = ["a", "a/b", "a/b/c", "a/d", "b", "b/b"]


class Stop(BaseException):
    """The end of a run at a system call."""


class Stopping:
    """System calls, of which the first N succeed."""

    def __init__(self, count: float) -> None:
        self.remaining = count

    def __getattr__(self, name: str) -> Any:
        return self.call(name) if name in CALLS else getattr(os, name)

    def call(self, name: str) -> Callable[..., Any]:
        """Return a system call that counts, and ends the run at its number."""
        def counted(*words: Any, **settings: Any) -> Any:
            if self.remaining == 0:
                raise Stop
            self.remaining -= 1
            return getattr(os, name)(*words, **settings)

        return counted


@contextlib.contextmanager
def opened(path: pathlib.Path, calls: float) -> Iterator[mirror_folder.Folder]:
    """Open a folder, and limit the number of its later calls."""
    folder = mirror_folder.Folder(str(path))
    folder.claim("source", False)
    folder.begin()
    stopping = Stopping(calls)
    try:
        with mock.patch.object(mirror_folder, "os", stopping), mock.patch.object(tree, "os", stopping):
            yield folder
    finally:
        folder.close()


def bring(folder: mirror_folder.Folder, wanted: Mapping[str, bytes | None]) -> None:
    """Remove and write files, as a run does."""
    for name in [name for name, body in wanted.items() if body is None]:
        folder.remove(name)
    for name, body in wanted.items():
        if body is not None:
            facts = exact_facts({"length": str(len(body)), "hash": f"sha-256:{hashlib.sha256(body).hexdigest()}"})
            assert facts
            if not folder.has(name, facts):
                path, number = folder.incoming_file()
                with open(number, "wb") as file:
                    file.write(body)
                folder.take(path, name, len(body))
    folder.place_all()
    assert folder.state
    folder.remember(folder.state._replace(until=MOMENT, newest=MOMENT))


def at_random(rng: random.Random, number: int) -> dict[str, bytes | None]:
    """Return random names, each with unique bytes or None."""
    names = rng.sample(NAMES, rng.randrange(len(NAMES) + 1))
    return {name: None if rng.random() < 0.5 else f"{number} {name}".encode() for name in names}


def is_stopped(path: pathlib.Path, calls: int, wanted: Mapping[str, bytes | None]) -> bool:
    """Return whether a run with this many calls is stopped."""
    with contextlib.suppress(Stop), opened(path, calls) as folder:
        bring(folder, wanted)
        return False
    return True


def go_on(path: pathlib.Path, later: Mapping[str, bytes | None], resources: Mapping[str, bytes],
          is_baseline: bool) -> None:
    """Run to the end: an increment, which gets the changes, or a baseline, which gets the resources."""
    with opened(path, math.inf) as folder:
        known: dict[str, bytes | None] = dict.fromkeys(folder.names())
        bring(folder, known | dict(resources) if is_baseline else later)


def pytest_generate_tests(metafunc: pytest.Metafunc) -> None:
    """Draw histories."""
    give_seeds(metafunc, "HISTORIES", HISTORIES, DEEP)


def test_a_run_completes_a_folder_that_was_stopped_at_any_call(room: pathlib.Path, seed: str) -> None:
    """The first run stops at every call in turn; the next run has more changes, and ends with the right files."""
    rng, first, path = random.Random(seed), room / "first", room / "stopped"
    before: dict[str, bytes | None] = {name: name.encode() for name in at_random(rng, 1)}
    changes, more = at_random(rng, 2), at_random(rng, 3)
    resources = {name: body for name, body in (before | changes | more).items() if body is not None}
    with opened(first, math.inf) as folder:
        bring(folder, before)
    for calls in itertools.count():
        shutil.copytree(first, path)
        was_stopped = is_stopped(path, calls, changes)
        go_on(path, changes | more, resources, rng.random() < 0.5)
        assert files_of(path) == laid_out(resources), f"{before}, then {changes} up to call {calls}, then {more}"
        shutil.rmtree(path)
        if not was_stopped:
            break
