"""Random histories of a source, and of runs against it: after a calm run the folder equals the source.

A source puts, deletes, announces and publishes, also during a run. Runs have random options, are killed, and
meet damaged files and notes. Invariants:

  - a file of the mirror has bytes that its resource had at some moment;
  - a run during which the source is calm ends with status 0, and leaves exactly the resources that match its
    patterns;
  - a reader of all lines of --on-change knows exactly the files of the folder, also after kills;
  - `--dry-run` has the exit status of the run, and names the files that the run removes and changes;
  - `check` names a damaged file, and no other one.

`--hypothesis-seed=N` replays the histories of a seed.
"""
from __future__ import annotations

import dataclasses
import fnmatch
import hashlib
import json
import os
import pathlib
import shutil
import signal
import tempfile
from collections.abc import Callable, Iterator, Sequence

import pytest
from hypothesis import HealthCheck, note, settings
from hypothesis import strategies as st
from hypothesis.stateful import RuleBasedStateMachine, initialize, precondition, rule, run_state_machine_as_test

from operations.tests.harness.command import ANY_SOURCE, FOLDER, Result
from operations.tests.harness.folder import files_in
from operations.tests.harness.history import History, Kind, laid_out
from operations.tests.harness.server import Server
from operations.tests.harness.source import Style
from operations.tests.harness.warm import Warm, warm

# Known faults of the mirror of other software, which histories avoid; tests that are expected to fail have them:
# FORGETS a deletion by a killed run (test_kills.py), MIXES parts of two Change Lists (test_changing_lists.py). No
# history updates a resource twice in a moment (test_change_lists.py), or loses notes of changes (test_on_change.py).
FORGETS = MIXES = True
NAMES = ["a", "a/b", "a/b/c", "b", "c", "n/1", "n/2", "x%20y"]
# Some have equal lengths, so that only a digest distinguishes them.
BODIES = [b"one", b"two", b"six", b"", b"a longer body"]
# Options and their rules: a pattern of the last segment or of a folder, and whether it includes.
PATTERNS: dict[tuple[str, ...], list[tuple[str, bool]]] = {
    (): [],
    ("--exclude", "b"): [("b", False)],
    ("--include", "b"): [("b", True)],
    ("--exclude", "n/"): [("n/", False)],
    ("--include", "b", "--exclude", "?"): [("b", True), ("?", False)],
    ("--exclude", "?", "--include", "b"): [("?", False), ("b", True)],
}
CHANGES = st.lists(st.tuples(st.integers(0, 1), st.sampled_from(NAMES), st.sampled_from([*BODIES, None])), min_size=1,
                   max_size=4)
Changes = list[tuple[int, str, bytes | None]]
DIGESTS = st.sampled_from([("sha-256",), ("md5", "sha-512"), ()])
PARTS = st.sampled_from([0, 0, 2])


def lets_in(rules: Sequence[tuple[str, bool]], place: str) -> bool:
    """Return whether patterns include a path and all folders above it."""
    *above, last = place.split("/")
    for segment, is_folder in [*((segment, True) for segment in above), (last, False)]:
        for pattern, is_in in rules:
            if (is_folder or not pattern.endswith("/")) and fnmatch.fnmatchcase(segment, pattern.rstrip("/")):
                if not is_in:
                    return False
                break
    return True


def sets_of(*styles: Style) -> tuple[Style, ...]:
    """Return styles with separate lists and resources."""
    return tuple(dataclasses.replace(style, lists=f"/rs{number}/", resources=f"/data{number}/")
                 for number, style in enumerate(styles))


STYLE_WITH_CHANGES = st.builds(Style, digests=DIGESTS, has_length=st.booleans(), is_dated=st.booleans(), part=PARTS,
                               change_part=PARTS)
STYLE_WITHOUT = st.builds(Style, digests=DIGESTS, has_length=st.booleans(), is_dated=st.booleans(), part=PARTS,
                          has_at=st.booleans(), has_changes=st.just(False))


def one_set(style: Style, has_tags: bool, is_sitemap: bool = False) -> Kind:
    """Return a kind of source with one set."""
    return Kind(sets_of(style), is_sitemap=is_sitemap, has_tags=has_tags)


def two_sets(one: Style, other: Style, has_tags: bool) -> Kind:
    """Return a kind of source with two sets."""
    return Kind(sets_of(one, other), has_tags=has_tags)


KINDS = {
    "a source of this project": st.just(Kind((Style("/", "/resource/", ("md5", "sha-256")),), is_own=True)),
    "one set with changes": st.builds(one_set, STYLE_WITH_CHANGES, st.booleans()),
    "two sets": st.builds(two_sets, STYLE_WITH_CHANGES, STYLE_WITH_CHANGES, st.booleans()),
    "a set without changes": st.builds(one_set, STYLE_WITHOUT, st.booleans(), st.booleans()),
}


class Machine(RuleBasedStateMachine):
    """A source, a folder, and the events that change them."""

    server: Server
    process: Warm
    kinds: st.SearchStrategy[Kind]

    def __init__(self) -> None:
        super().__init__()
        self.room = pathlib.Path(tempfile.mkdtemp(prefix="history-", dir=MEMORY))
        self.folder, self.lines = self.room / FOLDER, self.room / "lines"
        # Whether the last run succeeded, and its notes of the folder are whole.
        self.is_known = False
        self.patterns: tuple[str, ...] = ()
        # The files that a killed run removed, while FORGETS.
        self.forgotten: set[str] = set()

    @initialize(data=st.data(), changes=CHANGES, is_reported=st.booleans())
    def begin(self, data: st.DataObject, changes: Changes, is_reported: bool) -> None:
        """Draw the kind of source, its first resources, and whether the runs have --on-change."""
        self.kind = data.draw(self.kinds)
        self.history, self.is_reported = History(self.server, self.kind), is_reported
        self.history.do(changes, is_published=False)

    def teardown(self) -> None:
        """Remove the folder."""
        shutil.rmtree(self.room)

    # The source changes.

    @rule(number=st.integers(0, 1), name=st.sampled_from(NAMES), body=st.sampled_from(BODIES),
          seconds=st.sampled_from([0, 0, 1, 100]))
    def put(self, number: int, name: str, body: bytes, seconds: int) -> None:
        """Put a resource."""
        self.history.put(number, name, body, seconds)

    @rule(number=st.integers(0, 1), position=st.integers(0, 9), seconds=st.sampled_from([0, 0, 1, 100]))
    def delete(self, number: int, position: int, seconds: int) -> None:
        """Delete a resource."""
        self.history.delete(number, position, seconds)

    @rule(keeps=st.booleans())
    def publish(self, keeps: bool) -> None:
        """Write new Resource Lists; the Change Lists begin there, or keep their changes."""
        self.history.publish(keeps)

    # Runs.

    def run(self, *words: object, command: str = "mirror") -> Result:
        """Run the command on the folder."""
        return self.process.run(self.room, command, *words)

    def words(self, *options: object, is_failing: bool = False) -> list[object]:
        """Return the arguments of a run of the mirror, with the present patterns."""
        reports = "exit 7" if is_failing else f"cat >> '{self.lines}'"
        return [*(() if self.kind.is_own else ANY_SOURCE), self.history.url, FOLDER, *self.patterns, *options,
                *(("--on-change", reports) if self.is_reported else ())]

    def expected(self, state: dict[str, bytes]) -> dict[str, bytes]:
        """Return the resources that the patterns include, by place."""
        places = {self.history.place(address): body for address, body in state.items()}
        return {place: body for place, body in places.items() if lets_in(PATTERNS[self.patterns], place)}

    def check_calm(self, result: Result, is_failing: bool = False) -> None:
        """Assert the invariants of a run with --yes and a calm source."""
        expected = self.expected(self.history.state())
        assert "Traceback" not in result.errors, result.errors
        assert result.status == 0 or (is_failing and result.status == 1), f"{result.output}{result.errors}"
        assert files_in(self.folder) == laid_out(expected), f"{result.output}{result.errors}"
        self.is_known = self.is_known or result.output.startswith("baseline") or not self.kind.is_own
        if self.is_reported and not is_failing:
            wanted = {place: hashlib.sha256(body).hexdigest() for place, body in expected.items()}
            found = {place: digest for place, digest in self.followed().items()
                     if place in wanted or place not in self.forgotten}
            assert found == wanted, f"{result.output}{result.errors}"

    def followed(self) -> dict[str, str]:
        """Return SHA-256 by place, as in the lines of --on-change."""
        known: dict[str, str] = {}
        for line in map(json.loads, self.lines.read_text().splitlines() if self.lines.exists() else ()):
            if line["change"] == "deleted":
                known.pop(line["name"], None)
            else:
                known[line["name"]] = line["sha256"]
        return known

    def check_whole(self, result: Result) -> None:
        """Assert the invariants of any run: no traceback, and no bytes that a resource never had."""
        assert "Traceback" not in result.errors, result.errors
        ever = self.history.ever()
        for path, body in files_in(self.folder).items() if self.folder.exists() else ():
            assert (path.removesuffix("#"), body) in ever, f"{path} has {body!r}"

    @rule(patterns=st.sampled_from([(), (), *PATTERNS]), is_baseline=st.booleans(),
          connections=st.sampled_from([1, 1, 1, 1, 3]), is_failing=st.sampled_from([False, False, True]))
    def mirror(self, patterns: tuple[str, ...], is_baseline: bool, connections: int, is_failing: bool) -> None:
        """Mirror while the source is calm."""
        self.history.announce()
        self.patterns = patterns
        options = [*(["--baseline"] if is_baseline else []), "--connections", connections, "--yes"]
        result = self.run(*self.words(*options, is_failing=is_failing))
        self.check_calm(result, is_failing and self.is_reported)

    @rule(patterns=st.sampled_from([(), *PATTERNS]), is_sure=st.booleans())
    def mirror_after_a_dry_run(self, patterns: tuple[str, ...], is_sure: bool) -> None:
        """Compare a run with its --dry-run."""
        self.history.announce()
        self.patterns = patterns
        words = self.words("--yes" if is_sure else "--max-delete", *([] if is_sure else [1]))
        before = files_in(self.folder)
        self.server.requests.clear()
        dry = self.run(*words, "--dry-run")
        assert files_in(self.folder) == before
        assert not [path for path in self.server.paths() if path.startswith(self.kind.resources)]
        result = self.run(*words)
        assert dry.status == result.status, f"{dry}\n{result}"
        after = files_in(self.folder)
        if result.status:
            assert not is_sure, f"{result.output}{result.errors}"
            assert after == before
            # (the folder has the earlier patterns)
            self.is_known = False
            return
        self.check_calm(result)
        named = [line.partition(" ")[::2] for line in dry.output.splitlines()[:-1]]
        names = {path.removesuffix("#"): body for path, body in before.items()}
        later = {path.removesuffix("#"): body for path, body in after.items()}
        removed, fetched = ({place for word, place in named if word == wanted} for wanted in ("remove", "fetch"))
        # (a resource that was made and deleted in one moment is requested, and may be gone)
        assert removed <= set(names) - set(later) <= removed | fetched
        assert {place for place, body in later.items() if names.get(place) != body} <= fetched

    @rule(is_announced=st.booleans())
    def mirror_early(self, is_announced: bool) -> None:
        """Mirror while the lists may lack changes that the source already serves."""
        if is_announced:
            self.history.announce()
        self.check_whole(self.run(*self.words("--yes")))
        self.is_known = False

    @rule(changes=CHANGES, hasty=st.one_of(st.just([]), CHANGES), at=st.integers(1, 6), is_late=st.booleans(),
          is_published=st.booleans(), is_baseline=st.booleans())
    def mirror_amid_changes(self, changes: Changes, hasty: Changes, at: int, is_late: bool, is_published: bool,
                            is_baseline: bool) -> None:
        """The source and its lists change before a request (`is_late`: of a resource); `hasty` changes are unlisted."""
        self.history.announce()
        is_published = is_published and not (MIXES and self.kind.has_change_parts)
        count = len(self.history.announced)
        prefix = self.kind.resources if is_late else "/"
        self.server.at_request(at, lambda: self.history.do(changes, is_published, hasty), prefix)
        result = self.run(*self.words("--yes", *(["--baseline"] if is_baseline else [])))
        self.server.actions.clear()
        self.check_whole(result)
        states = [laid_out(self.expected(state)) for state in self.history.announced[count - 1:]]
        if result.status == 0 and self.kind.is_whole:
            assert files_in(self.folder) in states, f"{result.output}{result.errors}"
        self.is_known = False

    def kill(self, at: int, *options: object) -> Result:
        """Run, and kill the run before its request `at` is answered, if it makes that many."""

        def started(number: int) -> None:
            """Kill the process at the request."""
            self.server.at_request(at, lambda: os.kill(number, signal.SIGKILL))

        return self.killed(self.words("--yes", *options), started)

    def killed(self, words: Sequence[object], started: Callable[[int], object]) -> Result:
        """Run, and let `started` kill the run; note which files it removed."""
        before = files_in(self.folder) if self.folder.exists() else {}
        result = self.process.run(self.room, "mirror", *words, started=started)
        # (a request of the killed run may still be on its way)
        self.server.wait_until_idle()
        self.server.actions.clear()
        if FORGETS and not self.kind.is_own and result.status == -signal.SIGKILL:
            self.forgotten |= {path.removesuffix("#") for path in before} - {
                path.removesuffix("#") for path in files_in(self.folder)}
        return result

    @rule(at=st.integers(1, 14), is_announced=st.booleans(), is_baseline=st.booleans())
    def mirror_and_kill(self, at: int, is_announced: bool, is_baseline: bool) -> None:
        """Kill a run."""
        if is_announced:
            self.history.announce()
        self.check_whole(self.kill(at, *(["--baseline"] if is_baseline else [])))
        self.is_known = False

    # The folder changes.

    @rule(name=st.sampled_from(["#known", "#known-later"]), body=st.sampled_from([b"", b"no database", None]))
    @precondition(lambda self: bool(self.folder.exists() and not self.is_reported))
    def damage_notes(self, name: str, body: bytes | None) -> None:
        """Damage or remove the notes of the mirror on its files."""
        path = self.folder / name
        if path.exists():
            path.unlink() if body is None else path.write_bytes(body)
            self.is_known = False

    def damaged(self, position: int) -> str | None:
        """Damage a file, and return its path, or None if all files are empty."""
        paths = [path for path, body in files_in(self.folder).items() if body]
        if not paths:
            return None
        path = paths[position % len(paths)]
        body = (self.folder / path).read_bytes()
        (self.folder / path).write_bytes(bytes([body[0] ^ 0xFF]) + body[1:])
        note(f"{path} is damaged")
        return path

    @precondition(lambda self: bool(self.is_known and not self.forgotten))
    @rule(position=st.integers(0, 9), is_repaired=st.booleans())
    def check_damage(self, position: int, is_repaired: bool) -> None:
        """`check` names a damaged file and no other one; a repair or a baseline restores it."""
        assert self.run(FOLDER, command="check").succeeded()
        path = self.damaged(position)
        if path is None:
            return
        result = self.run(FOLDER, command="check").ended(4)
        assert result.output.splitlines()[:-1] == [f"rotten {path.removesuffix('#')}"]
        self.history.announce()
        if is_repaired and not self.is_reported:
            self.check_calm(self.run(FOLDER, "--repair", "--yes", *self.patterns, command="check"))
        else:
            self.check_calm(self.run(*self.words("--baseline", "--yes")))

    @precondition(lambda self: bool(self.is_known and not self.forgotten))
    @rule(position=st.integers(0, 9), at=st.integers(1, 3))
    def kill_a_baseline_that_repairs(self, position: int, at: int) -> None:
        """A run after a killed baseline restores a damaged file, if the baseline had begun to fetch."""
        self.history.announce()
        path = self.damaged(position)
        if path is None:
            return

        def started(number: int) -> None:
            """Kill the process at a request of a resource."""
            self.server.at_request(at, lambda: os.kill(number, signal.SIGKILL), self.kind.resources)

        killed = self.killed(self.words("--yes", "--baseline"), started)
        assert killed.status in (0, -signal.SIGKILL), f"{killed.output}{killed.errors}"
        self.check_calm(self.run(*self.words("--yes")))

    @precondition(lambda self: bool(self.is_known and not self.forgotten))
    @rule()
    def check_by_lists(self) -> None:
        """An up-to-date folder is right by the present lists."""
        self.history.announce()
        self.check_calm(self.run(*self.words("--yes")))
        self.run(FOLDER, self.history.url, *self.patterns, command="check").succeeded()


# The number of histories per kind of source, that with --long, and the steps of a history.
HISTORIES, LONG_HISTORIES, STEPS = 40, 1_000, 15
# The parent of the mirrors' folders.
MEMORY = "/dev/shm" if os.access("/dev/shm", os.W_OK) else None


@pytest.fixture(scope="module")
def process() -> Iterator[Warm]:
    """Yield the process that forks for every run."""
    with warm() as running:
        yield running


@pytest.mark.timeout(7_200)
@pytest.mark.parametrize("kind", KINDS)
def test_a_mirror_is_what_the_model_says(kind: str, server: Server, process: Warm, pytestconfig: pytest.Config) -> None:
    """Draw histories of this kind of source."""
    is_long = bool(pytestconfig.getoption("--long"))
    count = pytestconfig.getoption("--histories") or (LONG_HISTORIES if is_long else HISTORIES)
    machine = type("Machine", (Machine,), {"server": server, "process": process, "kinds": KINDS[kind]})
    run_state_machine_as_test(machine, settings=settings(
        max_examples=count, stateful_step_count=STEPS, deadline=None, database=None,
        suppress_health_check=list(HealthCheck), print_blob=True))
