"""--include and --exclude apply to every run, and other patterns need a baseline."""
from __future__ import annotations

from collections.abc import Callable, Sequence

import pytest

from operations.tests.harness.command import FOLDER, Result, Ropepeach
from operations.tests.harness.folder import Mirror
from operations.tests.harness.server import Server
from operations.tests.harness.source import SECOND, FakeSource, OwnSource, only

FILES = {name: f"body of {name}".encode() for name in ("a.txt", "b.txt", "c.bin", "d.bin")}


def test_an_increment_takes_no_excluded_file(
        ropepeach: Ropepeach, source: FakeSource, mirror: Mirror) -> None:
    """Changes of excluded names are neither fetched nor reported."""
    source.hold(FILES)
    ropepeach.mirror(source.base, "--exclude", "*.bin").succeeded()
    changed = {"a.txt": b"newer a", "c.bin": b"newer c", "e.bin": b"e", "f.txt": b"f"}
    words = {"e.bin": "created", "f.txt": "created"}
    changes = [source.change(name, words.get(name, "updated"), SECOND, body) for name, body in changed.items()]
    source.later(FILES | changed, changes)
    result = ropepeach.mirror(source.base, "--exclude", "*.bin", *mirror.on_change).succeeded()
    assert result.way() == "incremental"
    assert mirror.held(source) == only(("a.txt", "b.txt", "f.txt"), FILES | changed)
    assert sorted(mirror.changes(source)) == [("created", "f.txt"), ("updated", "a.txt")]


def holding(ropepeach: Ropepeach, source: FakeSource, own: OwnSource, is_own: bool
            ) -> tuple[Callable[..., Result], FakeSource]:
    """Put FILES into a source of either kind; return a function that mirrors it, and the source."""
    if is_own:
        own.put(FILES)
        return ropepeach.mirror_own, own
    source.hold(FILES)
    return ropepeach.mirror, source


OTHER_PATTERNS = {
    "the same pattern turned": (("--exclude", "a*"), ("--include", "a*")),
    "no pattern": (("--exclude", "a*"), ()),
    "two patterns in the other order": (("--exclude", "*.txt", "--include", "a*"),
                                        ("--include", "a*", "--exclude", "*.txt")),
    "one pattern more": (("--exclude", "*.txt"), ("--include", "a*", "--exclude", "*.txt")),
}


@pytest.mark.parametrize("is_own", [False, True])
@pytest.mark.parametrize("patterns", OTHER_PATTERNS.values(), ids=list(OTHER_PATTERNS))
def test_a_run_with_other_patterns_takes_what_they_let_in(
        ropepeach: Ropepeach, source: FakeSource, own: OwnSource, mirror: Mirror,
        patterns: tuple[Sequence[str], Sequence[str]], is_own: bool) -> None:
    """The first patterns exclude `a.txt`, the second include it: the run fetches it from an unchanged source."""
    first, second = patterns
    run, held = holding(ropepeach, source, own, is_own)
    run(held.base, *first).succeeded()
    assert "a.txt" not in mirror.held(held)
    assert run(held.base, *second).succeeded().way() == "baseline"
    assert mirror.held(held)["a.txt"] == FILES["a.txt"]
    assert run(held.base, *second).succeeded().way() == "incremental"


@pytest.mark.parametrize("is_own", [False, True])
def test_files_that_new_patterns_leave_out_are_kept_or_removed_as_a_baseline_does(
        ropepeach: Ropepeach, source: FakeSource, own: OwnSource, mirror: Mirror, is_own: bool) -> None:
    run, held = holding(ropepeach, source, own, is_own)
    run(held.base).succeeded()
    run(held.base, "--exclude", "a*", "--yes").succeeded()
    assert mirror.held(held) == only(("b.txt", "c.bin", "d.bin"), FILES)


def test_check_asks_for_the_patterns_of_the_last_run(ropepeach: Ropepeach, source: FakeSource) -> None:
    source.hold(FILES)
    ropepeach.mirror(source.base, "--exclude", "*.txt", "--include", "a*").succeeded()
    ropepeach("check", FOLDER, source.base, "--exclude", "*.txt", "--include", "a*").succeeded()
    ropepeach("check", FOLDER, source.base, "--include", "a*", "--exclude", "*.txt").failed(status=3)
    ropepeach("check", FOLDER, source.base, "--include", "*.txt", "--include", "a*").failed(status=3)


@pytest.mark.parametrize("is_own", [False, True])
def test_a_later_pass_takes_no_excluded_file(
        ropepeach: Ropepeach, source: FakeSource, own: OwnSource, mirror: Mirror, server: Server, is_own: bool) -> None:
    """When `a.txt` is requested, it changes, and an excluded file comes: the second pass fetches only `a.txt`."""
    run, held = holding(ropepeach, source, own, is_own)
    later = {"a.txt": b"newer a", "e.bin": b"e"}

    def publish() -> None:
        """Publish both changes."""
        if is_own:
            own.put(later)
        else:
            source.later(FILES | later, [source.change("a.txt", "updated", SECOND, later["a.txt"]),
                                         source.change("e.bin", "created", SECOND, later["e.bin"])])

    server.at_path(f"{held.style.resources}a.txt", publish)
    run(held.base, "--exclude", "*.bin").succeeded()
    assert mirror.held(held) == {"a.txt": b"newer a", "b.txt": FILES["b.txt"]}


def test_an_increment_of_an_own_source_takes_no_excluded_file(
        ropepeach: Ropepeach, own: OwnSource, mirror: Mirror) -> None:
    own.put(FILES)
    ropepeach.mirror_own(own.base, "--exclude", "*.bin").succeeded()
    own.put({"a.txt": b"newer a", "c.bin": b"newer c", "e.bin": b"e"})
    assert ropepeach.mirror_own(own.base, "--exclude", "*.bin").succeeded().way() == "incremental"
    assert mirror.held(own) == {"a.txt": b"newer a", "b.txt": FILES["b.txt"]}
