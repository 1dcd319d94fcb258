"""Judge the folder of a mirror after a power cut by the system calls of `ropepeach mirror` (noted_calls.py).

A power cut keeps the bytes of a file once the file, or its whole file system, was synced after the write; it keeps the
entries of a folder once that folder or the file system was synced. A sync counts when it is done. So these rules keep
every file complete at every moment, and the state true:

  - a file is renamed only after its bytes are synced, and no file is written in its final place;
  - the state is renamed only when all changes of the folder are synced, and the next change waits until the state is
    synced too;
  - a run with status 0 leaves no unsynced change.

tests/planted/bugs/from_mirrors.py has bugs that break a rule.
"""
from __future__ import annotations

import errno
import pathlib
import shutil
from collections.abc import Mapping, Sequence

import pytest

from operations.tests.mirror.mirrors import files_of, laid_out
from operations.tests.tools.hostile_source import Liar, entry
from operations.tests.tools.noted_calls import Call, noted

pytestmark = pytest.mark.needs("cc")

STATE, INCOMING = "#state", "#incoming"
# Files of a source at first and later: more than two batches, names below names, deletions.
FIRST = {name: f"first {name}".encode() * 9 for name in ["a", "b", "c/d", "c/e", "f", "g", "h", "i"]}
GONE = ["b", "c/d", "h"]
LATER = {name: body for name, body in FIRST.items() if name not in GONE} | {
    name: f"later {name}".encode() * 9 for name in ["a/b", "c", "f", "j/k/l"]}
# The delay of a sync in microseconds, long enough to detect calls of a run that does not wait for it.
SLOW = 20_000


def cut(calls: Sequence[Call], is_whole: bool) -> list[str]:
    """Return the rules that these calls break; `is_whole` says that they are all the calls of a successful run."""
    written: set[str] = set()
    changed: list[str] = []
    begun: tuple[set[str], list[str]] = set(), []
    broken: list[str] = []
    for call in calls:
        if call.failed:
            continue
        if call.name in ("make", "write"):
            written.add(call.path)
            if not call.path.startswith(INCOMING):
                broken.append(f"{call.path} is written in its place")
        elif call.name == "syncfs":
            begun = set(written), list(changed)
        elif call.name == "synced":
            written, changed = written - begun[0], changed[len(begun[1]) :]
        elif call.name == "fsync":
            written.discard(call.path)
            changed = [] if call.path == "." and all("/" not in path for path in changed) else changed
        else:
            broken += broken_by(call, written, changed)
            changed.append(call.to or call.path)
    return broken + [f"{path} waits at the end" for path in changed + sorted(written) if is_whole]


def broken_by(call: Call, written: set[str], changed: Sequence[str]) -> list[str]:
    """Return the rules that a change of a folder breaks, with these files and changes of folders unsynced."""
    broken = [f"{call.to} gets bytes that are not synced"] if call.name == "rename" and call.path in written else []
    if call.to == STATE and changed:
        broken.append(f"a moment is remembered before {changed[0]} is synced")
    if STATE in changed:
        broken.append(f"{call.path} is changed before the state is synced")
    return broken


def run(room: pathlib.Path, liar: Liar, files: Mapping[str, bytes], path: str = "", **settings: object
        ) -> tuple[int, str, list[str], list[Call]]:
    """Run a baseline of a source with these files; return the status, the messages, broken rules and calls."""
    liar.resources([entry(f"{liar.base}/resource/{name}", body) for name, body in files.items()])
    liar.documents({f"/resource/{name}": body for name, body in files.items()})
    status, messages, calls = noted(room, [liar.base + path, "--baseline"], **settings)
    return status, messages, cut(calls, status == 0), calls


@pytest.mark.parametrize("path", ["", "/capabilitylist.xml"], ids=["Ropepeach", "other software"])
def test_files_are_synced_before_they_are_renamed_and_the_state_comes_last(liar: Liar, room: pathlib.Path, path: str
                                                                           ) -> None:
    """Syncs are slow and writes short. The Capability List makes a source count as other software."""
    front = f"http+{liar.base.removeprefix('http://')}/resource/" if path else ""
    for files in (FIRST, LATER):
        status, messages, broken, calls = run(room, liar, files, path, AT_ONCE=5, SLOW=SLOW)
        assert (status, broken) == (0, []), messages
        assert files_of(room / "m") == laid_out({front + name: body for name, body in files.items()})
        assert {"rename", "syncfs", "fsync", "write", "mkdir"} <= {call.name for call in calls}
        assert any(call.to == "#known" for call in calls)


def test_a_call_that_fails_ends_the_run_by_status_3_and_the_next_run_continues(liar: Liar, room: pathlib.Path) -> None:
    """A write, a sync, a rename or a new folder fails. Files in their places are complete."""
    status, _, _, calls = run(room, liar, FIRST)
    assert status == 0
    numbered = list(enumerate([call.name for call in calls if call.name != "synced"], 1))
    last, first = ({name: number for number, name in those} for those in (numbered, reversed(numbered)))
    for number in [*first.values(), last["syncfs"], last["fsync"]]:
        shutil.rmtree("m")
        status, messages, broken, calls = run(room, liar, FIRST, FAILS=number, ERROR=errno.ENOSPC)
        failed = next(call for call in calls if call.failed)
        assert (status, messages.count("\n"), broken) == (3, 1, []), failed
        assert "m: No space left on device" in messages, failed
        found = {name: body for name, body in files_of(room / "m").items() if body is not None and name[0] != "#"}
        assert found.items() <= FIRST.items(), failed
        assert (run(room, liar, FIRST)[0], files_of(room / "m")) == (0, laid_out(FIRST)), failed
