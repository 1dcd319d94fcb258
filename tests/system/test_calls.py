"""Tests of the system calls that the program makes on its files, some of them shortened or failing.

No clause covers these calls. The program runs with a C library that notes the calls on all files in one list
(noted_calls.py), transfers only a few bytes per call if a test asks for it, and lets a chosen call fail. The lists must
equal those of call_rules.py, which follow docs/FILE-DISK.md and docs/DISK.md.
"""
from collections.abc import Callable, Sequence
from pathlib import Path

import pytest

from tests.program import Differs
from tests.reading.disk_formats import BLOCK
from tests.system import call_rules, calls_of_commands, wrong_calls
from tests.system.calls_of_commands import CUTTING, DISK, LONG, LOOKING, REQUESTS, RUN, SHORT, Client, Scripted
from tests.system.calls_of_commands import numbered
from tests.system.noted_calls import Call, Room, texts

pytestmark = [pytest.mark.plain, pytest.mark.needs("cc")]

NEW = "copy.disk"
FORMAT = ["format", DISK, "8192", "http://127.0.0.1:8080", "2"]
COPY = ["copy", DISK, NEW, "65536"]
COPY_ALL = ["copy", DISK, NEW, "1048576"]
SCRIPT = (b"at 951782400000\nput a 616263 text/plain\nput a - text/plain\npublish\ndelete a\nstatus\n"
          b"show /changelist.xml\n")
# The copied source: bodies in one and in two pieces, separate published pages, and changes.
HELD = f"put a 616263 text/plain\nput b {'62' * 20_000} a/b\npublish\nput a - text/plain\nput c 63 a/b\n".encode()
# The lines that print a source.
ASKED = b"status\nshow /changelist.xml\nshow /resource/b\n"


@pytest.fixture
def calls(program: str, room: Path) -> Room:
    """Return a folder whose runs note their calls."""
    return Room(program, room)


def compare(what: str, found: Sequence[object], wanted: Sequence[object]) -> None:
    """Compare two lists; name the first call that differs."""
    if found == wanted:
        return
    at = next((i for i, (a, b) in enumerate(zip(found, wanted)) if a != b), min(len(found), len(wanted)))
    excerpts = [f"{list(entries[max(at - 1, 0) : at + 4])!r:.600}" for entries in (found, wanted)]
    raise Differs(f"{what}: call {at + 1} of {len(wanted)}: found {excerpts[0]}, wanted {excerpts[1]}")


def fails_in_turn(what: str, calls: Room, words: list[str], made: list[Call], after: Callable[[int], None]) -> None:
    """Let each of these calls fail: the program reports it, and closes the files; then run the test `after`."""
    wanted = texts(made)
    for at in numbered(made):
        calls.clear(NEW if words is COPY else DISK)
        outcome = calls.run(words, FAILS=at)
        assert list(outcome[:3]) == [1, b"", b"rs_source: Device\n"], f"{what}, call {at} fails"
        before = [*wanted[: at - 1], f"{wanted[at - 1]} fails"]
        found = texts(outcome.calls)
        compare(f"{what}, call {at} fails", [*found[:at], *sorted(found[at:])], [*before, *call_rules.closes(before)])
        after(at)


@pytest.mark.parametrize("folder", [".", "inner", "i", "inner/i"])
def test_a_file_is_made_as_the_rule_says(calls: Room, folder: str) -> None:
    """The program locks the file, sets its length, syncs it and its folder, and then writes."""
    path = DISK if folder == "." else f"{folder}/{DISK}"
    (calls.folder / folder).mkdir(exist_ok=True, parents=True)
    outcome = calls.run(["format", path, *FORMAT[2:]])
    wanted = call_rules.formatting(path, calls.content(path), folder)
    compare(f"format in {folder}", texts(outcome.calls), [*wanted, f"close {path}", "answer"])


def test_a_failed_call_ends_format(calls: Room) -> None:
    made = calls.run(FORMAT).calls

    def stays(at: int) -> None:
        assert (calls.folder / DISK).exists() == (at > 1), f"call {at} fails: whether the new file stays"

    fails_in_turn("format", calls, FORMAT, made, stays)


def test_the_calls_of_a_long_script_are_those_of_the_rules(calls: Room) -> None:
    calls_of_commands.look_at_whole("a long script", Scripted(calls, LONG), compare)


@pytest.mark.parametrize("kind", ["short", "cutting pages", "damaged bodies"])
def test_a_failed_call_ends_a_command_of_a_script(calls: Room, kind: str) -> None:
    """Every call fails in turn: the root on the file is then that before or after the command."""
    lines = {"short": SHORT, "cutting pages": CUTTING, "damaged bodies": LOOKING}[kind]
    disk = {"short": lambda: None, "cutting pages": calls_of_commands.full_page,
            "damaged bodies": lambda: calls_of_commands.damaged(calls)}[kind]()
    scripted = Scripted(calls, lines, disk)
    if kind != "short":
        calls_of_commands.look_at_whole(kind, scripted, compare)
    calls_of_commands.look_at_failing(kind, scripted, compare)


@pytest.fixture
def client(calls: Room) -> Client:
    """Return a client for servers of a new source."""
    calls_of_commands.made(calls)
    return Client(calls)


def test_the_calls_of_requests_are_those_of_the_rules(client: Client) -> None:
    calls_of_commands.look_at_requests(client, compare)


def test_a_damaged_body_is_read_once_for_a_request(client: Client) -> None:
    calls_of_commands.look_at_damaged_requests(client, calls_of_commands.damaged(client.room), compare)


@pytest.mark.parametrize("at", range(len(REQUESTS)))
def test_a_failed_call_ends_a_request(client: Client, at: int) -> None:
    disk = client.room.content(DISK)
    found = client.ask(REQUESTS)[0]
    calls_of_commands.look_at_failing_request(client, disk, at, [made for _, made, _ in found[: at + 1]], compare)


@pytest.fixture
def source(calls: Room) -> bytes:
    """Write a new source to the file; return its bytes."""
    calls.run(FORMAT)
    disk: bytes = calls.content(DISK)
    return disk


@pytest.mark.parametrize("at_once", [1, 7, 50])
def test_the_rest_of_a_short_read_or_write_follows(calls: Room, source: bytes, at_once: int) -> None:
    whole = calls.run(RUN, SCRIPT)
    disk = calls.content(DISK)
    calls.put(source)
    parts = calls.run(RUN, SCRIPT, AT_ONCE=at_once)
    assert (parts.status, parts.output) == (0, whole.output)
    assert calls.content(DISK) == disk != source


def test_a_command_beyond_the_file_size_limit_is_refused(calls: Room, source: bytes) -> None:
    # The directory of the first put is the last part that the put writes, from byte 2560 on.
    limited = calls.run(RUN, b"put a - text/plain\nstatus\n", limit=2610)
    assert limited.output == b"refused Device\nrefused Closed\n"
    again = calls.run(RUN, b"status\n").output
    assert again == b"resources 0 changes 0 publication 0 last 1970-01-01T00:00:00.000Z\n"


@pytest.fixture
def held(calls: Room) -> bytes:
    """Write a source with resources and changes to the file; return its bytes."""
    calls.run(["format", DISK, "65536", *FORMAT[3:]])
    calls.run(RUN, HELD)
    disk: bytes = calls.content(DISK)
    return disk


def test_the_calls_of_a_copy_are_those_of_the_rules(calls: Room, held: bytes) -> None:
    whole = calls.run(COPY)
    copy = calls.content(NEW)
    wanted = [*call_rules.opening(DISK, held), *call_rules.copying(DISK, held, NEW, copy), f"close {NEW}", "answer",
              f"close {DISK}"]
    compare("copy", texts(whole.calls), wanted)
    for at_once in (7, 500):
        calls.clear(NEW)
        parts = calls.run(COPY, AT_ONCE=at_once)
        assert (parts.status, parts.output, calls.content(NEW)) == (0, b"copied 65536\n", copy), at_once


def test_a_failed_call_ends_a_copy(calls: Room, held: bytes) -> None:
    """The new file has no source or the whole one, and the old file is unchanged."""
    output = calls.run(RUN, ASKED).output

    def holds(at: int) -> None:
        opened = calls.run(["run", NEW], ASKED) if calls.content(NEW) else None
        assert not opened or (opened.status, opened.output) == (0, output) or (
            opened.error == b"rs_source: NotASource\n"), f"call {at} fails"
        assert calls.content(DISK) == held, f"call {at} fails"

    fails_in_turn("copy", calls, COPY, calls.run(COPY).calls, holds)


def test_a_copy_ends_at_the_first_damaged_body(calls: Room) -> None:
    """The copy reads and writes no later body, and the new file has no source."""
    disk, size = calls_of_commands.damaged(calls), int(COPY_ALL[-1])
    for name, at in calls_of_commands.DAMAGED.items():
        record = next(record for record in call_rules.records_of(disk) if record.name == name.encode())
        damage = record.first * BLOCK + at
        calls.put(disk)
        calls.clear(NEW)
        outcome = calls.run(COPY_ALL)
        assert list(outcome[:3]) == [1, b"", b"rs_source: Damaged\n"], name
        made = [*call_rules.opening(DISK, disk),
                *call_rules.copying_bodies(DISK, disk, NEW, call_rules.Blocks(size), name.encode())]
        found = texts(outcome.calls)
        compare(f"copy, {name} damaged", [*found[: len(made)], *sorted(found[len(made) :])],
                [*made, *call_rules.closes(made)])
        assert calls.run(["run", NEW], ASKED).error == b"rs_source: NotASource\n", name
        # Restore this body, so that the next one is damaged.
        disk = disk[:damage] + bytes([disk[damage] ^ 1]) + disk[damage + 1 :]


@pytest.mark.parametrize("closed", [(0,), (1,), (2,), (0, 1, 2)])
def test_no_file_has_the_number_of_a_standard_stream(calls: Room, closed: tuple[int, ...]) -> None:
    for words in (FORMAT, RUN):
        used = [call for call in calls.run(words, closed=closed).calls
                if call.name in ("lock", "read", "write", "sync", "length") and call.path == DISK]
        assert used and all(call.fd > 2 for call in used), words


@pytest.mark.parametrize("closed", [(1,), (2,)])
def test_no_output_lands_in_the_file(calls: Room, source: bytes, closed: tuple[int, ...]) -> None:
    calls.run(RUN, b"status\n", closed=closed)
    assert calls.content(DISK) == source


def test_a_file_that_is_not_regular_is_closed_without_a_lock(calls: Room) -> None:
    outcome = calls.run(["run", "/dev/null"], ALSO="/dev/null")
    assert list(outcome[:3]) == [1, b"", b"rs_source: Device\n"]
    compare("run /dev/null", texts(outcome.calls), ["open /dev/null", "measure /dev/null", "close /dev/null"])


@pytest.mark.parametrize("change", wrong_calls.OF_MAKING)
def test_the_judge_rejects_wrong_calls_of_format(calls: Room, change: wrong_calls.Change) -> None:
    right = texts(calls.run(FORMAT).calls)
    with pytest.raises(Differs):
        compare("format", change(right), right)


def short_list(calls: Room, behind: int | None) -> list[str]:
    """Return the calls of a short script by the rules, or the calls after a failed one: an advice, or a later one."""
    scripted = Scripted(calls, SHORT)
    if behind is None:
        return scripted.wanted()
    number = next(at for at, call in enumerate(scripted.parts[0].calls) if call.startswith("advise"))
    return scripted.wanted_behind(number + behind)


@pytest.mark.parametrize("change, behind", [*((change, None) for change in wrong_calls.OF_COMMANDS),
                                            *((change, 0) for change in wrong_calls.OF_FAILING_ADVICE),
                                            *((change, 9) for change in wrong_calls.OF_FAILING)])
def test_the_judge_rejects_wrong_calls_of_commands(calls: Room, change: wrong_calls.Change, behind: int | None) -> None:
    right = short_list(calls, behind)
    with pytest.raises(Differs):
        compare("commands", change(right), right)
