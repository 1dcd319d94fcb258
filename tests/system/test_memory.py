"""Tests of the program with every memory allocation refused in turn: it changes nothing, and reports the refusal.

A C library refuses the N-th malloc or realloc of a run, for N from 1 until no allocation is left to refuse. If it
refuses an allocation
- before the script begins, the program writes nothing and ends with `rs_source: NoMemory` and status 1, or with
  `rs_source: Device` for the disk's note of a write;
- within a line, the answer to exactly that line is `refused NoMemory`, and the other answers are as if the script
  lacked it; a group is one line here. A line of at most 8 bytes that is no item is never refused, unless it is a
  change or `verify`; nor is a group whose first line is that short;
- while a file is opened or copied, the program ends with `rs_source: NoMemory`, and only closes its files
  (opening_refusals.py);
- for the disk's note of a write, the answer to that line is `refused Device`, earlier answers are as usual, and later
  lines that need the source are answered `refused Closed`;
- within a request, the response is 503 NoMemory, or missing if there is no memory to begin; the next request finds no
  change, and the same request then gets its usual response. A request with a refused head never gets 503, nor does a
  request for a document.
line_judge.py and request_judge.py compute the other answers from docs/SCRIPT.md and docs/HTTP.md.
"""
import os
import subprocess
import threading
import time
from pathlib import Path
from typing import IO, Any

import pytest

from tests import hunting
from tests.ends.ends_of_requests import COUNT, LOOK, Model, exchanges, request_title
from tests.ends.ends_of_scripts import ROWS_OF_SCRIPTS, Script
from tests.program import CLOCK, MEMORY, interposed
from tests.reading import crash_model, line_judge
from tests.reading.front_model import Source, is_document
from tests.reading.request_judge import CONTINUE, date_of, response
from tests.served_source import exchanged
from tests.system import edge_runs, opening_refusals
from tests.system.noted_calls import Room

pytestmark = [pytest.mark.plain, pytest.mark.needs("cc"), pytest.mark.timeout(1800)]

SIZE, BASE, LIMIT = int(MEMORY[1]), MEMORY[2], int(MEMORY[3])
REFUSED = b"refused NoMemory\n"
FAILED = b"refused Device\n"
CLOSED = b"refused Closed\n"
# The answers to lines that do not need the source.
UNASKED = {b"ok\n"} | {b"refused " + name + b"\n"
                       for name in [b"BadLine", b"BadMoment", b"BadName", b"BadHex", b"BadType", b"LongLine"]}
# The number of requests in the gate.
SHORT = 2
# The program keeps lines, and parts of items, of at least this many bytes. These lines need memory of the source.
KEPT, ITEMS, ASKING = 9, (b"put ", b"delete "), (b"publish", b"verify")
# The ends of responses to requests with a refused head.
OF_HEADS = (b"\nTooLong\n", b"\nNoLength\n", b"\nTransferEncoding\n", b"\nBadMethod\n")
Result = tuple[int, bytes, bytes]
State = Any
SHIM = r"""
#include <stddef.h>
#include <stdio.h>
#include <stdlib.h>
extern void *__libc_malloc(size_t);
extern void *__libc_realloc(void *, size_t);
static long refused_at = -1, calls = 0;
__attribute__((constructor)) static void begin(void) { char *n = getenv("REFUSED_AT"); if (n) refused_at = atol(n); }
void *malloc(size_t n) { return ++calls == refused_at ? 0 : __libc_malloc(n); }
void *realloc(void *p, size_t n) { return ++calls == refused_at ? 0 : __libc_realloc(p, n); }
/* Where none is refused, it is told how many there were. */
__attribute__((destructor)) static void told(void) { if (!refused_at) dprintf(2, "growths %ld\n", calls); }
"""
LINES = """at 951782400000
put a - text/plain
publish
show /resourcelist.xml
put b 616263 text/plain
show /changelist.xml
put b 616263 text/html; charset="utf-8"
show /changelist.xml
show /changelist/0.xml
show /changelist/1.xml
put c&d 7a0A a/b
publish
show /resourcelist.xml
show /resourcelist/2/0.xml
show /resourcelist/2/1.xml
show /resourcelist/1/0.xml
show /.well-known/resourcesync
show /capabilitylist.xml
show /resource/b
show /resource/zz
delete a
delete a
put x// 00 a/b
put e 6 a/b
put e 66 a
at 0000000000000016
at 12345
no such line at all

put f/g 00112233445566778899aabbccddeeff application/octet-stream
publish
show /changelist.xml
put h - a/b
delete h
publish
show /resourcelist.xml
show /resource/f/g
verify
status""".encode().split(b"\n")
GROUPS = [
    b"at 951782400000",
    b"group 2\nput a 616263 text/plain\nput b - a/b",
    b"group 1\nstatus",
    b"group 2\nbad\ndelete a",
    b"group 2\ndelete a\nbad",
    b"group 3\nput b 62 a/b\ndelete a\nput b 6262 a/b",
    b"group 2\nput c 63 a/b\ndelete zz",
    b"show /resource/b",
    b"verify",
    b"status",
]


def feed(pipe: IO[bytes], data: bytes, piece: int) -> None:
    """Write data to a pipe in pieces, and close it."""
    try:
        for i in range(0, len(data), piece):
            os.write(pipe.fileno(), data[i:i + piece])
            time.sleep(0.00005 if piece < len(data) else 0)
    except BrokenPipeError:
        pass
    pipe.close()


def run(program: str, lines: list[bytes], piece: int, shim: dict[str, str], refused_at: int) -> Result:
    """Return the status, standard output and standard error of a run."""
    data = b"".join(line + b"\n" for line in lines)
    with subprocess.Popen([program, *MEMORY], stdin=subprocess.PIPE, stdout=subprocess.PIPE, stderr=subprocess.PIPE,
                          env=shim | {"REFUSED_AT": str(refused_at)}) as child:
        assert child.stdout and child.stderr
        feeder = threading.Thread(target=feed, args=(child.stdin, data, piece or len(data)))
        feeder.start()
        output, error = child.stdout.read(), child.stderr.read()
        feeder.join()
    return child.returncode, output, error


def usual(lines: list[bytes]) -> list[bytes]:
    """Return the answers to lines without a refused allocation."""
    judge = line_judge.Judge(Source(crash_model.State(BASE, LIMIT), SIZE))
    return [b"".join(judge.answer(part) for part in line.split(b"\n")) for line in lines]


def answers(output: bytes) -> list[bytes]:
    """Split an output into answers: `bytes N` includes the N bytes and the line feed after them."""
    found = []
    while output:
        end = output.index(b"\n") + 1
        if output.startswith(b"bytes "):
            end += int(output[6:end]) + 1
        found.append(output[:end])
        output = output[end:]
    return found


def takes_room(line: bytes) -> bool:
    """Return whether a line needs memory by itself; a group does if its first line does."""
    first = line.split(b"\n")[:2][-1]
    return len(first) >= KEPT or first.startswith(ITEMS)


def wrong(lines: list[bytes], result: Result) -> str | None:
    """Return the fault of a run, or None."""
    status, output, error = result
    if status == 1 and error in (b"rs_source: NoMemory\n", b"rs_source: Device\n"):
        return "an output before the end" if output else None
    if status != 0 or error != b"":
        return f"status {status}, {error!r}"
    received = answers(output)
    refused = [i for i, answer in enumerate(received) if answer == REFUSED]
    if len(received) != len(lines) or len(refused) > 1:
        return f"{len(received)} answers, refused {refused}"
    if FAILED in received:
        place = received.index(FAILED)
        whole = usual(lines)
        before, behind = whole[:place], whole[place + 1:]
        wanted = before + [FAILED] + [answer if answer in UNASKED else CLOSED for answer in behind]
        return f"other answers around the fault in line {place}" if received != wanted else None
    if not refused:
        return "other answers, and none refused" if received != usual(lines) else None
    place = refused[0]
    if not takes_room(lines[place]) and lines[place] not in ASKING:
        return f"line {place} is refused, which takes no memory"
    without = usual(lines[:place] + lines[place + 1:])
    return f"other answers around line {place}" if without != received[:place] + received[place + 1:] else None


@pytest.fixture
def refusing(room: Path) -> dict[str, str]:
    """Return the environment in which an allocation is refused."""
    return interposed(room, "refusing", SHIM)


def refuse_in_script(program: str, refusing: dict[str, str], lines: list[bytes], piece: int) -> None:
    """Refuse every allocation of a run of a script, whole or in pieces of this many bytes."""
    clean, faults, refused_at, quiet, within, noted = b"".join(usual(lines)), [], 0, 0, 0, 0
    # After sixty refusals in a row without an effect no allocation is left to refuse.
    while quiet < 60:
        refused_at += 1
        result = run(program, lines, piece, refusing, refused_at)
        quiet = quiet + 1 if result[1] == clean else 0
        within, noted = within + (REFUSED in result[1]), noted + (FAILED in result[1])
        if found := wrong(lines, result):
            faults.append(f"growth {refused_at}: {found}")
    hunting.report(faults)
    assert within > 0, "no growth within a line was refused"
    assert noted > 0, "no growth of the disk's note of a write was refused"


LONG = pytest.mark.long


@pytest.mark.parametrize("piece", [0, pytest.param(7, marks=LONG), pytest.param(1, marks=LONG)])
@pytest.mark.parametrize("lines", [LINES, GROUPS], ids=["each line", "groups"])
def test_a_line_refused_for_memory_changes_nothing(program: str, refusing: dict[str, str], lines: list[bytes],
                                                    piece: int) -> None:
    refuse_in_script(program, refusing, lines, piece)


@pytest.mark.long
@pytest.mark.parametrize("row", ROWS_OF_SCRIPTS)
def test_a_line_of_a_row_refused_for_memory_changes_nothing(program: str, refusing: dict[str, str], row: str) -> None:
    refuse_in_script(program, refusing, Script(row).lines, 0)


@pytest.mark.parametrize("words", [opening_refusals.RUN, opening_refusals.COPY], ids=["an opening", "a copy"])
def test_refused_memory_ends_the_program_without_another_call(program: str, room: Path, refusing: dict[str, str],
                                                              words: tuple[str, ...]) -> None:
    calls = Room(program, room)
    calls.put(opening_refusals.short_disk(), opening_refusals.DISK)
    count, found = opening_refusals.refuse(calls, words, refusing["LD_PRELOAD"])
    hunting.report(found)
    assert count > 0


def takes_memory(model: Model, sent: bytes) -> bool:
    """Return whether a request needs memory: a request for a document or with a refused head needs none."""
    return not is_document(sent.split(b" ")[1]) and not model.peeked(sent).endswith(OF_HEADS)


def no_memory(model: Model, sent: bytes) -> set[bytes]:
    """Return the permitted responses without memory: empty, or the refusal, after `100 Continue` or alone."""
    if not takes_memory(model, sent):
        return {b""}
    waits = model.peeked(sent).startswith(CONTINUE)
    refusal = response(503, date_of(CLOCK), "text/plain", b"NoMemory\n", is_head=sent.startswith(b"HEAD "))
    return {b"", refusal, CONTINUE + refusal} if waits else {b"", refusal}


def refuse_in_request(program: str, room: Path, state: State, sent: bytes, growth: int) -> tuple[list[int], str | None]:
    """Refuse an allocation while the server answers a request, a look and the request again.

    Return the places of the refused answers, and a fault.
    """
    model, refused = Model(state), list[int]()
    with edge_runs.served(program, room, 3, GROWTH_REFUSED_AT=str(growth)) as (port, _):
        for place, request in enumerate([sent, LOOK, sent]):
            found, _ = exchanged(port, [request])
            if found == model.peeked(request):
                model.answer(request)
            elif not refused and found in no_memory(model, request):
                refused.append(place)
            else:
                return refused, f"request {place} is answered {found!r}, refused before {refused}"
    return refused, None


@pytest.mark.parametrize("number", [*range(SHORT), *(pytest.param(at, marks=LONG) for at in range(SHORT, COUNT))])
def test_a_request_refused_for_memory_changes_nothing(program: str, room: Path, number: int) -> None:
    """Refuse every allocation of a request, on the file that its predecessors left."""
    file, model = room / edge_runs.formatted(program, room), Model(crash_model.State(BASE, LIMIT))
    before, (sent, _) = exchanges()[:number], exchanges()[number]
    with edge_runs.served(program, room, number + 1) as (port, _):
        for request, _ in before:
            assert exchanged(port, [request])[0] == model.answer(request), request_title(request)
        edge_runs.connected(port).close()
    content, growth, quiet, within, faults = file.read_bytes(), 0, 0, 0, []
    # After six refusals in a row outside this request it has no allocation left to refuse.
    while quiet < 6:
        growth += 1
        file.write_bytes(content)
        refused, fault = refuse_in_request(program, room, model.source.state, sent, growth)
        within, quiet = within + (refused == [0]), 0 if refused == [0] else quiet + 1
        faults += [f"growth {growth}: {fault}"] if fault else []
    hunting.report(faults)
    assert within > 0, "no growth was refused"
    file.write_bytes(content)
    with edge_runs.served(program, room, 1) as (port, _):
        assert exchanged(port, [sent])[0] == model.answer(sent)


def wrong_runs() -> dict[str, list[bytes]]:
    """Return made-up answers, by fault, of programs that handle a refused allocation wrongly."""
    whole = usual(LINES)
    place = next(i for i, answer in enumerate(whole) if answer.startswith(b"created"))
    right = usual(LINES[:place] + LINES[place + 1:])
    return {
        "a refused line is done": [*whole[:place], REFUSED, *whole[place + 1:]],
        "a refused line has no answer": right,
        "two lines are refused": [*right[:place], REFUSED, REFUSED, *right[place + 1:]],
        "a failed line closes nothing": [*whole[:place], FAILED, *whole[place + 1:]],
        "an answer is left out": whole[:-1],
        "a line is refused that takes no memory": [*whole[:-1], REFUSED],
    }


@pytest.mark.parametrize("name", wrong_runs())
def test_the_judge_rejects_wrong_answers(name: str) -> None:
    assert wrong(LINES, (0, b"".join(wrong_runs()[name]), b""))


def test_the_judge_accepts_a_refused_line() -> None:
    place = next(i for i, answer in enumerate(usual(LINES)) if answer.startswith(b"created"))
    right = usual(LINES[:place] + LINES[place + 1:])
    assert wrong(LINES, (0, b"".join([*right[:place], REFUSED, *right[place:]]), b"")) is None


def test_the_judge_rejects_a_503_to_a_request_that_takes_no_memory() -> None:
    assert no_memory(Model(crash_model.State(BASE, LIMIT)), LOOK) == {b""}
