"""Tests of the judge of hostile disks: it rejects wrong answers, wrong programs and wrong rules.

The programs are a few lines of Python, so no test needs the built program.
"""
import contextlib
import re
import sys
from contextlib import AbstractContextManager
from pathlib import Path
from unittest import mock

import pytest

from tests.disks import disks
from tests.hostile import any_disks, disk_runs
from tests.hostile.disk_runs import Outcome, Room, Wanted, faults, wanted_of
from tests.reading import disk_judge, disk_reader
from tests.rows.reader import disk_rows

SOUND = any_disks.SPELLED["sound"]
# A disk with two damaged bodies.
SPOILT = SOUND("held.a.sha256=0", "held.b.sha256=0")
REFUSED = SOUND("held.kind=3")
# The memory of Python itself, in bytes.
OF_PYTHON = 268_435_456
# A program that first runs the code `does`, and then prints the prepared answer.
PROGRAM = """#!{python} -SE
import os, sys, time
{does}
os.write(1, open({folder!r} + "/wanted", "rb").read())
"""
TAKES = "held = bytearray({size})"
BURNS = "while time.process_time() < 1.2: pass"
SPOILS = "open(sys.argv[2], 'ab').write(b'x')"


def right(disk: bytes) -> tuple[Wanted, Outcome]:
    """Return the right answer for a disk."""
    wanted = wanted_of(disk)
    return wanted, Outcome(wanted.status, wanted.output, wanted.messages, 0.1, disk)


def wrong_answers() -> dict[str, tuple[bytes, Outcome]]:
    """Return wrong answers by name, with their disks."""
    spoilt, sound, refused = right(SPOILT)[1], right(SOUND())[1], right(REFUSED)[1]
    edited = sound.output.replace(b'length="5"', b'length="6"', 1)
    with_one_damaged = sound.output.replace(b"verified", b"damaged a\nverified")
    reversed_names = spoilt.output.replace(b"damaged a\ndamaged b", b"damaged b\ndamaged a")
    unrefused = spoilt.output.replace(b"refused Damaged\n", b"bytes 5\nhello\n", 1)
    return {
        "a sound answer for a damaged disk": (REFUSED, sound._replace(file=REFUSED)),
        "a refusal of a sound disk": (SOUND(), refused._replace(file=SOUND())),
        "another word": (REFUSED, refused._replace(messages=b"rs_source: NotASource\n")),
        "no word": (REFUSED, refused._replace(messages=b"")),
        "a missing damaged name": (SPOILT, spoilt._replace(output=spoilt.output.replace(b"damaged b\n", b""))),
        "a damaged name that is sound": (SOUND(), sound._replace(output=with_one_damaged)),
        "damaged names in another order": (SPOILT, spoilt._replace(output=reversed_names)),
        "another number of sound bodies": (SPOILT,
                                           spoilt._replace(output=spoilt.output.replace(b"verified 0", b"verified 2"))),
        "a damaged body that is shown": (SPOILT, spoilt._replace(output=unrefused)),
        "a document with another byte": (SOUND(), sound._replace(output=edited)),
        "an output that is cut": (SOUND(), sound._replace(output=sound.output[:-1])),
        "status 2": (REFUSED, refused._replace(status=2)),
        "a signal": (SOUND(), sound._replace(status=-11)),
        "more than a second": (SOUND(), sound._replace(seconds=1.5)),
    }


@pytest.mark.parametrize("name", wrong_answers())
def test_the_judge_rejects_a_wrong_answer(name: str) -> None:
    disk, outcome = wrong_answers()[name]
    assert faults(disk, wanted_of(disk), outcome)


@pytest.mark.parametrize("disk", [SOUND(), SPOILT, REFUSED, b""], ids=["sound", "spoilt", "refused", "empty"])
def test_the_judge_accepts_the_right_answer(disk: bytes) -> None:
    assert not faults(disk, *right(disk))


def faults_of(folder: Path, does: str) -> list[str]:
    """Return the faults of a program that first runs this code on a sound disk, and then answers right."""
    disk, (wanted, _) = SOUND(), right(SOUND())
    Path(folder, "wanted").write_bytes(wanted.output)
    program = Path(folder, "program")
    program.write_text(PROGRAM.format(python=sys.executable, does=does, folder=str(folder)))
    program.chmod(0o755)
    limit = OF_PYTHON + disk_runs.OF_A_BYTE * len(disk)
    found: list[str] = faults(disk, wanted, Room(str(program), str(folder)).run(disk, wanted.script, limit))
    return found


@pytest.mark.parametrize("does", [TAKES.format(size=OF_PYTHON), BURNS, SPOILS],
                         ids=["takes too much memory", "takes a second of a processor", "changes the file"])
def test_the_judge_rejects_a_wrong_program(room: Path, does: str) -> None:
    assert faults_of(room, does)


def test_the_judge_accepts_a_right_program(room: Path) -> None:
    assert not faults_of(room, TAKES.format(size=1_000_000))


def is_told(folder: Path) -> bool:
    """Return whether the answer for some disk of the rows differs from the row."""
    for words, wanted in disk_rows():
        disks.disk(folder, words[0], "row.disk", *words[1:])
        if disk_judge.verdict_of((folder / "row.disk").read_bytes())[0] != wanted:
            return True
    return False


# Missing or changed rules; some row has another answer.
WRONG_RULES: dict[str, AbstractContextManager[object]] = {
    "any item limit": mock.patch.object(disk_judge, "LIMITS", range(65_536)),
    "any name": mock.patch.object(disk_judge, "NAME", re.compile(rb".*", re.DOTALL)),
    "equal names and moments": mock.patch.object(disk_judge, "strictly_rise",
                                                 lambda values: sorted(values) == list(values)),
    "any blocks": mock.patch.object(disk_reader, "fault", lambda disk, source: ""),
    "any version": mock.patch.object(disk_reader, "VERSIONS", range(256)),
    "any first part and begin": mock.patch.object(disk_judge, "look_at_begin", lambda source: None),
    "any digests": mock.patch.object(disk_reader, "sha256", lambda data: mock.ANY),
    "bodies of any length": mock.patch.object(disk_judge, "LONGEST_BODY", 2**32),
}


@pytest.mark.parametrize("name", WRONG_RULES)
def test_the_rows_reject_a_wrong_rule(room: Path, name: str) -> None:
    # (without a limit of length, a body is not read at all)
    with WRONG_RULES[name], contextlib.suppress(ValueError):
        assert is_told(room)


def test_the_judge_answers_the_rows_as_they_say(room: Path) -> None:
    assert len([*disk_rows()]) > 100
    assert not is_told(room)
