"""Tests of the judge of the twins: it rejects a program that behaves differently."""
from pathlib import Path

import pytest

from tests.served_source import with_clock
from tests.twins.twin_runs import SEED, Differ, Twins, disks, same_responses, script, words

needs_cc = pytest.mark.needs("cc")

# Shell scripts that run the program and change its behaviour. `$f` is its file, if it has one.
WRONG = {
    "a byte more of output": '"$p" "$@"; s=$?; printf "\\n"; exit $s',
    "the last byte of output is lost": '"$p" "$@" | head -c -1',
    "a message": '"$p" "$@"; s=$?; echo well >&2; exit $s',
    "another status": '"$p" "$@"; exit 3',
    "a bit of the file is another":
        '"$p" "$@"; s=$?; [ -f "$f" ] && printf "\\001" | dd of="$f" bs=1 seek=8200 conv=notrunc 2>/dev/null; exit $s',
    "the file is a byte longer": '"$p" "$@"; s=$?; [ -f "$f" ] && printf "\\0" >> "$f"; exit $s',
    "the file is gone": '"$p" "$@"; s=$?; [ -f "$f" ] && rm "$f"; exit $s',
}
RESPONSES = [
    ((b"HTTP/1.1 200 OK", False), (b"HTTP/1.1 201 OK", False)),
    ((b"HTTP/1.1 200 OK", False), (b"HTTP/1.1 200 O", False)),
    ((b"HTTP/1.1 200 OK", False), (b"", False)),
    ((b"HTTP/1.1 200 OK", True), (b"HTTP/1.1 400 OK", True)),
    ((b"HTTP/1.1 200 OK", False), (b"HTTP/1.1 400", True)),
]


def wrong_program(program: str, folder: Path, does: str) -> str:
    """Return a program that behaves differently."""
    path = folder / "wrong"
    path.write_text(f'#!/bin/sh\nf="$2" p="{program}"\n{does}\n')
    path.chmod(0o755)
    return str(path)


def are_told(twins: Twins) -> bool:
    """Return whether a script on a file, some disks or some command lines show a difference between the twins."""
    for look in (script, disks, words):
        try:
            look(twins, SEED, 0)
        except Differ:
            return True
    return False


@needs_cc
@pytest.mark.parametrize("name", WRONG)
def test_the_judge_rejects_a_wrong_program(name: str, program: str, room: Path) -> None:
    assert are_told(Twins((program, wrong_program(program, room, WRONG[name])), room, with_clock(room)))


@needs_cc
def test_the_judge_accepts_a_program_as_its_own_twin(program: str, room: Path) -> None:
    assert not are_told(Twins((program, program), room, with_clock(room)))


@pytest.mark.parametrize("one, other", RESPONSES)
def test_the_judge_rejects_another_response(one: tuple[bytes, bool], other: tuple[bytes, bool]) -> None:
    with pytest.raises(Differ):
        same_responses(one, other)
