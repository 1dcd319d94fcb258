"""Tests of the program by worked rows: readable texts whose answers are compared to the byte.

tests/rows/README.md describes the kinds:
NAME.in, NAME.out    a script on standard input of `rs_source mem` (NAME.args has other arguments, one a line)
NAME.session         commands on files, with their input, output, messages and exit statuses
NAME.disks           disks with changes, and whether the program opens them
NAME.http            requests to one `rs_source serve`, and the bytes of the responses, at a fixed clock
"""
import re
import shlex
import subprocess
from pathlib import Path

import pytest

from tests.disks import disks
from tests.program import MEMORY, SECONDS, STILL_CLOCK, ask, compare, interposed
from tests.rows.reader import ROWS, exchanges_of, steps_of, written_out


def named(suffix: str) -> pytest.MarkDecorator:
    """Run a test for every row with this suffix."""
    rows = sorted(ROWS.glob(f"*{suffix}"))
    return pytest.mark.parametrize("row", rows, ids=[row.stem for row in rows])


@pytest.mark.plain
@named(".in")
def test_a_script_in_memory_is_answered(program: str, room: Path, row: Path) -> None:
    args = row.with_suffix(".args")
    words = args.read_text().splitlines() if args.exists() else MEMORY
    script = b"".join(written_out(line) for line in row.read_bytes().splitlines(keepends=True))
    finished = subprocess.run([program, *words], input=script, capture_output=True, cwd=room, timeout=SECONDS)
    assert (finished.returncode, finished.stderr) == (0, b"")
    compare("output", row.with_suffix(".out").read_bytes(), finished.stdout)


def output_of(program: str, words: list[str], script: bytes, room: Path) -> bytes:
    """Return the output of a command, then its messages after `! `, and a nonzero exit status after `? `."""
    if words[0] == "rs_source":
        finished = subprocess.run([program, *words[1:]], input=script, capture_output=True, cwd=room, timeout=SECONDS)
        output = finished.stdout + b"".join(b"! " + line for line in finished.stderr.splitlines(keepends=True))
        return output + (b"? %d\n" % finished.returncode if finished.returncode else b"")
    return disks.COMMANDS[words[0]](room, *words[1:]).encode()


def run_steps(program: str, text: bytes, room: Path) -> None:
    """Run commands on files, one after another."""
    for words, script, wanted in steps_of(text):
        compare(ascii(shlex.join(words)), wanted, output_of(program, words, script, room))


@pytest.mark.plain
@named(".session")
def test_commands_on_files_are_answered(program: str, room: Path, row: Path) -> None:
    run_steps(program, row.read_bytes(), room)


def opened(program: str, words: list[str], room: Path) -> str:
    """Return `opens` for the disk with this name and these changes, or else the refusal."""
    disks.disk(room, words[0], "it.disk", *words[1:])
    output = output_of(program, ["rs_source", "run", "it.disk"], b"", room).decode()
    refused = re.fullmatch(r"! rs_source: (\w+)\n\? 1\n", output)
    return refused[1] if refused else output or "opens"


@pytest.mark.plain
@named(".disks")
def test_disks_open_or_are_refused(program: str, room: Path, row: Path) -> None:
    for line in row.read_bytes().splitlines():
        words = written_out(line).decode().split()
        if words and not line.startswith(b"#"):
            compare(line.decode(), words.pop().encode(), opened(program, words, room).encode())


@pytest.mark.plain
@pytest.mark.needs("cc")
@named(".http")
def test_requests_are_answered(program: str, room: Path, row: Path) -> None:
    """Send every request on its own connection, after the steps that make the file source.disk."""
    before, requests = re.split(rb"(?m)^(?=>)", row.read_bytes(), maxsplit=1)
    run_steps(program, before, room)
    if not (room / "source.disk").exists():
        subprocess.run([program, "format", "source.disk", *MEMORY[1:]], cwd=room, check=True, capture_output=True)
    exchanges = exchanges_of(requests)
    words = [program, "serve", "source.disk", "0", str(len(exchanges))]
    still = interposed(room, "clock", STILL_CLOCK)
    with subprocess.Popen(words, cwd=room, stdout=subprocess.PIPE, env=still) as server:
        try:
            assert server.stdout
            port = int(server.stdout.readline().rpartition(b":")[2])
            for number, (sent, wanted) in enumerate(exchanges, 1):
                compare(f"request {number}, {sent[:60]!r}", wanted, ask(port, sent))
            assert server.wait(SECONDS) == 0
        finally:
            server.kill()
