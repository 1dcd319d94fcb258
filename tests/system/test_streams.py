"""Tests of long scripts, of standard streams that fail, and of sizes of disks that are no multiple of a block."""
import contextlib
import os
import select
import subprocess
from collections.abc import Iterator
from pathlib import Path
from typing import IO, NamedTuple

import pytest

from tests.program import MEMORY, interposed
from tests.system.edge_runs import HOST, SECONDS, SYSTEM, ask, formatted, peak, put_of, run, served

pytestmark = [pytest.mark.plain, pytest.mark.needs("cc")]

MIB = 1 << 20
# Lines of a long script.
TALK = 25_000
# Bytes of a body, rounds of requests or lines in a short and a long run, and the allowed growth of memory in KiB.
BODY, ROUNDS, LONG_ROUNDS, GROWN = MIB // 4, 20, 1_000, 1_024
STATUS = b"resources 1 "


class Talk(NamedTuple):
    """A conversation with a running script."""

    process: subprocess.Popen[bytes]
    output: IO[bytes]

    def send(self, data: bytes) -> None:
        """Send bytes, of which a script that has ended reads none."""
        assert self.process.stdin
        with contextlib.suppress(BrokenPipeError):
            self.process.stdin.write(data)
            self.process.stdin.flush()

    def ask(self, lines: bytes) -> bytes:
        """Send lines and then `status`; return all output up to its answer, or before a wait of SECONDS."""
        self.send(lines + b"status\n")
        found = b""
        while not found.rpartition(b"\n")[0].rpartition(b"\n")[2].startswith(b"resources "):
            is_ready = select.select([self.output], [], [], SECONDS)[0]
            if not is_ready or not (piece := os.read(self.output.fileno(), MIB)):
                break
            found += piece
        return found


@contextlib.contextmanager
def talk(program: str, *words: str) -> Iterator[Talk]:
    """Yield a conversation, which ends with status 0."""
    with subprocess.Popen([program, *words], stdin=subprocess.PIPE, stdout=subprocess.PIPE) as process:
        try:
            assert process.stdin and process.stdout
            yield Talk(process, process.stdout)
            with contextlib.suppress(BrokenPipeError):
                process.stdin.close()
            assert process.wait(SECONDS) == 0
        finally:
            process.kill()


def test_a_script_of_300_mib_is_read_to_its_end(program: str, room: Path) -> None:
    file = formatted(program, room)
    with talk(program, "run", file) as conversation:
        for _ in range(300):
            conversation.send(b"x" * MIB)
        found = conversation.ask(b"\nput a 61 a/b\n")
    assert [line.split(b" ")[0] for line in found.splitlines()] == [b"refused", b"created", b"resources"]


def test_every_line_of_a_long_conversation_is_answered(program: str) -> None:
    with talk(program, *MEMORY) as conversation:
        for at in range(TALK):
            assert conversation.ask(b"").startswith(b"resources 0 "), f"line {at + 1}"


def test_a_disk_in_memory_makes_thousands_of_calls(program: str, room: Path) -> None:
    """Every `verify` reads the body by one call."""
    answers = run(program, room, *MEMORY, script=b"put a 61 a/b\n" + b"verify\n" * TALK)[2].splitlines()[1:]
    assert answers == [b"verified 1"] * TALK


@pytest.mark.long
def test_a_disk_in_memory_may_exceed_256_mib(program: str, room: Path) -> None:
    words = ["mem", str(300 * MIB), *MEMORY[2:]]
    assert run(program, room, *words, script=b"put a 61 a/b\n")[2].startswith(b"created ")


@pytest.mark.parametrize("words, status", [([], 2), (["run", "missing.disk"], 1),
                                           (["copy", "a.disk", "a.disk", "8192"], 1)])
def test_a_failure_of_standard_error_leaves_the_exit_status(program: str, room: Path, words: list[str],
                                                             status: int) -> None:
    formatted(program, room)
    assert run(program, room, *words)[0] == status
    with open("/dev/full", "wb") as full:
        assert subprocess.run([program, *words], stderr=full, check=False).returncode == status
    assert subprocess.run([program, *words], preexec_fn=lambda: os.close(2), check=False).returncode == status


def test_output_that_cannot_be_written_fails_on_a_closed_source_too(program: str, room: Path) -> None:
    system, found = interposed(room, "system", SYSTEM), set[bytes]()
    for at in range(1, 20):
        Path("a.disk").unlink(missing_ok=True)
        formatted(program, room)
        with open("/dev/full", "wb") as full:
            status, error, _ = run(program, room, "run", "a.disk", script=b"put a 61 a/b\nstatus\n", stdout=full,
                                   env=system | {"FILE_FAILS_AT": str(at)})
        assert status == 1, f"call {at} fails"
        found.add(error)
    assert found == {b"rs_source: Device\n", b"rs_source: Write\n"}


@pytest.mark.parametrize("size", [8_192, 8_193, 8_703, 65_535])
def test_a_size_may_be_no_multiple_of_a_block(program: str, room: Path, size: int) -> None:
    formatted(program, room)
    for word, words in [("formatted", ["format", "new.disk", str(size), *MEMORY[2:]]),
                        ("copied", ["copy", "a.disk", "new.disk", str(size)])]:
        Path("new.disk").unlink(missing_ok=True)
        assert run(program, room, *words)[::2] == (0, f"{word} {size}\n".encode())
        assert Path("new.disk").stat().st_size == size


def request(method: bytes, path: bytes, body: bytes = b"") -> bytes:
    """Return a request with a body."""
    return method + b" " + path + b" " + HOST + b"Content-Length: %d\r\n\r\n" % len(body) + body


HEX = b"put c %s a/b\n" % (b"61" * BODY)
REQUESTS = {
    "PUT": put_of(BODY), "GET": b"GET /resource/c " + HOST + b"\r\n", "HEAD": b"HEAD /resource/c " + HOST + b"\r\n",
    "group": request(b"POST", b"/group", HEX), "publish": request(b"POST", b"/publish"),
    "list": b"GET /resourcelist.xml " + HOST + b"\r\n", "delete": request(b"DELETE", b"/resource/zz"),
    "refused": request(b"PUT", b"/resource/%00", b"x" * 10_000),
}
LINES = {"put": HEX, "show": b"show /resource/c\n", "group": b"group 1\n" + HEX, "publish": b"publish\n",
         "verify": b"verify\n", "list": b"show /resourcelist.xml\n", "delete": b"delete zz\n",
         "refused": b"x" * BODY + b"\n"}


@pytest.fixture
def rounds(request: pytest.FixtureRequest) -> int:
    """Return the number of rounds."""
    return LONG_ROUNDS if request.config.getoption("--long") else ROUNDS


@pytest.fixture
def held(program: str, room: Path) -> str:
    """Return a source with a body."""
    file = formatted(program, room, size=str(16 * MIB))
    run(program, room, "run", file, script=HEX)
    return file


@pytest.mark.parametrize("kind", REQUESTS)
def test_the_memory_of_a_server_is_steady(program: str, room: Path, held: str, rounds: int, kind: str) -> None:
    """From the eleventh request of a kind on, bodies of 256 KiB take no more memory."""
    with served(program, room, rounds + 1) as (port, server):
        for at in range(rounds):
            assert ask(port, REQUESTS[kind]).startswith(b"HTTP/1.1 ")
            if at == 10:
                before = peak(server)
        grown = peak(server) - before
        ask(port, REQUESTS[kind])
    assert grown <= GROWN


@pytest.mark.parametrize("kind", LINES)
def test_the_memory_of_a_script_is_steady(program: str, held: str, rounds: int, kind: str) -> None:
    """From the eleventh line of a kind on, bodies of 256 KiB take no more memory."""
    with talk(program, "run", held) as conversation:
        for at in range(rounds):
            assert STATUS in conversation.ask(LINES[kind])
            if at == 10:
                before = peak(conversation.process)
        grown = peak(conversation.process) - before
    assert grown <= GROWN
