"""Run `ropepeach fill` in the test's process, on a source whose files the command remembers."""
from __future__ import annotations

import contextlib
import io
import os
import pathlib
from collections.abc import Iterator
from unittest import mock

from operations.tests.tools.running import Server, written
from ropepeach.cli import command
from ropepeach.fill import files, memory
from tests.reading import disk_formats, disk_reader

COUNT = 20
FILES = {f"d/{number:02}.txt": b"%d" % number * 50 for number in range(COUNT)}


@contextlib.contextmanager
def settled(grain: int = 0) -> Iterator[None]:
    """Make files count as old enough to be remembered from the start."""
    with mock.patch.object(files, "GRAIN", grain), mock.patch.object(files, "YOUNG", 0.0):
        yield


def filled(url: str, *words: str, folder: str = "folder") -> tuple[int, str, str, list[str]]:
    """Run fill in this process; return its exit status, output, messages, and the names of the files that it read."""
    names: list[str] = []
    read = files.Files.read

    def noted(self: files.Files, name: str) -> files.FileReading:
        names.append(name)
        return read(self, name)

    output, messages = io.StringIO(), io.StringIO()
    reading = mock.patch.object(files.Files, "read", noted)
    with contextlib.redirect_stdout(output), contextlib.redirect_stderr(messages), reading:
        try:
            status = command.main(["fill", folder, url, *words])
        except SystemExit as end:
            status = int(end.code or 0)
    return status, output.getvalue(), messages.getvalue(), names


def put(printed: str) -> str:
    """Return the number of puts in the summary."""
    return printed.splitlines()[-1].split(" (")[0]


def status_and_puts(url: str, *words: str) -> tuple[int, str]:
    """Run fill in this process; return the exit status and the number of puts."""
    status, printed, _, _ = filled(url, *words)
    return status, put(printed)


@contextlib.contextmanager
def remembered(program: str, room: pathlib.Path) -> Iterator[tuple[Server, pathlib.Path]]:
    """Fill a source by a run that remembers all files; yield it, and the path of the state."""
    written("folder", FILES)
    with mock.patch.dict(os.environ, XDG_STATE_HOME=str(room / "state")), Server(program, "a.disk") as server:
        with settled():
            status, printed, messages, _ = filled(server.url)
            assert (status, put(printed), messages) == (0, f"{COUNT} put", "")
            yield server, pathlib.Path(memory.file_of(server.url))


def damage(server: Server, *names: str) -> None:
    """Invert a byte in the bodies of some resources, while the program is stopped."""
    server.kill()
    data = bytearray(server.disk.read_bytes())
    for page in disk_reader.source_of(bytes(data)).catalogue:
        for record in page.items:
            if record.name.decode() in names:
                data[record.first * disk_formats.BLOCK] ^= 1
    server.disk.write_bytes(bytes(data))
    server.start()


def verified(server: Server) -> list[str]:
    """Return the lines of the program's `verify`."""
    lines: list[str] = server.answers("verify").decode().splitlines()
    server.start()
    return lines
