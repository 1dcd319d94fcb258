"""Run the command in the test's process, on a terminal, for all subcommands, and for completion."""
from __future__ import annotations

import contextlib
import io
import json
import os
import pty
import subprocess
from collections.abc import Iterator, Sequence
from pathlib import Path
from typing import Any

import ropepeach
from operations.tests.tools import COMMAND
from operations.tests.tools.running import SECONDS, Server, written
from ropepeach.cli import command, output
from tests.program import ROOT

Ran = subprocess.CompletedProcess[str]
# The fields of the object of --json, and of a message in it.
FIELDS = {"command", "version", "status", "results", "messages"}
MESSAGE = {"level", "text"}


def here(*words: str) -> Ran:
    """Run the command in this process; return its exit status, output and messages."""
    texts = io.StringIO(), io.StringIO()
    with contextlib.redirect_stdout(texts[0]), contextlib.redirect_stderr(texts[1]):
        try:
            status: Any = command.main(words)
        except SystemExit as end:
            status = end.code
    return Ran(words, status, texts[0].getvalue(), texts[1].getvalue())


@contextlib.contextmanager
def surroundings(room: Path, program: str) -> Iterator[dict[str, Sequence[str]]]:
    """Yield the arguments of every subcommand, by its name. `takeover` and commands of a missing source fail."""
    folder = written(room / "folder", {"a": b"1", "b/c": b"22"})
    with contextlib.chdir(room), Server(program, room / "a.disk") as server:
        lines = [f'address = "{server.url}"', "[source.s1]", f'address = "{server.url}"', f'base = "{server.url}"',
                 f'file = "{room}/a.disk"']
        Path("collection.toml").write_text("\n".join(lines))
        here("mirror", server.url, "checked")
        yield {
            "fill": [str(folder), server.url], "mirror": [server.url, "m"], "look": ["a.disk"],
            "check": ["checked"],
            "size": [str(folder)],
            "why": ["a.disk", str(server.port)], "health": [server.url], "status": [],
            "publish": [server.url], "site": ["https://a.example"],
            "collection": ["collection.toml", "--into", "into"],
            "grow": ["collection.toml", "--dry-run", "--patience", "0"],
            "new": ["try", "--base", "http://a.example", "--http", "--no-site", "--dry-run"],
            "remove": ["none"], "backup": ["none", "copy.disk"], "restore": ["none", "a.disk", "--dry-run"],
            "takeover": ["a.disk", "10.0.0.1", "--wait", "0", "--sockets", str(room)],
        }


def status_and(done: Ran, status: int) -> Ran:
    """Check the exit status of a run; return the run."""
    assert done.returncode == status, f"status {done.returncode}, and not {status}: {done}"
    return done


@contextlib.contextmanager
def collection_of_two(program: str, room: Path) -> Iterator[list[Server]]:
    """Serve two sources, and write the file collection.toml of them in this folder."""
    base = "https://a.example"
    with (Server(program, room / "0.disk", base=f"{base}/s0") as first,
          Server(program, room / "1.disk", base=f"{base}/s1") as other):
        lines = [f'address = "{base}"']
        for number, server in enumerate((first, other)):
            lines += [f"[source.s{number}]", f'address = "{server.url}"', f'base = "{base}/s{number}"',
                      f'file = "{server.disk}"']
        Path("collection.toml").write_text("\n".join(lines))
        yield [first, other]


def object_of(name: str, done: Ran) -> dict[str, Any]:
    """Return the JSON object that a run printed; check its form."""
    found: dict[str, Any] = json.loads(done.stdout)
    assert set(found) == FIELDS, f"{name}: fields {sorted(found)}"
    assert (found["command"], found["version"], found["status"]) == (name, ropepeach.__version__,
                                                                     done.returncode), f"{name}: {found}"
    assert all(isinstance(result, dict) and result for result in found["results"]), name
    for message in found["messages"]:
        assert MESSAGE <= set(message) <= MESSAGE | {"source"}, f"{name}: {message}"
        assert message["level"] in {level.value for level in output.MessageLevel}, f"{name}: {message}"
    return found


def on_a_terminal(words: Sequence[str], settings: dict[str, str]) -> str:
    """Run the command on a terminal; return its output."""
    ours, its = pty.openpty()
    line = [*COMMAND, *words]
    with subprocess.Popen(line, stdin=its, stdout=its, stderr=its, env=os.environ | settings):
        os.close(its)
        output = b""
        with contextlib.suppress(OSError):
            while piece := os.read(ours, 65_536):
                output += piece
    os.close(ours)
    return output.decode(errors="replace")


def completed(shell: str, text: str) -> list[str]:
    """Return bash's completions of the last word of a line."""
    script = ("source operations/install/ropepeach.bash; COMP_WORDS=({0}); [[ '{0}' == *' ' ]] && COMP_WORDS+=('');"
              " COMP_CWORD=$((${{#COMP_WORDS[@]}} - 1)); _ropepeach;"
              " printf '%s\\n' \"${{COMPREPLY[@]}}\"").format(text)
    return subprocess.run([shell, "-c", script], cwd=ROOT, capture_output=True, text=True,
                          timeout=SECONDS).stdout.split()
