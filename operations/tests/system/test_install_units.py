"""Test the commands of the units of publications, fills and mirrors."""
from __future__ import annotations

import os
import pathlib
import re
import shlex
import subprocess

from operations.tests import PYTHON
from operations.tests.system.install_looks import INSTALL
from operations.tests.system.install_shared import answering, request, told_by
from operations.tests.tools.running import Server
from tests.program import TOOLS
from tests.served_source import serving

BASE = "http://a.example"


def published(port: int) -> tuple[str, int]:
    """Return the output of `publish`, and its exit status."""
    environment = os.environ | {"PYTHONPATH": str(TOOLS), "no_proxy": "127.0.0.1"}
    return told_by(PYTHON, INSTALL / "publish", str(port), env=environment)


def test_publish_skips_a_publication_without_changes(program: str, room: pathlib.Path) -> None:
    """The unit of publications fails with one line if the source does not answer."""
    subprocess.run([program, "format", "a.disk", "262144", BASE, "2"], cwd=room, check=True,
                   capture_output=True)
    with serving(program, room) as (url, _):
        port = int(url.rpartition(":")[2])
        assert published(port) == ("nothing changed since the publication of 1970-01-01T00:00:00.000Z\n", 0)
        for number in (1, 2):
            request(port, "PUT", "/resource/a", b"%d" % number)
            output, status = published(port)
            assert (output[:12], status) == (f"published {number} ", 0), f"change {number}"
            output, status = published(port)
            assert (output[:21], status) == ("nothing changed since", 0), f"no change after {number}"
        request(port, "PUT", "/resource/b", b"1")
        request(port, "DELETE", "/resource/b")
        output, status = published(port)
        assert (output[:21], status) == ("nothing changed since", 0)
    with answering(404, b"no\x1b[2J") as server:
        output, status = published(server.port)
    assert (status, "404" in output and "\x1b" not in output, output.count("\n")) == (1, True, 1)


def started_by(unit: str) -> str:
    """Return the command line of a unit."""
    line = re.search(r"(?m)^ExecStart=(.*)", unit)
    assert line
    return line[1].replace("/usr/local/bin/ropepeach", shlex.join([PYTHON, str(TOOLS / "ropepeach-command")]), 1)


def words_of(line: str, settings: dict[str, str]) -> list[str]:
    """Return the words of a command line: systemd splits the value of $NAME into words, and not that of ${NAME}."""
    words: list[str] = []
    for word in shlex.split(line):
        braced = re.fullmatch(r"\$\{(\w+)\}", word)
        split = settings[word[1:]].split() if word.startswith("$") and not braced else [word]
        words += [settings[braced[1]]] if braced else split
    return words


def test_the_fill_unit_fills_a_source(program: str, room: pathlib.Path) -> None:
    """The unit keeps its notes in its state folder, and splits OPTIONS into words."""
    unit = INSTALL.joinpath("ropepeach-fill@.service").read_text()
    state = re.search(r"(?m)^StateDirectory=(.*)", unit)
    assert state
    assert f"XDG_STATE_HOME=%S/{state[1]}" in unit
    subprocess.run([program, "format", "a.disk", "262144", BASE, "2"], cwd=room, check=True,
                   capture_output=True)
    folder = pathlib.Path(room, "a folder")
    folder.mkdir()
    folder.joinpath("a.txt").write_bytes(b"a")
    os.symlink("a.txt", folder / "link")
    with serving(program, room) as (url, _):
        for options, wanted in (("", 3), ("--skip-unlawful --no-publish", 0)):
            settings = {"OPTIONS": options, "FOLDER": str(folder), "SOURCE": url}
            output, status = told_by(*words_of(started_by(unit), settings), env=os.environ
                                     | {"XDG_STATE_HOME": f"{room}/state", "no_proxy": "127.0.0.1"})
            assert status == wanted, f"{options}: {output}"
        assert request(int(url.rpartition(":")[2]), "GET", "/resource/a.txt") == (200, b"a")
    assert len(list(pathlib.Path(room, "state/ropepeach/fill").iterdir())) == 1


def test_the_mirror_unit_mirrors_a_source(program: str, room: pathlib.Path) -> None:
    """The unit splits OPTIONS, empty by default, into words."""
    unit = INSTALL.joinpath("ropepeach-mirror@.service").read_text()
    preset = re.search(r"(?m)^Environment=OPTIONS=(.*)\n(?:.*\n)*?EnvironmentFile=", unit)
    assert preset and not preset[1]
    line = started_by(unit).replace("/var/lib/ropepeach-mirror/%i", f"{room}/mirror")
    with Server(pathlib.Path(program), pathlib.Path(room, "a.disk"), 262_144, 2) as server:
        for name in ("a.txt", "b.tmp"):
            request(server.port, "PUT", f"/resource/{name}", b"a")
        request(server.port, "POST", "/publish")
        for options, names in (("", ["a.txt", "b.tmp"]), ("--exclude *.tmp --yes", ["a.txt"])):
            output, status = told_by(*words_of(line, {"OPTIONS": options, "SOURCE": server.url}),
                                     env=os.environ | {"no_proxy": "127.0.0.1"})
            assert status == 0, f"{options}: {output}"
            files = sorted(path.name for path in pathlib.Path(room, "mirror").iterdir() if path.name[0] != "#")
            assert files == names, options
