"""One command mirrors every source, continues folders of earlier versions, and ends safely."""
from __future__ import annotations

import json
import os
import signal
import sqlite3
import subprocess
import time
from collections.abc import Callable
from typing import IO

import pytest

from operations.tests.harness.command import Ropepeach
from operations.tests.harness.folder import Mirror
from operations.tests.harness.server import Server, redirect, serving
from operations.tests.harness.source import FakeSource
from operations.tests.tools import COMMAND
from operations.tests.tools.hostile_source import Liar
from operations.tests.tools.mirrored import hold_files
from operations.tests.tools.running import ropepeach as run
from ropepeach.http.response import Response
from ropepeach.http.transfers import Transfer, Transfers
from ropepeach.mirror import catalogue
from ropepeach.mirror.folder import Folder

FILES = {"a": b"one", "b/c": b"two", "d": b"three"}


def resources_asked(liar: Liar) -> list[str]:
    """Return the resources that a source was asked for."""
    return liar.paths("/resource/")


def test_a_folder_of_an_earlier_version_is_taken_over(tmp_path: os.PathLike[str],
                                                      monkeypatch: pytest.MonkeyPatch) -> None:
    """Version 0.1.0 wrote these fields of `#state` for a Ropepeach, and its table of rows."""
    monkeypatch.chdir(tmp_path)
    with Liar() as liar:
        hold_files(liar, FILES)
        assert run("mirror", liar.base, "m")[0] == 0
        state = json.loads(open("m/#state").read())
        assert set(state) == {"source", "until", "newest", "mark"}
        liar.requests.clear()
        status, output, _ = run("mirror", liar.base, "m")
        assert (status, output.split(":")[0], resources_asked(liar)) == (0, "incremental", [])


def test_positions_of_an_earlier_version_are_continued(ropepeach: Ropepeach, source: FakeSource,
                                                       mirror: Mirror) -> None:
    """Version 0.1.0 kept the positions of other sources in `#known`, not in `#state`."""
    source.hold(FILES)
    ropepeach.mirror(source.base).succeeded()
    path = mirror.path / "#state"
    state = json.loads(path.read_text())
    lists = state.pop("lists")
    path.write_text(json.dumps(state))
    with sqlite3.connect(mirror.path / "#known") as base:
        base.executemany("INSERT INTO lists VALUES (?, ?, ?)", [(name, *where) for name, where in lists.items()])
    result = ropepeach.mirror(source.base, "--incremental").succeeded()
    assert "incremental: fetched 0 " in result.output
    assert json.loads(path.read_text())["lists"] == lists


def test_a_refused_first_run_leaves_no_folder(ropepeach: Ropepeach, source: FakeSource, mirror: Mirror) -> None:
    source.hold(FILES)
    ropepeach.mirror(source.base, "--require", "sha-512").failed()
    assert not mirror.path.exists()


def test_a_folder_has_a_name_without_an_argument(tmp_path: os.PathLike[str], monkeypatch: pytest.MonkeyPatch) -> None:
    monkeypatch.chdir(tmp_path)
    with Liar() as liar:
        hold_files(liar, FILES)
        assert run("mirror", liar.base)[0] == 0
        assert open("127.0.0.1/a", "rb").read() == b"one"


def test_an_exact_run_says_so_and_another_one_names_the_rule(tmp_path: os.PathLike[str],
                                                             monkeypatch: pytest.MonkeyPatch) -> None:
    monkeypatch.chdir(tmp_path)
    with Liar() as liar:
        hold_files(liar, FILES)
        found = json.loads(run("mirror", liar.base, "m", "--json", "--require", "exact")[1])["results"][-1]
        assert (found["exact"], found["rule"]) == (True, None)
        liar.resources([f"<url><loc>{liar.base}/x</loc></url>"], attributes="")
        liar.documents({"/x": b"x"})
        found = json.loads(run("mirror", liar.base, "n", "--json")[1])["results"][-1]
        assert (found["exact"], found["rule"]["name"]) == (False, "dated")
        assert run("mirror", liar.base, "o", "--require", "exact")[0] == 1
        assert not os.path.exists("o")


def hear_keys() -> None:
    """Let Ctrl-C end a process, even if the tests run in the background."""
    signal.signal(signal.SIGINT, signal.SIG_DFL)


@pytest.mark.parametrize("number", [signal.SIGINT, signal.SIGTERM])
def test_a_stopped_run_keeps_what_it_fetched(number: signal.Signals, tmp_path: os.PathLike[str],
                                             monkeypatch: pytest.MonkeyPatch) -> None:
    """The last of 20 files does not come: the other files are in place, and known, after the run."""
    monkeypatch.chdir(tmp_path)
    files = {f"{at:02}": b"%d" % at for at in range(20)}
    with Liar() as liar:
        hold_files(liar, files)
        slow = liar.answers["/resource/19"]

        def late() -> list[bytes]:
            """Answer after 20 seconds."""
            time.sleep(20)
            return [slow]

        liar.answers["/resource/19"] = late
        with subprocess.Popen([*COMMAND, "mirror", liar.base, "m"], stdout=subprocess.PIPE, stderr=subprocess.PIPE,
                              env=os.environ | {"no_proxy": "127.0.0.1"}, preexec_fn=hear_keys) as process:
            end = time.monotonic() + 20
            while len(resources_asked(liar)) < 20 and time.monotonic() < end:
                time.sleep(0.05)
            time.sleep(0.3)
            process.send_signal(number)
            assert process.wait(20) == 128 + number
        assert sorted(name for name in os.listdir("m") if name[0] != "#") == sorted(files)[:19]


@pytest.mark.parametrize("options", [[], ["--baseline"]])
def test_a_flipped_byte_of_what_is_known_is_no_traceback(options: list[str], ropepeach: Ropepeach, source: FakeSource,
                                                         mirror: Mirror) -> None:
    source.hold(FILES)
    ropepeach.mirror(source.base).succeeded()
    path = mirror.path / "#known"
    body = path.read_bytes()
    at = body.index(b"text/plain") if b"text/plain" in body else body.index(b"sha-256")
    path.write_bytes(body[:at] + b"\xff" + body[at + 1:])
    ropepeach.mirror(source.base, *options).succeeded()
    assert mirror.held(source) == FILES


class Killed(BaseException):
    """The end of a run by a signal that no program can catch."""


def test_rows_of_increments_are_in_one_of_two_files_at_any_kill(tmp_path: os.PathLike[str],
                                                                monkeypatch: pytest.MonkeyPatch) -> None:
    """`#known-later` is removed once `#known` has its rows: the run is killed while it writes `#known`."""
    monkeypatch.chdir(tmp_path)
    os.mkdir("m")
    monkeypatch.setattr(catalogue, "MOST_LATER", 1)
    folder = Folder("m")

    def note(name: str, is_baseline: bool) -> None:
        """Note a name."""
        noted = catalogue.Catalogue(folder)
        noted.is_baseline = is_baseline
        noted.put(name, catalogue.gone(name)._replace(compared="sha-256"))
        noted.save()
        noted.close()

    def killed(name: str, write: Callable[[IO[bytes]], object]) -> None:
        """Write a file of the mirror itself, except `#known`."""
        if name == catalogue.KNOWN:
            raise Killed
        write_own(name, write)

    note("a", True)
    note("b", False)
    write_own = folder.write_own
    monkeypatch.setattr(folder, "write_own", killed)
    with pytest.raises(Killed):
        note("c", False)
    known = catalogue.whole(folder.tree)
    assert known is not None
    assert [row.place for row in known.rows()] == ["a", "b", "c"]
    known.close()
    folder.close()


@pytest.mark.needs("openssl")
def test_a_certificate_is_for_the_source_alone(tmp_path: os.PathLike[str], server: Server) -> None:
    """After a redirect to another host the client does not show its certificate."""
    path = os.path.join(tmp_path, "client.pem")
    subprocess.run(["openssl", "req", "-x509", "-newkey", "rsa:2048", "-nodes", "-subj", "/CN=client", "-keyout", path,
                    "-out", f"{path}.part"], check=True, capture_output=True)
    with open(path, "ab") as file, open(f"{path}.part", "rb") as part:
        file.write(part.read())
    with serving() as other:
        other.put("/b", b"there")
        server.put("/a", redirect(f"{other.base}/b"))
        transfers = Transfers(server.base, certificate=path)
        [(_, response)] = transfers.each([Followed(f"{server.base}/a", 100)])
        transfers.close()
    assert not isinstance(response, Exception) and response.status == 200
    assert transfers.routes[server.base].certificate == path
    assert transfers.routes[other.base].certificate is None


class Followed(Transfer):
    """A transfer that follows all redirects."""

    is_kept = True

    def redirect(self, response: Response) -> str | None:
        """Return the URL to follow."""
        return str(response.fields.get("Location"))
