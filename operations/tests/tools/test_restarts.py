"""Run `ropepeach fill` and `mirror` through the documented site of nginx with TLS, while the program is restarted,
stopped by SIGSTOP or killed.

The program is back after a second. A run exits 0, and then the source and the mirror have the files of the folder. Only
owners of a certificate can change the source.
"""
from __future__ import annotations

import contextlib
import os
import pathlib
import re
import shutil
import signal
import subprocess
import time
from collections.abc import Callable, Iterator, Sequence

import pytest

from operations.tests.mirror.mirrors import DIRECT
from operations.tests.system import install_looks, install_shared
from operations.tests.tools.running import SECONDS, Run, begun, ended, files_of, wait_until, written
from tests.served_source import free_port

pytestmark = pytest.mark.needs("nginx", "openssl")

# Seconds without the program, and seconds for which nginx caches a list.
AWAY, KEPT = 1.0, install_looks.HEAD
SMALL, LARGE = 100, 12


def files(version: str) -> dict[str, bytes]:
    """Return small files, which are put in groups, and large files, which are put alone."""
    return {f"small/{number:03}.txt": f"{version} {number}\n".encode() * 20 for number in range(SMALL)} | \
           {f"large/{number:03}.bin": f"{version} {number:03}\n".encode() * 8_000 for number in range(LARGE)}


class Site:
    """A source behind nginx with TLS, whose program can be restarted, stopped and killed."""

    def __init__(self, program: str, room: pathlib.Path, port: int, source: subprocess.Popen[bytes],
                 inner: int) -> None:
        self.program, self.room, self.url = program, room, f"https://127.0.0.1:{port}"
        self.source, self.inner = source, inner
        self.environment = os.environ | DIRECT | {"SSL_CERT_FILE": f"{room}/server.crt"}

    def fill(self) -> Run:
        """Start `ropepeach fill`."""
        return begun("fill", "folder", self.url, "--certificate", f"{self.room}/known.pem", env=self.environment)

    def mirror(self) -> Run:
        """Start `ropepeach mirror`."""
        return begun("mirror", self.url, "mirror", env=self.environment)

    def start(self) -> None:
        """Start the program, and wait until it listens."""
        words = [self.program, "serve", "a.disk", str(self.inner), "1000000"]
        self.source = subprocess.Popen(words, stdout=subprocess.PIPE)
        assert self.source.stdout
        with self.source.stdout as output:
            assert output.readline() == b"listening 127.0.0.1:%d\n" % self.inner

    def end(self, number: int) -> None:
        """End the program by a signal, and start it again after a second."""
        self.source.send_signal(number)
        self.source.wait(SECONDS)
        time.sleep(AWAY)
        self.start()

    def restart(self) -> None:
        """Restart the program by SIGTERM."""
        self.end(signal.SIGTERM)

    def kill(self) -> None:
        """Kill the program, and start it again."""
        self.end(signal.SIGKILL)

    def stop(self) -> None:
        """Stop the program for a second by SIGSTOP."""
        self.source.send_signal(signal.SIGSTOP)
        time.sleep(AWAY)
        self.source.send_signal(signal.SIGCONT)


def trusting(room: pathlib.Path) -> Callable[[str], str]:
    """Return a change of nginx's settings: its certificate, and a client certificate that allows changes."""
    server, known = (install_shared.certified(str(room), name) for name in ("server", "known"))

    def change(site: str) -> str:
        site = re.sub(r"/etc/ssl/(certs|private)/source\.example\.org\.(pem|key)", server, install_looks.far(site))
        return re.sub(r"(?m)^ *# (ssl_)", r"\1", site).replace("/etc/ssl/certs/depositors.pem", f"{room}/known.crt")

    return change


@contextlib.contextmanager
def site(program: str, room: pathlib.Path) -> Iterator[Site]:
    """Serve a source; stop it with the block."""
    port = free_port()
    subprocess.run([program, "format", "a.disk", str(64 << 20), f"https://127.0.0.1:{port}", "60"], check=True,
                   capture_output=True, timeout=SECONDS)
    with install_looks.proxied(program, str(room), trusting(room), port) as (_, source, inner):
        served = Site(program, room, port, source, inner)
        try:
            yield served
        finally:
            served.source.kill()
            served.source.wait(SECONDS)


def whole(what: str, run: Run) -> tuple[str, str]:
    """Check that a run succeeds; return its output and its messages."""
    status, output, messages = ended(run)
    assert status == 0, f"{what}: {messages}"
    return output, messages


def filled_amid(served: Site, event: Callable[[], object]) -> Run:
    """Start fill, and call `event` during its puts."""
    disk = pathlib.Path("a.disk")
    before, run = disk.stat().st_mtime_ns, served.fill()
    wait_until(lambda: disk.stat().st_mtime_ns != before or run.poll() is not None, "the first put")
    assert run.poll() is None
    event()
    return run


def mirrored_amid(served: Site, event: Callable[[], object]) -> Run:
    """Start mirror, and call `event` during its fetches."""
    shutil.rmtree("mirror", ignore_errors=True)
    run, folder = served.mirror(), pathlib.Path("mirror")
    wait_until(lambda: any(folder.glob("*/*")) or run.poll() is not None, "the first file")
    assert run.poll() is None
    event()
    return run


def rounds(served: Site, begin: str, event: Callable[[], object], versions: Sequence[str]) -> None:
    """Fill and mirror versions of the folder, with an event during one of the two."""
    for version in versions:
        folder = written("folder", files(version))
        fills = begin == "fill"
        whole("fill", filled_amid(served, event) if fills else served.fill())
        # (nginx may serve older lists until then)
        time.sleep(KEPT)
        whole("mirror", served.mirror() if fills else mirrored_amid(served, event))
        assert files_of(folder) == files_of("mirror")


@pytest.fixture
def served(program: str, room: pathlib.Path) -> Iterator[Site]:
    """Serve an empty source."""
    with site(program, room) as running:
        yield running


@pytest.mark.parametrize("event", ["restart", "stop", "kill"])
@pytest.mark.parametrize(("begin", "versions"), [("fill", ["one", "two"]), ("mirror", ["one"])])
def test_a_run_waits_for_a_program_that_is_away_and_loses_nothing(
        served: Site, begin: str, versions: list[str], event: str) -> None:
    rounds(served, begin, getattr(served, event), versions)


def test_a_killed_fill_and_a_killed_mirror_are_resumed_by_the_same_command(served: Site) -> None:
    folder = written("folder", files("one"))
    fill = filled_amid(served, lambda: None)
    fill.kill()
    ended(fill)
    time.sleep(KEPT)
    assert "0 deleted, " in whole("fill", served.fill())[0]
    time.sleep(KEPT)
    mirror = mirrored_amid(served, lambda: None)
    mirror.kill()
    ended(mirror)
    whole("mirror", served.mirror())
    assert files_of(folder) == files_of("mirror")


@pytest.mark.parametrize(("host", "is_trusted", "why"), [
    ("localhost", True, "localhost'"), ("127.0.0.1", False, "verify failed")],
    ids=["of another host", "of an unknown issuer"])
def test_a_wrong_certificate_ends_a_run_at_once(served: Site, host: str, is_trusted: bool, why: str) -> None:
    environment = {name: value for name, value in served.environment.items() if is_trusted or name != "SSL_CERT_FILE"}
    url = served.url.replace("127.0.0.1", host)
    status, output, messages = ended(begun("mirror", url, "mirror", env=environment))
    assert (status, output, messages.count("\n")) == (1, "", 1), messages
    assert why in messages
    assert not os.path.exists("mirror")
