"""Simulate a machine: its own /etc, /var/lib and /var/cache in a mount namespace, and a systemd that only starts
sources.

nginx, runuser and the program are real. Small programs wrap the programs of the steps, and can kill the command.
"""
from __future__ import annotations

import contextlib
import http.client
import json
import os
import shutil
import signal
import subprocess
import time
from collections.abc import Iterator
from dataclasses import dataclass
from pathlib import Path

import pytest

from operations.tests.tools import COMMAND

USER, NUMBER = "ropepeach", 987
# The timeout of a run of the command in seconds.
SECONDS = 60
# Files of this machine's /etc that the simulated machine has.
COPIED = ("passwd", "group", "shadow", "nsswitch.conf", "login.defs", "pam.d", "security", "ld.so.cache", "localtime",
          "mime.types", "nginx")
MOUNTED = {"etc": "/etc", "lib": "/var/lib", "cache": "/var/cache", "bin": "/usr/local/bin"}
# Programs of the steps, and the paths of the real ones.
STEPPED = {"runuser": "/usr/sbin/runuser", "nginx": "/usr/sbin/nginx", "ln": "/bin/ln",
           "systemctl": "/usr/local/bin/made-up-systemctl"}
# A wrapper that counts the programs of steps. The program of one number kills its parent, before it begins or after it.
STEP = """#!/bin/sh
count=$(($(cat /var/cache/count) + 1))
echo $count > /var/cache/count
[ "$KILL_BEFORE" = $count ] && kill -KILL $PPID && exit 1
{real} "$@"
status=$?
[ "$KILL_BEHIND" = $count ] && kill -KILL $PPID
exit $status
"""
SYSTEMCTL = r"""#!/bin/sh
echo "$*" >> /var/cache/calls
service() {
    for unit in "$@"; do
        case $unit in
            ropepeach.service) echo source ;;
            ropepeach@*.service) unit=${unit#*@}; echo ${unit%.service} ;;
        esac
    done
}
pid_of() { cat /var/cache/pid-$1 2>/dev/null && kill -0 $(cat /var/cache/pid-$1) 2>/dev/null; }
start() {
    pid_of $1 > /dev/null && return
    . /etc/ropepeach/$1.env
    setsid setpriv --reuid=987 --regid=987 --clear-groups \
        /usr/local/bin/rs_source serve $FILE $PORT 1000000 > /dev/null 2>&1 < /dev/null &
    echo $! > /var/cache/pid-$1
    until grep -q "$(printf '0100007F:%04X 00000000:0000 0A' $PORT)" /proc/self/net/tcp; do
        kill -0 $(cat /var/cache/pid-$1) 2>/dev/null || exit 1
        sleep 0.05
    done
}
stop() {
    pid_of $1 > /dev/null || return 0
    kill $(cat /var/cache/pid-$1)
    while pid_of $1 > /dev/null; do sleep 0.05; done
    rm /var/cache/pid-$1
}
case $1 in
    enable | start) for unit in $(service "$@"); do start $unit; done ;;
    disable | stop) for unit in $(service "$@"); do stop $unit; done ;;
    show) for unit in $(service "$@"); do pid_of $unit || echo 0; done ;;
esac
"""
ENTER = "".join(f'/bin/mount --bind "$0/{name}" {path} && ' for name, path in MOUNTED.items()) + 'cd / && exec "$@"'


@dataclass(frozen=True)
class Machine:
    """A simulated machine in a folder."""

    room: Path

    def run(self, *words: str, **more: str) -> subprocess.CompletedProcess[str]:
        """Run a program in it."""
        (self.room / "cache/count").write_text("0\n")
        environment = {"PATH": "/usr/local/bin:/usr/sbin:/usr/bin:/sbin:/bin", "HOME": "/root", "LANG": "C.UTF-8",
                       **more}
        return subprocess.run(["/usr/bin/unshare", "--mount", "/bin/sh", "-c", ENTER, str(self.room), *words],
                              env=environment,
                              capture_output=True, text=True, timeout=SECONDS, stdin=subprocess.DEVNULL)

    def command(self, *words: str, **more: str) -> subprocess.CompletedProcess[str]:
        """Run `ropepeach` in it."""
        return self.run(*COMMAND, *words, **more)

    def count(self) -> int:
        """Return the number of programs of steps that the last run began."""
        return int((self.room / "cache/count").read_text())

    def calls(self) -> list[str]:
        """Return the calls of systemctl."""
        path = self.room / "cache/calls"
        return path.read_text().splitlines() if path.exists() else []

    def tree(self) -> dict[str, tuple[int, int, bytes | str]]:
        """Return all files that may be changed, by path: mode, owner, and bytes or link target."""
        found: dict[str, tuple[int, int, bytes | str]] = {}
        for folder in ("etc/ropepeach", "etc/nginx", "etc/systemd", "lib/ropepeach"):
            for path in sorted((self.room / folder).rglob("*")):
                status = path.lstat()
                content: bytes | str = os.readlink(
                    path) if path.is_symlink() else path.read_bytes() if path.is_file() else b""
                found[str(path.relative_to(self.room))] = (status.st_mode, status.st_uid, content)
        return found

    def pid(self, name: str) -> int:
        """Return the process id of a source."""
        return int((self.room / f"cache/pid-{name}").read_text())

    def look(self, file: str) -> dict[str, object]:
        """Return the facts of one of its files by `ropepeach look`."""
        answer: dict[str, object] = json.loads(self.command("look", "--json", file).stdout)["results"][0]
        return answer


def build(room: Path, program: str) -> Machine:
    """Build the folders of a machine."""
    for name in COPIED:
        if Path("/etc", name).is_dir():
            shutil.copytree(Path("/etc", name), room / "etc" / name, symlinks=True)
        elif Path("/etc", name).exists():
            (room / "etc").mkdir(exist_ok=True)
            shutil.copy(Path("/etc", name), room / "etc" / name)
    for name in ("etc/ropepeach", "etc/nginx/sites-enabled", "etc/nginx/sites-available", "lib/ropepeach", "lib/nginx",
                 "cache", "bin", "etc/ssl"):
        (room / name).mkdir(parents=True, exist_ok=True)
    for site in (room / "etc/nginx/sites-enabled").iterdir():
        site.unlink()
    for name, line in (("passwd", f"{USER}:x:{NUMBER}:{NUMBER}::/var/lib/ropepeach:/bin/false\n"),
                       ("group", f"{USER}:x:{NUMBER}:\n")):
        with open(room / "etc" / name, "a", encoding="utf-8") as table:
            table.write(line)
    os.chown(room / "lib/ropepeach", NUMBER, NUMBER)
    (room / "lib/ropepeach").chmod(0o700)
    programs = {"made-up-systemctl": SYSTEMCTL} | {name: STEP.format(real=real) for name, real in STEPPED.items()}
    for name, text in programs.items():
        (room / "bin" / name).write_text(text)
        (room / "bin" / name).chmod(0o755)
    shutil.copy(program, room / "bin/rs_source")
    return Machine(room)


@contextlib.contextmanager
def machine(room: Path, program: str) -> Iterator[Machine]:
    """Yield a machine, and end its sources with the block; skip the test where folders cannot be mounted."""
    if subprocess.run(["unshare", "--mount", "true"], capture_output=True).returncode:
        pytest.skip("nobody may mount folders here (unshare)")
    room.mkdir(exist_ok=True)
    made = build(room, program)
    try:
        yield made
    finally:
        for path in (room / "cache").glob("pid-*"):
            with contextlib.suppress(ProcessLookupError, ValueError):
                os.kill(int(path.read_text()), signal.SIGCONT)
                os.kill(int(path.read_text()), signal.SIGKILL)


def request(made: Machine, method: str, path: str, body: bytes | None = None) -> tuple[int, bytes]:
    """Send a request to the source; return its status and its body."""
    settings = (made.room / "etc/ropepeach/one.env").read_text()
    port = int(settings.rpartition("PORT=")[2])
    with contextlib.closing(http.client.HTTPConnection("127.0.0.1", port, timeout=30)) as connection:
        connection.request(method, path, body, {"Content-Type": "text/plain"} if body is not None else {})
        answer = connection.getresponse()
        return answer.status, answer.read()


def is_closed(made: Machine) -> bool:
    """Return whether the port of the source is closed."""
    try:
        request(made, "GET", "/capabilitylist.xml")
    except ConnectionError:
        return True
    return False


def until(holds: object, seconds: float = 30) -> None:
    """Wait until a condition holds."""
    end = time.monotonic() + seconds
    while not holds():  # type: ignore[operator]
        assert time.monotonic() < end, f"not within {seconds} seconds"
        time.sleep(0.05)
