"""Run a machine in systemd-nspawn: boot it, run commands, kill it whole, boot it again. It only has loopback."""
from __future__ import annotations

import contextlib
import os
import re
import signal
import subprocess
import time
from collections.abc import Callable
from dataclasses import dataclass
from pathlib import Path
from typing import Any, Self, TypeVar

import pytest

from operations.tests.machine.debian import Missing, alone
from tests.program import Differs

Found = TypeVar("Found")
Ran = subprocess.CompletedProcess[str]
Begun = subprocess.Popen[str]
# Marks of the modules of tests of the machine: they share one, and run in the order of conftest.py.
ON_MACHINE = [pytest.mark.root, pytest.mark.alone, pytest.mark.xdist_group("machine"), pytest.mark.timeout(1800),
              pytest.mark.needs("debootstrap", "systemd-nspawn", "nsenter", "dpkg-buildpackage", "dh", "pybuild",
                                "strip", "cc")]
# The file of the source, and the address of its site.
DISK, HTTPS = "/var/lib/ropepeach/source.disk", "https://source.example.org"

# The timeout of a step in seconds.
SECONDS = 60
# Two machines at once would share control groups.
LOCK = "/tmp/ropepeach-machine.lock"
SETTINGS = ["PATH=/usr/local/sbin:/usr/local/bin:/usr/sbin:/usr/bin:/sbin:/bin", "HOME=/root", "LC_ALL=C.UTF-8",
            "TERM=dumb"]


def children(number: int) -> list[int]:
    """Return the child processes of a process."""
    with contextlib.suppress(OSError):
        return [int(word) for word in Path(f"/proc/{number}/task/{number}/children").read_text().split()]
    return []


def end(run: subprocess.Popen[Any]) -> None:
    """Kill a process and its children, so that they write no more."""
    for number in [*children(run.pid), run.pid]:
        with contextlib.suppress(ProcessLookupError):
            os.kill(number, signal.SIGKILL)
    run.wait(SECONDS)


class Machine:
    """A machine on the folder of a complete Debian."""

    def __init__(self, root: str | Path) -> None:
        self.root, self.log = Path(root), Path(f"{root}.log")
        self.nspawn: subprocess.Popen[bytes] | None = None
        self.leader: int | None = None
        # The timeout of `until` in seconds.
        self.patience: float = SECONDS
        self.ending = contextlib.ExitStack()

    def __enter__(self) -> Self:
        self.ending.enter_context(alone(LOCK, "a machine of its own"))
        return self

    def __exit__(self, *fault: object) -> None:
        self.kill()
        self.ending.close()

    def boot(self) -> None:
        """Boot, and wait until systemd has started all units."""
        words = ["systemd-nspawn", "--quiet", "-D", str(self.root), "--register=no", "--keep-unit", "--boot",
                 "--private-network", "--console=read-only"]
        with open(self.log, "ab") as log:
            self.nspawn = subprocess.Popen(words, stdin=subprocess.DEVNULL, stdout=log, stderr=log,
                                           start_new_session=True)
        self.until(self.is_up, "the machine is up")

    def is_up(self) -> bool:
        """Return whether systemd has started all units or reports a failed one."""
        assert self.nspawn
        if self.nspawn.poll() is not None:
            raise Missing(f"a machine that boots: {self.log.read_text(errors='replace').strip()[-300:]}")
        for self.leader in children(self.nspawn.pid):
            with contextlib.suppress(subprocess.TimeoutExpired):
                return self.run("systemctl", "is-system-running", seconds=10).stdout.strip() in ("running", "degraded")
        return False

    def words(self, words: tuple[object, ...]) -> list[str]:
        """Return the command line that runs a command inside."""
        return ["nsenter", "--target", str(self.leader), "--all", "/usr/bin/env", "-i", *SETTINGS, *map(str, words)]

    def run(self, *words: object, text: str = "", seconds: float = SECONDS) -> Ran:
        """Run a command inside, with its messages joined to its output."""
        return subprocess.run(self.words(words), input=text, timeout=seconds, stdout=subprocess.PIPE,
                              stderr=subprocess.STDOUT, text=True, errors="replace")

    def output(self, *words: object, seconds: float = SECONDS) -> str:
        """Return the output of a command inside, which must succeed."""
        process = self.run(*words, seconds=seconds)
        if process.returncode:
            raise Differs(f"{' '.join(map(str, words))}: status {process.returncode}: {process.stdout.strip()[-600:]}")
        return process.stdout

    def shell(self, line: str, seconds: float = SECONDS) -> str:
        """Return the output of a shell command line inside."""
        return self.output("bash", "-ec", line, seconds=seconds)

    def begun(self, *words: object) -> Begun:
        """Start a command inside."""
        return subprocess.Popen(self.words(words), stdin=subprocess.DEVNULL, stdout=subprocess.PIPE,
                                stderr=subprocess.DEVNULL, text=True)

    def kill(self) -> None:
        """Kill every process of the machine at once. This machine keeps all its writes, synced or not."""
        if not self.nspawn:
            return
        if self.nspawn.poll() is None:
            # (the kernel kills all others with the first process)
            for leader in children(self.nspawn.pid):
                os.kill(leader, signal.SIGKILL)
            try:
                self.nspawn.wait(SECONDS)
            except subprocess.TimeoutExpired:
                end(self.nspawn)
        self.nspawn = self.leader = None

    def shows(self, unit: str, name: str) -> str:
        """Return a property of a unit."""
        return self.output("systemctl", "show", f"--property={name}", unit).strip().removeprefix(f"{name}=")

    def is_active(self, unit: str) -> bool:
        """Return whether a unit is active."""
        return self.shows(unit, "ActiveState") == "active"

    def failed(self) -> list[str]:
        """Return the units that `systemctl --failed` shows."""
        return re.findall(r"\S+\.(?:service|timer)", self.output("systemctl", "--failed", "--plain", "--no-legend"))

    def journal(self, unit: str, since: str = "") -> str:
        """Return the journal of a unit: all of this boot, or the part after a cursor."""
        return self.output("journalctl", "--boot", "--no-pager", "--output=cat", f"--unit={unit}",
                           *([f"--after-cursor={since}"] if since else []))

    def cursor(self) -> str:
        """Return the cursor of the end of the journal."""
        self.output("journalctl", "--sync")
        return self.output("journalctl", "--no-pager", "--lines=1", "--output=cat", "--show-cursor").strip().rpartition(
            "-- cursor: ")[2]

    def until(self, is_so: Callable[[], Found], what: str) -> Found:
        """Wait until a call returns a true value."""
        end = time.monotonic() + self.patience
        while not (found := is_so()):
            if time.monotonic() > end:
                raise Differs(f"not within {self.patience} seconds: {what}")
            time.sleep(0.05)
        return found


@dataclass(frozen=True)
class Packages:
    """The packages of a program, and those of a later version."""

    first: list[Path]
    later: list[Path]


def drop_in(machine: Machine, unit: str, text: str, name: str = "changed") -> None:
    """Change a unit by a drop-in; remove the drop-in if the text is empty."""
    file = machine.root / f"etc/systemd/system/{unit}.d/{name}.conf"
    file.unlink(missing_ok=True)
    if text:
        file.parent.mkdir(parents=True, exist_ok=True)
        file.write_text(text)
    machine.output("systemctl", "daemon-reload")


def disk_of(machine: Machine) -> Path:
    """Return the path of the source's file, seen from outside the machine."""
    return Path(f"{machine.root}{DISK}")
