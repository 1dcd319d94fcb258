"""Run a container of the image with the page's runc command or systemd-nspawn. The volume survives a kill."""
from __future__ import annotations

import contextlib
import json
import os
import shutil
import signal
import socket
import subprocess
import time
from collections.abc import Callable
from pathlib import Path

from tests.program import Differs

# The timeout of a step in seconds.
SECONDS = 60
NAME = "ropepeach"


def free_port() -> int:
    """Return a free port."""
    with socket.socket() as probe:
        probe.bind(("127.0.0.1", 0))
        return int(probe.getsockname()[1])


class Container:
    """A read-only container of a layout: the image's user, no capabilities, one volume, this machine's network."""

    def __init__(self, room: Path, layout: Path, version: str) -> None:
        self.room, self.root, self.port = room, room / "host", free_port()
        self.state, self.bundle, self.data = room / "state", room / "bundle", room / "data"
        self.process: subprocess.Popen[bytes] | None = None
        subprocess.run(["umoci", "unpack", "--image", f"{layout}:{version}", str(self.bundle)], check=True,
                       capture_output=True, timeout=SECONDS)
        self.image = json.loads((self.bundle / "config.json").read_text())
        self.user = (self.image["process"]["user"]["uid"], self.image["process"]["user"]["gid"])
        self.data.mkdir()
        (self.root / "root").mkdir(parents=True)
        os.chown(self.data, *self.user)

    def words(self, *command: str) -> list[str]:
        """Return the command line of the container: that of the image, or its program with other arguments."""
        args: list[str] = self.image["process"]["args"]
        if command:
            return [*args[:3], *command]
        return [str(self.port) if word == "8080" else word for word in args]

    def configure(self, *command: str) -> None:
        """Write the configuration of the container."""
        bundle = json.loads(json.dumps(self.image))
        bundle["process"].update(args=self.words(*command), terminal=False, capabilities={}, noNewPrivileges=True)
        bundle["root"]["readonly"] = True
        volume = {"destination": "/data", "type": "bind", "source": str(self.data),
                  "options": ["bind", "rw", "nosuid", "nodev", "noexec"]}
        bundle["mounts"] = [mount for mount in bundle["mounts"] if mount["destination"] != "/data"] + [volume]
        bundle["linux"]["namespaces"] = [space for space in bundle["linux"]["namespaces"] if space["type"] != "network"]
        (self.bundle / "config.json").write_text(json.dumps(bundle))

    def runc(self, *words: str) -> subprocess.CompletedProcess[str]:
        """Run runc."""
        return subprocess.run(["runc", "--root", str(self.state), *words], capture_output=True, text=True,
                              timeout=SECONDS, stdin=subprocess.DEVNULL)

    def once(self, *command: str) -> str:
        """Run the image's program with other arguments; return its output."""
        self.configure(*command)
        ended = self.runc("run", "--bundle", str(self.bundle), f"{NAME}-once-{os.getpid()}")
        if ended.returncode:
            raise Differs(f"{command}: status {ended.returncode}: {ended.stderr[-300:]}")
        return ended.stdout

    def start(self) -> None:
        """Start the source, and wait until it listens."""
        self.configure()
        with open(self.room / "log", "ab") as log:
            self.process = subprocess.Popen(["runc", "--root", str(self.state), "run", "--bundle", str(self.bundle),
                                             f"{NAME}-{os.getpid()}"],
                                            stdin=subprocess.DEVNULL, stdout=log, stderr=log)
        self.until(self.listens, "the source listens")

    def listens(self) -> bool:
        """Return whether a process listens on the port."""
        with contextlib.suppress(OSError), socket.create_connection(("127.0.0.1", self.port), timeout=5):
            return True
        return False

    def inside(self, *words: str) -> subprocess.CompletedProcess[str]:
        """Run a program in the running container."""
        return self.runc("exec", f"{NAME}-{os.getpid()}", *words)

    def stop(self, number: int = signal.SIGKILL) -> float:
        """Send a signal to the container's first process; return the seconds until its end."""
        started = time.monotonic()
        if self.process is not None:
            self.runc("kill", f"{NAME}-{os.getpid()}", str(int(number)))
            self.process.wait(SECONDS)
            self.process = None
            self.runc("delete", "--force", f"{NAME}-{os.getpid()}")
        return time.monotonic() - started

    def close(self) -> None:
        """End the container."""
        self.stop()
        shutil.rmtree(self.room, ignore_errors=True)

    # Methods for operations.tests.machine.puts.

    def until(self, holds: Callable[[], object], what: str) -> None:
        """Wait until a call returns a true value."""
        end = time.monotonic() + SECONDS
        while not holds():
            if time.monotonic() > end:
                log = (self.room / "log").read_text(errors="replace")[-300:]
                raise Differs(f"not within {SECONDS} seconds: {what}: {log}")
            time.sleep(0.05)

    def host_words(self, words: tuple[object, ...]) -> list[str]:
        """Return the command line of a program on this machine, with modules from a folder of the container's root."""
        return [str(word).replace("PYTHONPATH=/root", f"PYTHONPATH={self.root}/root") for word in words]

    def begun(self, *words: object) -> subprocess.Popen[str]:
        """Start a program on this machine."""
        return subprocess.Popen(self.host_words(words), stdin=subprocess.DEVNULL, stdout=subprocess.PIPE,
                                stderr=subprocess.DEVNULL, text=True)

    def output(self, *words: object) -> str:
        """Return the output of a program run on this machine."""
        return subprocess.run(self.host_words(words), capture_output=True, text=True, check=True,
                              timeout=SECONDS).stdout
