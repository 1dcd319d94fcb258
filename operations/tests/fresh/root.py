"""Enter a Debian that has only build tools, without a network, by a command."""
from __future__ import annotations

import contextlib
import shutil
import subprocess
import tempfile
from collections.abc import Iterator
from pathlib import Path

from operations.package.build import sources
from operations.tests.machine import debian

SUITE = "bookworm"
# Packages that pip, dpkg-buildpackage and the command need.
PACKAGES = ["python3", "python3-pip", "python3-setuptools", "python3-wheel", "python3-build", "python3-defusedxml",
            "python3-tqdm",
            "python3-pycurl", "build-essential", "debhelper", "dh-python", "pybuild-plugin-pyproject"]
# Timeouts in seconds to make this Debian, which is larger than that of the machines, and for a step in it.
MAKING, SECONDS = 1_800, 900
# (the folder may be on a file system without devices)
ENTER = 'mount --rbind /dev "$0/dev" && mount -t proc proc "$0/proc" && exec chroot "$0" sh -c "$@"'
PLAIN = {"PATH": "/usr/local/sbin:/usr/local/bin:/usr/sbin:/usr/bin:/sbin:/bin", "HOME": "/root", "LC_ALL": "C.UTF-8"}
Ran = subprocess.CompletedProcess[str]


class Root:
    """A Debian in a folder."""

    def __init__(self, path: Path) -> None:
        self.path = path

    def run(self, script: str, **settings: str) -> Ran:
        """Run a shell script in it, without a network."""
        words = ["unshare", "--net", "--mount", "--pid", "--fork", "--kill-child", "sh", "-c", ENTER, str(self.path),
                 script]
        return subprocess.run(words, env=PLAIN | settings, stdin=subprocess.DEVNULL, capture_output=True, text=True,
                              errors="replace",
                              timeout=SECONDS)

    def source(self, place: str) -> Path:
        """Make a new copy of the sources at a place in it."""
        folder = self.path / place.lstrip("/")
        shutil.rmtree(folder, ignore_errors=True)
        sources(folder)
        return folder


@contextlib.contextmanager
def fresh() -> Iterator[Root]:
    """Make a new Debian; remove it at the end."""
    debian.MAKING = MAKING
    with tempfile.TemporaryDirectory(prefix="fresh-", dir="/var/tmp") as room:
        path = Path(room, "root")
        debian.unpacked(path, SUITE, PACKAGES)
        yield Root(path)
