"""Make a small Debian by debootstrap from the registry of this machine's apt, and cache it as an archive."""
from __future__ import annotations

import contextlib
import fcntl
import hashlib
import os
import re
import shutil
import signal
import subprocess
import tempfile
import time
import urllib.request
from collections.abc import Iterator, Sequence
from pathlib import Path

from tests.program import IN_MEMORY

REGISTRY = "http://deb.debian.org/debian"
SUITE = "bookworm"
# Dependencies of the packages, for an installation without a network; packages for a site; tools of the checks.
PACKAGES = ["systemd", "systemd-sysv", "dbus", "init-system-helpers", "python3", "python3-defusedxml", "python3-tqdm",
            "python3-pycurl", "curl",
            "nginx", "openssl", "ca-certificates", "nftables"]
# Timeouts in seconds of a connection to the registry, and of debootstrap.
ANSWER, MAKING = 15, 240
# The largest size of a machine in bytes.
MEMORY = 1_200_000_000


class Missing(Exception):
    """A requirement of the tests that is missing on this machine."""


def registry() -> str:
    """Return the first address of a registry of Debian in the settings of apt."""
    for file in [Path("/etc/apt/sources.list"), *sorted(Path("/etc/apt/sources.list.d").glob("*"))]:
        if file.suffix in (".list", ".sources") and file.is_file():
            for address in re.finditer(r"(?m)^(?:deb .*?|URIs: *)(https?://\S+/debian)/?(?=\s|$)", file.read_text()):
                return address[1]
    return REGISTRY


def cache() -> Path:
    """Return the folder of the archives."""
    folder = Path(os.environ.get("XDG_CACHE_HOME") or "/var/cache", "ropepeach-machine")
    folder.mkdir(parents=True, exist_ok=True)
    return folder


def place() -> str:
    """Return the folder to make and boot a Debian in: in memory if there is enough, else on the disk."""
    free = int(re.findall(r"MemAvailable:\s+(\d+)", Path("/proc/meminfo").read_text())[0]) << 10
    is_there = os.access(IN_MEMORY, os.W_OK) and min(free // 4, shutil.disk_usage(IN_MEMORY).free) > MEMORY
    return IN_MEMORY if is_there else "/var/tmp"


def answers(address: str, suite: str) -> None:
    """Check that a registry has a suite, else raise Missing."""
    try:
        with urllib.request.urlopen(f"{address}/dists/{suite}/InRelease", timeout=ANSWER) as answer:
            answer.read(1)
    except OSError as fault:
        raise Missing(f"an answer of {address} for {suite}: {fault}") from None


def ended(words: list[str]) -> None:
    """Run debootstrap to its end, in its own mount namespace."""
    words = ["unshare", "--mount", "--propagation", "private", *words]
    run = subprocess.Popen(words, start_new_session=True, stdin=subprocess.DEVNULL, stdout=subprocess.PIPE,
                           stderr=subprocess.STDOUT, text=True, errors="replace")
    try:
        output, _ = run.communicate(timeout=MAKING)
    except subprocess.TimeoutExpired:
        os.killpg(run.pid, signal.SIGKILL)
        run.communicate()
        raise Missing(f"a Debian within {MAKING} seconds") from None
    if run.returncode:
        raise Missing(f"a Debian by debootstrap: {output.strip()[-300:]}")


def made(archive: Path, suite: str, packages: Sequence[str]) -> None:
    """Make a Debian, and its archive, which is complete or absent."""
    address = registry()
    answers(address, suite)
    with tempfile.TemporaryDirectory(prefix="debian-", dir=place()) as room:
        # (dpkg need not sync files: an interrupted Debian is thrown away)
        hasty = Path(room, "root/etc/dpkg/dpkg.cfg.d/hasty")
        hasty.parent.mkdir(parents=True)
        hasty.write_text("force-unsafe-io\n")
        words = ["debootstrap", "--variant=minbase", f"--include={','.join(packages)}", suite, f"{room}/root", address]
        ended(words)
        hasty.unlink()
        shutil.rmtree(f"{room}/root/var/cache/apt/archives", ignore_errors=True)
        subprocess.run(["tar", "-C", f"{room}/root", "-czf", f"{archive}.new", "."], check=True, timeout=MAKING)
        os.replace(f"{archive}.new", archive)


@contextlib.contextmanager
def alone(path: str | Path, what: str) -> Iterator[None]:
    """Hold a lock; wait for it as long as a Debian takes to make."""
    end = time.monotonic() + MAKING
    with open(path, "w") as lock:
        while True:
            try:
                fcntl.flock(lock, fcntl.LOCK_EX | fcntl.LOCK_NB)
                break
            except BlockingIOError:
                if time.monotonic() > end:
                    raise Missing(f"{what}: another run has it") from None
                time.sleep(0.2)
        yield


def archive_of(suite: str, packages: Sequence[str]) -> tuple[Path, bool]:
    """Return the archive of a Debian, and whether it had to be made first."""
    name = hashlib.sha256(" ".join([suite, *packages]).encode()).hexdigest()[:12]
    archive = cache() / f"{suite}-{name}.tar.gz"
    with alone(f"{archive}.lock", f"the archive {archive}"):
        is_new = not archive.exists()
        if is_new:
            made(archive, suite, packages)
    return archive, is_new


def unpacked(to: str | Path, suite: str = SUITE, packages: Sequence[str] = PACKAGES) -> bool:
    """Unpack a Debian into a new folder; return whether it had to be made first."""
    archive, is_new = archive_of(suite, packages)
    os.makedirs(to)
    subprocess.run(["tar", "-C", to, "-xzf", archive], check=True, timeout=MAKING)
    return is_new
