"""The files of the image: a small Debian with this repository's two packages, without files unused in containers."""
from __future__ import annotations

import os
import re
import shutil
import subprocess
from collections.abc import Sequence
from pathlib import Path

from operations.package.program_facts import Unfit

SUITE, REGISTRY = "bookworm", "http://deb.debian.org/debian"
# The dependencies of the packages (the user is made without systemd), and the first process of a container.
INCLUDED = ("tini", "python3", "python3-defusedxml", "python3-tqdm", "python3-pycurl", "curl", "ca-certificates",
            "systemd-standalone-sysusers")
# Files that nobody reads in a container, or that differ from build to build.
DROPPED = ("var/lib/apt/lists", "var/cache/apt", "var/cache/debconf", "var/cache/ldconfig", "var/log", "usr/share/doc",
           "usr/share/man",
           "usr/share/info", "usr/share/locale", "usr/share/lintian", "run", "tmp", "root", "var/lib/systemd",
           "var/lib/dpkg/info.old")
DROPPED_FILES = ("etc/machine-id", "etc/passwd-", "etc/group-", "etc/shadow-", "etc/gshadow-",
                 "var/lib/dpkg/status-old",
                 "var/lib/dpkg/diversions-old", "etc/hostname", "etc/resolv.conf", ".dockerenv")
# The user of the image, with the same number in every release.
USER, NUMBER = "ropepeach", 10_001
# The timeout of every step, in seconds.
SECONDS = 600


def done(*words: str | Path) -> None:
    """Run a program, which must succeed."""
    ended = subprocess.run([str(word) for word in words], stdin=subprocess.DEVNULL, capture_output=True, text=True,
                           errors="replace",
                           timeout=SECONDS,
                           env={**os.environ, "DEBIAN_FRONTEND": "noninteractive", "LC_ALL": "C.UTF-8"})
    if ended.returncode:
        lines = (ended.stdout + ended.stderr).strip().splitlines() or [f"status {ended.returncode}"]
        raise Unfit(f"{words[0]}: {lines[-1]}")


def debian(root: Path, registry: str = REGISTRY) -> None:
    """Make a small Debian in a folder."""
    done("debootstrap", "--variant=minbase", "--force-check-gpg", f"--include={','.join(INCLUDED)}", SUITE, root,
         registry)


def add_user(root: Path) -> None:
    """Make the source's user before the package does, so that it keeps the number recorded in the files of volumes."""
    done("chroot", root, "groupadd", "--gid", str(NUMBER), USER)
    done("chroot", root, "useradd", "--uid", str(NUMBER), "--gid", str(NUMBER), "--home-dir", "/data",
         "--no-create-home", "--shell", "/usr/sbin/nologin", USER)


def install(root: Path, packages: Sequence[Path]) -> None:
    """Install the packages, without a network."""
    for package in packages:
        shutil.copy(package, root / package.name)
    done("chroot", root, "dpkg", "--install", *(f"/{package.name}" for package in packages))
    for package in packages:
        (root / package.name).unlink()


def trim(root: Path, moment: int) -> None:
    """Remove files that a container doesn't use, and give all others the same date.

    Two images of the same packages then have the same bytes.
    """
    for name in DROPPED:
        folder = root / name
        if folder.is_dir():
            for path in folder.iterdir():
                shutil.rmtree(path) if path.is_dir() and not path.is_symlink() else path.unlink()
    for name in DROPPED_FILES:
        (root / name).unlink(missing_ok=True)
    for path in root.rglob("__pycache__"):
        shutil.rmtree(path, ignore_errors=True)
    shadow = root / "etc/shadow"
    # The third field is the day of the last password change; no user has a password.
    shadow.write_text(re.sub(r"(?m)^([^:]*:[^:]*):\d*:", rf"\1:{moment // 86_400}:", shadow.read_text()))
    (root / "data").mkdir(exist_ok=True)
    # A named volume takes its owner and its mode from here, whatever the builder's umask.
    os.chown(root / "data", NUMBER, NUMBER)
    (root / "data").chmod(0o755)
    for path in [*root.rglob("*"), root]:
        os.utime(path, (moment, moment), follow_symlinks=False)

