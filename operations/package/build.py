"""Build the Debian packages of a program and of its tools, the source package, SHA256SUMS and PROVED, by
dpkg-buildpackage.

The same commit gives the same bytes on any machine: all dates are the date of debian/changelog, which is that of the
commit, or SOURCE_DATE_EPOCH of the environment.
"""
from __future__ import annotations

import hashlib
import os
import shutil
import subprocess
import tempfile
from email.utils import formatdate
from pathlib import Path

from operations.package.places import PLAIN_SOURCE, ROOT, SOURCE, TOOLS
from operations.package.program_facts import Unfit
from operations.package.rules import FOLDER
from operations.package.stamp import Stamp, git, read

# Files that are no sources, for a tree without git.
LEFT_OUT = shutil.ignore_patterns(".git", "out", "build", "made", "proved", "plain", "__pycache__", ".mypy_cache",
                                  ".hypothesis", "*.egg-info")
# The timeout of a build, in seconds.
SECONDS = 600


def moment() -> int:
    """Return the moment of all packed files, in seconds since 1970."""
    text = os.environ.get("SOURCE_DATE_EPOCH") or git("log", "-1", "--format=%ct")
    if not text:
        raise Unfit("there is no git repository here: set SOURCE_DATE_EPOCH")
    return int(text)


def sources(to: Path) -> None:
    """Copy the sources into a folder: the files that git lists, or without git all files of the tree."""
    listed = git("ls-files", "-z")
    if not listed:
        shutil.copytree(ROOT, to, ignore=LEFT_OUT, symlinks=True)
        return
    for name in listed.strip("\0").split("\0"):
        path = to / name
        path.parent.mkdir(parents=True, exist_ok=True)
        shutil.copy2(ROOT / name, path, follow_symlinks=False)


def dated(folder: Path, version: str, when: int) -> None:
    """Give Debian's changelog a version and a moment, and all files the modes of a clone."""
    path = folder / "debian/changelog"
    head, _, rest = path.read_text().partition("\n")
    body, _, tail = rest.rpartition("  ")
    path.write_text(f"{SOURCE} ({version}) {head.partition(') ')[2]}\n{body}  {formatdate(when)}\n")
    (folder / "VERSION").write_text(f"{version}\n")
    for entry in [folder, *folder.rglob("*")]:
        if not entry.is_symlink():
            is_run = entry.is_dir() or entry.stat().st_mode & 0o100
            entry.chmod(0o755 if is_run else 0o644)


def run_build(folder: Path, when: int, *options: str) -> None:
    """Run dpkg-buildpackage."""
    settings = os.environ | {FOLDER: str(ROOT), "SOURCE_DATE_EPOCH": str(when), "LC_ALL": "C.UTF-8",
                             "DEB_BUILD_OPTIONS": "nocheck parallel=1"}
    build = subprocess.run(["dpkg-buildpackage", "-us", "-uc", *options], cwd=folder, env=settings, capture_output=True,
                           text=True, errors="replace", timeout=SECONDS)
    if build.returncode:
        lines = (build.stdout + build.stderr).splitlines()
        messages = [line for line in lines if line.startswith("package: ")]
        raise Unfit(messages[-1].removeprefix("package: ") if messages
                    else f"dpkg-buildpackage: {' / '.join(lines[-3:])[:600]}")


def prepared(room: str, program: Path, place: str, stamp: Stamp, version: str, when: int) -> Path:
    """Return a new folder with the sources, a program and its stamp."""
    folder = Path(room, f"{SOURCE}-{version}")
    sources(folder)
    (folder / place).mkdir()
    shutil.copyfile(program, folder / place / "rs_source")
    stamp.write(folder / place / "rs_source")
    dated(folder, version, when)
    return folder


def build_plain(program: Path, stamp: Stamp, machine: str, version: str, to: Path) -> Path:
    """Build the package of the plain program for another machine, and return its path. Its stamp names the compiler."""
    when, to = moment(), Path(to)
    to.mkdir(parents=True, exist_ok=True)
    with tempfile.TemporaryDirectory() as room:
        folder = prepared(room, program, "plain", stamp, version, when)
        # The build tools are this machine's, so the other machine's build dependencies are not checked.
        run_build(folder, when, f"--host-arch={machine}", "--build=any", "--no-check-builddeps")
        name = f"{PLAIN_SOURCE}_{version}_{machine}.deb"
        return Path(shutil.copyfile(Path(room, name), to / name))


def build(program: Path, version: str, to: Path, stamp: Stamp | None = None) -> list[Path]:
    """Build all packages and return their paths. Without a stamp, the program must have its own."""
    program, when, to = Path(program), moment(), Path(to)
    stamp = stamp or read(program)
    to.mkdir(parents=True, exist_ok=True)
    with tempfile.TemporaryDirectory() as room:
        folder = prepared(room, program, "proved", stamp, version, when)
        run_build(folder, when)
        names = [f"{SOURCE}_{version}_amd64.deb", f"{TOOLS}_{version}_all.deb", f"{SOURCE}_{version}.dsc",
                 f"{SOURCE}_{version}.tar.xz"]
        made = [Path(shutil.copyfile(Path(room, name), to / name)) for name in names]
        proved = folder / f"debian/{SOURCE}/usr/share/doc/{SOURCE}/PROVED"
        shutil.copyfile(proved, to / "PROVED")
    sums = (f"{hashlib.sha256(path.read_bytes()).hexdigest()}  {path.name}\n"
            for path in (*made, to / "PROVED"))
    (to / "SHA256SUMS").write_text("".join(sums))
    return made[:2]
