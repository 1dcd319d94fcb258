"""Gathers the artifacts of VERSION's release in out/release: `make release`, as root, on a commit that the gate passed.

usage: python3 -m operations.release [--with-skips] [--to FOLDER] [--base ARCHIVE.tar.gz]
Exit status 1 where a release may not be made, or an artifact can't be: it says why, and FOLDER stays as it was.
"""
from __future__ import annotations

import argparse
import os
import shutil
import sys
import tempfile
from datetime import datetime, timezone
from pathlib import Path

from operations.image.__main__ import NEEDED as NEEDED_BY_IMAGE
from operations.package.__main__ import NEEDED as NEEDED_BY_PACKAGE
from operations.package.build import moment
from operations.package.places import ROOT
from operations.release import grounds
from operations.release.artifacts import FAULTS, PROGRAM, Release
from operations.release.gathered import gather
from rust.targets import CARGO, MACHINES, RUSTC

# Commands that a release needs, and their Debian packages.
NEEDED = {**NEEDED_BY_PACKAGE, **NEEDED_BY_IMAGE, RUSTC: "rustc-web", CARGO: "cargo-web",
          **{tool: machine.package for machine in MACHINES.values() for tool in (machine.linker, machine.strip)}}


def lacking() -> list[str]:
    """Return the needed packages that this machine lacks."""
    missing = {package for tool, package in NEEDED.items() if not shutil.which(tool)}
    return [*sorted(missing), *(["root"] if os.geteuid() else [])]


def main() -> str | int:
    """Make the release, or return an error text."""
    words = argparse.ArgumentParser(prog="release", description=(__doc__ or "").partition("\n")[0], allow_abbrev=False)
    words.add_argument(grounds.WITH_SKIPS, action="store_true",
                       help="also where the gate skipped something, which PROVED names")
    words.add_argument("--to", type=Path, default=ROOT / "out/release", metavar="FOLDER")
    words.add_argument("--base", type=Path, metavar="ARCHIVE", help="the Debian of the image, where one is kept")
    arguments = words.parse_args()
    os.environ["PATH"] += ":/usr/sbin:/sbin"
    try:
        day = datetime.fromtimestamp(moment(), timezone.utc).date().isoformat()
        found = grounds.read(ROOT, PROGRAM, arguments.with_skips, day)
        if missing := lacking():
            return f"release: it needs {', '.join(missing)}"
        with tempfile.TemporaryDirectory(prefix="release-") as room:
            made = gather(Release(found, PROGRAM, arguments.base, Path(room)).parts(), arguments.to, moment())
    except FAULTS as why:
        return f"release: {why}"
    print("".join(f"{path}\n" for path in made) + f"next: git tag v{found.version} {found.verdict.commit}")
    return 0


if __name__ == "__main__":
    sys.exit(main())
