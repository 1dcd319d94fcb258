"""Make the image for containers from the Debian packages: `make image`, as root.

usage: python3 -m operations.image PACKAGE.deb PACKAGE.deb [--to FOLDER] [--base ARCHIVE.tar.gz]
The layout is FOLDER/layout. Exit status 1, with an error message, on failure.
"""
from __future__ import annotations

import argparse
import os
import shutil
import sys
import tempfile
from pathlib import Path

from operations.image import layout, root
from operations.package.build import moment
from operations.package.places import ROOT
from operations.package.program_facts import Unfit

NEEDED = {"debootstrap": "debootstrap", "umoci": "umoci", "dpkg": "dpkg"}


def made(packages: list[Path], to: Path, base: Path | None = None) -> Path:
    """Make the layout of an image. `base` is an archive of the Debian, or None."""
    version, when = (ROOT / "VERSION").read_text().strip(), moment()
    to.mkdir(parents=True, exist_ok=True)
    with tempfile.TemporaryDirectory(prefix="image-") as room:
        files = Path(room, "root")
        if base:
            files.mkdir()
            root.done("tar", "-C", files, "-xzf", base)
        else:
            root.debian(files)
        root.add_user(files)
        root.install(files, sorted(packages))
        root.trim(files, when)
        return layout.layout(files, to / "layout", version, f"{root.NUMBER}:{root.NUMBER}", when)


def main() -> str | int:
    """Make the image, or return an error text."""
    words = argparse.ArgumentParser(prog="image", description="Makes the image for containers of the Debian packages.",
                                    allow_abbrev=False)
    words.add_argument("packages", nargs=2, type=Path, metavar="PACKAGE.deb")
    words.add_argument("--to", type=Path, default=ROOT / "out/image", metavar="FOLDER")
    words.add_argument("--base", type=Path, metavar="ARCHIVE", help="the Debian, where one is kept")
    arguments = words.parse_args()
    lacking = [package for tool, package in NEEDED.items() if not shutil.which(tool)] + ["root"] * bool(os.geteuid())
    if lacking:
        return f"image: it needs {', '.join(lacking)}"
    try:
        print(made(arguments.packages, arguments.to, arguments.base))
    except (Unfit, OSError) as why:
        return f"image: {why}"
    return 0


if __name__ == "__main__":
    sys.exit(main())
