"""Builds the Debian packages of the proved program and of its tools: `make package`.

usage: python3 -m operations.package [PROGRAM] [--to FOLDER] [--version VERSION]
Exit status 1 if the program or a file may not go into a package: it says why.
"""
from __future__ import annotations

import argparse
import re
import shutil
import sys
from pathlib import Path

from operations.package.build import build
from operations.package.places import ROOT
from operations.package.program_facts import Unfit
from operations.package.rules import BUILT

NEEDED = {"dpkg-buildpackage": "dpkg-dev", "dh": "debhelper", "pybuild": "dh-python", "readelf": "binutils",
          "strip": "binutils"}


def main() -> str | int:
    """Build the packages; return the exit status or an error text."""
    parser = argparse.ArgumentParser(prog="package", description=(__doc__ or "").partition("\n")[0],
                                     allow_abbrev=False)
    parser.add_argument("program", nargs="?", type=Path, default=BUILT, help="a program with its stamp")
    parser.add_argument("--to", type=Path, default=ROOT / "out/package", metavar="FOLDER",
                        help="where the packages go")
    parser.add_argument("--version", default=(ROOT / "VERSION").read_text().strip(), help="their version")
    arguments = parser.parse_args()
    missing = sorted({package for tool, package in NEEDED.items() if not shutil.which(tool)})
    if missing:
        return f"package: install {', '.join(missing)} first"
    if not re.fullmatch(r"\d[\w.+~]*", arguments.version):
        return f"package: {arguments.version} is no version"
    try:
        debs = build(arguments.program, arguments.version, arguments.to)
    except Unfit as why:
        return f"package: {why}"
    print("".join(f"{path}\n" for path in debs), end="")
    return 0


if __name__ == "__main__":
    sys.exit(main())
