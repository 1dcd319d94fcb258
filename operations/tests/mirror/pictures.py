"""Draw the picture of a mirror on the proved program (`make pictures`).

usage: python3 -m operations.tests.mirror.pictures --draw
"""

import sys
from pathlib import Path

from operations.tests.mirror import picture
from ropepeach.faults import Fault
from tests.pictures.album import FAULTS, Album
from tests.program import ROOT


def a_file_more(folder: Path) -> None:
    """Add a file that the source never had."""
    (folder / "more").write_bytes(b"")


def a_stale_file(folder: Path) -> None:
    """Write a file as of an earlier command."""
    (folder / "a").write_bytes(b"1")


ALBUM = Album(
    name="mirror.pictures",
    pages=ROOT / "operations/docs",
    draws={"mirror.svg": picture.draw},
    wrong=[("mirror.svg", a_file_more), ("mirror.svg", a_stale_file)],
    faults=(*FAULTS, Fault),
)

if __name__ == "__main__":
    sys.exit(ALBUM.main())
