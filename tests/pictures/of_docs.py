"""The pictures of disks in docs/, of runs of the program."""

from tests.crash import crash_wrong
from tests.crash.recorded_calls import WRITE, Call, Unrecorded
from tests.pictures import picture_blocks, picture_images
from tests.pictures.album import FAULTS, Album
from tests.program import ROOT
from tests.reading import disk_reader
from tests.reading.disk_formats import BLOCK


def the_directory_again(disk: bytes, calls: list[Call]) -> list[Call]:
    """Write the directory again with the same bytes, into a used block."""
    at = disk_reader.root(disk).directory.first * BLOCK
    return [Call(WRITE, at, disk[at : at + BLOCK]), *calls]


ALBUM = Album(
    name="pictures",
    pages=ROOT / "docs",
    draws={"blocks.svg": picture_blocks.draw, "images.svg": picture_images.draw},
    wrong=[*(("images.svg", change) for change in crash_wrong.WRONG), ("blocks.svg", the_directory_again)],
    faults=(*FAULTS, Unrecorded, disk_reader.Unread),
)
