"""Test that `ropepeach look` reads a disk of 4 GiB beyond its first 2 GiB.

The disks are sparse, and written by docs/DISK.md (tests/disks/far_disk.py); tests/reading has the figures.
"""
from pathlib import Path

import pytest

from operations.tests.tools.command_runs import lines_of, run_command
from tests.disks import far_disk
from tests.disks.far_disk import BLOCKS, BODIES, FILLERS, MOST_FILLERS, Holes
from tests.reading import disk_reader


@pytest.mark.parametrize("count", [0, FILLERS, MOST_FILLERS])
def test_all_blocks_and_resources_of_a_far_disk_are_counted(count: int, room: Path) -> None:
    """Many bodies of zeros precede the other ones."""
    disk = room / "far.disk"
    far_disk.written(disk, far_disk.parts(count))
    used = 2 + sum(blocks for _, blocks in disk_reader.extents(disk_reader.source_of(Holes(disk))))
    process = run_command("look", str(disk))
    assert (process.returncode, process.stderr) == (0, "")
    for line in (f"blocks: {used:,} used of {BLOCKS:,} ", f"resources: {count + len(BODIES)} of 50,000 "):
        assert any(text.startswith(line) for text in lines_of(process)), line
