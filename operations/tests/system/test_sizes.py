"""Test the disk size of operations/docs/OPERATING.md.

The tests repeat the formula of the page, and compare the page's table with it. They fill disks of the size that it
gives: they put resources in the order of their names, publish, and put every resource again with other bytes, so that
no published page is a page of the catalogue. The source refuses no command, no command uses more blocks than the
formula has, and the formula has few more blocks than a source uses.
"""
from __future__ import annotations

import re
import subprocess
from collections.abc import Callable, Iterator
from dataclasses import dataclass
from pathlib import Path

import pytest

from tests.program import ROOT
from tests.reading import disk_reader
from tests.reading.disk_formats import BLOCK

PAGE = ROOT / "operations/docs/OPERATING.md"
BASE = "https://source.example.org"
NAME, TYPE, CHANGES = 40, "application/x-some-format", 50_000
KIB, MIB, MOST = 1024, 1_048_576, 8_388_608 * BLOCK
# The allowed excess of the formula: 10% and this many blocks.
SPARE, SECONDS = 100, 120
# A function from the number of resources, the bytes of a resource and the number of changes to blocks.
Formula = Callable[[int, int, int], int]


@dataclass(frozen=True)
class Filling:
    """The number of resources on a disk, the bytes of a resource, and the number of later puts per resource."""

    resources: int
    size: int
    again: int

    def __str__(self) -> str:
        """Return the name of a test's parameter."""
        return f"{self.resources}x{self.size}-again-{self.again}"


FILLINGS = [Filling(100, 4096, 1), Filling(300, 600, 1), Filling(40, 0, 9)]


def blocks(size: int) -> int:
    """Return the number of blocks of this many bytes."""
    return -(-size // BLOCK)


def wanted_blocks(resources: int, size: int, changes: int) -> int:
    """Return the blocks by the page's formula, without the third that stays free."""
    texts = NAME + len(TYPE)
    pages = 2 * -(-resources // 32), -(-changes // 64)
    lists = pages[0] * blocks(5 + 32 * (70 + texts)) + pages[1] * blocks(5 + 64 * (63 + texts))
    directories = 2 * blocks(63 + len(BASE) + 44 * sum(pages))
    return resources * blocks(size) + lists + directories + blocks(size) + 64


def disk_size(resources: int, size: int, changes: int, formula: Formula = wanted_blocks) -> int:
    """Return the bytes of a disk, of which a third stays free."""
    return formula(resources, size, changes) * 3 // 2 * BLOCK


def check_table(text: str) -> None:
    """Compare the page's table with the formula, in MiB."""
    table = re.search(r"(?m)^\| resources \|(.*)\n\|[-|]+\n((?:\|.*\n)+)", text)
    assert table
    sizes = [int(number) * {"KiB": KIB, "MiB": MIB}[unit] for number, unit in re.findall(r"of (\d+) (\w+)", table[1])]
    rows = [[cell.strip().replace(",", "") for cell in row.strip("|\n").split("|")] for row in table[2].splitlines()]
    for resources, *cells in rows:
        for size, cell in zip(sizes, cells, strict=True):
            wanted = disk_size(int(resources), size, CHANGES)
            is_other = cell.isdecimal() and int(cell) != -(-wanted // MIB)
            is_right = cell.startswith("too much") == (wanted > MOST) and not is_other
            assert is_right, f"{resources} of {size}: the page has {cell!r}, the formula {wanted / MIB:.1f} MiB"
    assert rows and sizes


def lines_of(filling: Filling) -> Iterator[str]:
    """Yield the commands that fill a disk: a name keeps the length of its body, and later bodies have other bytes."""
    names = [f"{number:0{NAME}d}" for number in range(filling.resources)]
    for time in range(filling.again + 1):
        yield from (f"put {name} {f'{time:02x}' * filling.size or '-'} {TYPE}" for name in names)
        if time == 0:
            yield "publish"


def fill(program: str, room: Path, filling: Filling, formula: Formula) -> tuple[int, int, int]:
    """Fill a disk; return the blocks used at the end, during the last command, and by the formula."""
    changes = filling.resources * (filling.again + 1)
    size, file = disk_size(filling.resources, filling.size, changes, formula), room / "a.disk"
    file.unlink(missing_ok=True)
    subprocess.run([program, "format", file, str(size), BASE, "1000"], check=True, capture_output=True, timeout=SECONDS)
    *earlier, last = lines_of(filling)
    sources = []
    for script in (earlier, [last]):
        text = "".join(f"{line}\n" for line in script).encode()
        output = subprocess.run([program, "run", file], input=text, capture_output=True, check=True,
                                timeout=SECONDS).stdout
        assert b"refused" not in output, f"{filling} on {size} bytes"
        sources.append(disk_reader.source_of(file.read_bytes()))
    used = [set(disk_reader.extents(disk)) for disk in sources]
    end, greatest = (2 + sum(blocks_of for _, blocks_of in extents) for extents in (used[1], used[0] | used[1]))
    return end, greatest, formula(filling.resources, filling.size, changes)


def check_filling(program: str, room: Path, filling: Filling, formula: Formula = wanted_blocks) -> None:
    """Fill a disk, and compare its used blocks with the formula."""
    end, greatest, wanted = fill(program, room, filling, formula)
    counts = f"{end} blocks held, {greatest} during a command, {wanted} by the formula"
    assert greatest <= wanted <= greatest * 1.1 + SPARE, counts


def too_small(resources: int, size: int, changes: int) -> int:
    """Return the blocks of a formula that omits the published pages."""
    page = blocks(5 + 32 * (70 + NAME + len(TYPE)))
    return wanted_blocks(resources, size, changes) - -(-resources // 32) * page - 64


def test_the_table_of_the_page_has_the_numbers_of_the_formula() -> None:
    check_table(PAGE.read_text())


def test_another_number_in_the_table_is_noticed() -> None:
    text = PAGE.read_text()
    row = re.search(r"(?m)^\| 1,000 \| (\d+)", text)
    assert row
    with pytest.raises(AssertionError, match="the page has"):
        check_table(text[:row.start(1)] + str(int(row[1]) - 1) + text[row.end(1):])


@pytest.mark.parametrize("filling", FILLINGS, ids=str)
def test_a_disk_of_the_size_of_the_formula_holds_its_resources(program: str, room: Path, filling: Filling) -> None:
    check_filling(program, room, filling)


def test_a_formula_that_is_too_small_is_noticed(program: str, room: Path) -> None:
    with pytest.raises(AssertionError):
        for filling in FILLINGS:
            check_filling(program, room, filling, too_small)
