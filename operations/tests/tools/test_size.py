"""Compare `ropepeach size` with the figures of operations/docs/OPERATING.md, and fill a disk of that size."""
from __future__ import annotations

import os
import random
import re
import subprocess
from collections.abc import Sequence
from pathlib import Path

import pytest

from operations.tests.tools.command_runs import run_command, status_of
from tests.program import ROOT

PAGE = ROOT / "operations/docs/OPERATING.md"
KIB, MIB, BLOCK = 1_024, 1_048_576, 512
# On the page, names have 40 bytes, and media types 25.
TYPE = "application/x-some-format"
# The most files for a cell of the table, and the timeout of a run of the program in seconds.
MOST, SECONDS = 10_000, 300


def blocks(size: int) -> int:
    """Return the number of blocks of this many bytes."""
    return -(-size // BLOCK)


def folder_of(room: Path, sizes: Sequence[int], names: Sequence[str] | None = None) -> Path:
    """Make a folder of sparse files of these sizes; their names have 40 bytes unless given."""
    folder = room / "folder"
    folder.mkdir(exist_ok=True)
    for path in folder.iterdir():
        path.unlink()
    for number, size in enumerate(sizes):
        with open(folder / (names[number] if names else f"{number:040d}"), "wb") as file:
            file.truncate(size)
    return folder


def types_of(room: Path) -> list[str]:
    """Return the options that give all files one type."""
    (room / "types").write_text(f"* {TYPE}\n")
    return ["--types", str(room / "types")]


def size_of(*words: object) -> tuple[int, str]:
    """Return the size on standard output, which has one line, and the messages."""
    process = run_command("size", *map(str, words))
    assert process.returncode in (0, 3), f"status {process.returncode}: {process.stdout!r} {process.stderr!r}"
    assert re.fullmatch(r"\d+\n", process.stdout), f"status {process.returncode}: {process.stdout!r} {process.stderr!r}"
    return int(process.stdout), process.stderr


def test_the_table_of_the_documentation_is_right(room: Path) -> None:
    """The sizes are the numbers of the page, in MiB, rounded up."""
    head, table = re.findall(r"(?m)^\| resources \|(.*)\n\|[-|]+\n((?:\|.*\n)+)", PAGE.read_text())[0]
    sizes = [int(number) * {"KiB": KIB, "MiB": MIB}[unit] for number, unit in re.findall(r"of (\d+) (\w+)", head)]
    for row in table.splitlines():
        resources, *cells = [cell.strip().replace(",", "") for cell in row.strip("|").split("|")]
        if int(resources) > MOST:
            continue
        for size, cell in zip(sizes, cells, strict=True):
            words = [folder_of(room, [size] * int(resources)), *types_of(room)]
            if cell.startswith("too much"):
                status_of(run_command("size", *map(str, words)), 1, "too much for one source")
            else:
                found = size_of(*words)[0]
                assert -(-found // MIB) == int(cell), f"{size} {cell}"


def test_the_example_of_the_documentation_is_right(room: Path) -> None:
    """The example has 10,000 articles of 60 KB."""
    text = " ".join(PAGE.read_text().split())
    found = re.findall(r"For example: ([\d,]+) articles of (\d+) KB take ([\d,]+) blocks, (\d+) MiB; "
                       r"with the free third, (\d+) MiB", text)
    count, size, used, _, mib = (int(number.replace(",", "")) for number in found[0])
    size, message = size_of(folder_of(room, [size * 1_000] * count), *types_of(room))
    assert f"{used:,} blocks" in message and f"{mib} MiB" in message, f"{message!r}"
    assert size == blocks(used * 3 * BLOCK // 2) * BLOCK, f"{size} bytes for {used} blocks"


def formula(sizes: Sequence[int], name: int, kind: int, base: int, changes: int) -> int:
    """Return the page's formula for bodies of these sizes."""
    records, pages_of_changes = 2 * -(-len(sizes) // 32), -(-changes // 64)
    lists = records * blocks(5 + 32 * (70 + name + kind)) + pages_of_changes * blocks(5 + 64 * (63 + name + kind))
    directories = 2 * blocks(63 + base + 44 * (records + pages_of_changes))
    return sum(map(blocks, sizes)) + lists + directories + blocks(max(sizes, default=0)) + 64


def test_sizes_follow_the_formula(room: Path) -> None:
    """Bodies have sizes around the ends of blocks; bases and numbers of changes vary."""
    draw = random.Random(7)
    for count in (0, 32, 33):
        sizes = [draw.choice((0, 1, 511, 512, 513, 40_000, 16_777_216)) for _ in range(count)]
        for base, changes in (("http://a", 0), ("https://" + "a" * 120, 65), ("https://source.example.org", 50_000)):
            found = size_of(folder_of(room, sizes), *types_of(room), "--base", base, "--changes", changes)[0]
            least = formula(sizes, 40, 25, len(base), changes) * 3 / 2 * BLOCK
            assert least <= found < least + BLOCK, f"{count} {changes}"
    names = ["a", "bb", "\u00fc\u00fc", "x.txt"]
    # The names have 1, 2, 12 and 5 bytes as written in paths; the media types 24, 24, 24 and 10.
    found = size_of(folder_of(room, [5] * 4, names), "--changes", "64", "--base", "http://a")[0]
    least = formula([5] * 4, 5, 21, 8, 64) * 3 / 2 * BLOCK
    assert least <= found < least + BLOCK, f"names and types as they are: {found}, and {least} by the formula"


def test_files_that_can_be_no_resource_are_left_out(room: Path) -> None:
    """A message names them, and the exit status is 3."""
    folder = folder_of(room, [100, 16_777_216])
    alone = size_of(folder)[0]
    with open(folder / "large", "wb") as file:
        file.truncate(16_777_217)
    (folder / ("n" * 241)).write_bytes(b"")
    (folder / ("\u00fc" * 41)).write_bytes(b"")
    os.mkfifo(folder / "pipe")
    os.symlink(room, folder / "link")
    os.symlink(folder / "gone", folder / "gone-link")
    process = run_command("size", str(folder))
    status_of(process, 3, "left out large: it has more than 16,777,216 bytes",
              f"left out {'n' * 241}: its name has 241 bytes",
              "left out pipe: it is no regular file", f"left out {chr(252) * 41}: its name has 246 bytes",
              "left out link: it is a link, and is not followed",
              "left out gone-link: it is a link, and is not followed")
    assert process.stdout == f"{alone}\n", f"{process.stdout!r} {process.stderr!r}"
    assert process.stderr.count("left out") == 6, f"{process.stdout!r} {process.stderr!r}"
    os.symlink(folder / f"{0:040d}", folder / f"{2:040d}")
    assert size_of(folder)[0] > 0
    assert "2 files of 16,777,316 bytes" in run_command("size", str(folder)).stderr
    process = run_command("size", str(folder), "--links")
    status_of(process, 3, "3 files of 16,777,416 bytes", "left out link: it is a link that leads out of FOLDER",
              "left out gone-link: it cannot be read")


def test_more_than_a_source_holds_is_refused(room: Path) -> None:
    """More than 50,000 files, or more than 4 GiB, exit 1 without a size."""
    folder = folder_of(room, [16_777_216] * 180)
    status_of(process := run_command("size", str(folder)), 1, "4,294,967,296 bytes are used at most")
    assert not process.stdout, f"{process.stdout!r}"
    folder = folder_of(room, [0] * 50_001)
    status_of(process := run_command("size", str(folder)), 1, "it holds 50,000 resources at most")
    assert not process.stdout, f"{process.stdout!r}"
    next(folder.iterdir()).unlink()
    assert size_of(folder)[0] < 1 << 30, "50,000 files of no bytes"


@pytest.mark.parametrize("name", ["none", "file"])
def test_a_folder_that_cannot_be_listed_has_status_3(name: str, room: Path) -> None:
    """The folder is missing, or is a file."""
    (room / "file").write_text("")
    status_of(run_command("size", name), 3, "cannot be listed")


@pytest.mark.parametrize("words", [[], [".", "--changes", "50001"]], ids=str)
def test_wrong_arguments_have_status_2(words: list[str], room: Path) -> None:
    """The folder is missing, or the value of an option is wrong."""
    assert run_command("size", *words).returncode == 2


def test_a_disk_of_that_size_takes_the_folder_twice(program: str, room: Path) -> None:
    """A source on the disk accepts all files of the folder, a publication, and all files again."""
    draw, folder = random.Random(6), room / "folder"
    for count, limit in ((30, 9_000), (80, 1_500)):
        sizes = [draw.randrange(limit) for _ in range(count)]
        size = size_of(folder_of(room, sizes), *types_of(room), "--changes", 2 * count)[0]
        path = room / "a.disk"
        path.unlink(missing_ok=True)
        subprocess.run([program, "format", path, str(size), "https://source.example.org", "1000"], check=True,
                       capture_output=True, timeout=60)
        lines = []
        for again in range(2):
            lines += [f"put {path.name} {f'{again:02x}' * path.stat().st_size or '-'} {TYPE}\n"
                      for path in sorted(folder.iterdir())]
            lines.append("publish\n")
        done = subprocess.run([program, "run", path], input="".join(lines).encode(), capture_output=True,
                              timeout=SECONDS)
        assert done.returncode == 0, done.stdout[-200:]
        assert b"refused" not in done.stdout, done.stdout[-200:]
        assert done.stdout.count(b"\n") == len(lines), done.stdout[-200:]
