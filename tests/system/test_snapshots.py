"""Tests of snapshots during puts to a source: of a file, of a file system, and of the device below it at one moment.

One client puts resources to a served source; meanwhile the test takes snapshots, and notes the number of puts answered
before a snapshot and begun by its end. The snapshot must open with a number of changes within these bounds, and with
the bodies of that many puts. A device at one moment, mounted again, is the disk of a machine that replaces a lost one,
without the memory of the lost machine.
"""
import contextlib
import http.client
import os
import subprocess
import threading
import time
from collections.abc import Callable, Iterator
from pathlib import Path

import pytest

from tests.program import Differs, compare
from tests.served_source import serving
from tests.threads import beside

pytestmark = [pytest.mark.root, pytest.mark.long, pytest.mark.usefixtures("own_mounts"),
              pytest.mark.needs("losetup", "mount", "mkfs.xfs"),
              pytest.mark.skipif(not os.path.exists("/dev/loop-control"), reason="there are no loop devices here")]

Bounds = tuple[int, int]
SNAPSHOTS = 15
NAMES = 200
SECONDS = 60


def done(*words: str | Path) -> str:
    """Return the output of a command, which must succeed."""
    finished = subprocess.run(words, capture_output=True, text=True, timeout=SECONDS)
    if finished.returncode:
        raise Differs(f"{' '.join(map(str, words))}: {finished.stderr.strip()}")
    return finished.stdout.strip()


def body(number: int) -> bytes:
    """Return the body of the put of this number, from 0."""
    return bytes([number % 251]) * (number * 37 % 8_000)


def put_on(url: str, counts: dict[str, int], is_over: threading.Event) -> None:
    """Put resources one after another until `is_over` is set, and count the begun and the answered puts."""
    while not is_over.is_set():
        number = counts["begun"]
        counts["begun"] += 1
        connection = http.client.HTTPConnection(url.removeprefix("http://"), timeout=SECONDS)
        with contextlib.closing(connection):
            connection.request("PUT", f"/resource/{number % NAMES}", body(number))
            if connection.getresponse().status not in (201, 204):
                return
        counts["answered"] += 1


def bounds_of(program: str, folder: Path, snapshot: Callable[[int], object]) -> list[Bounds]:
    """Take snapshots during puts to a source; return the numbers of puts answered before one and begun by its end."""
    done(program, "format", f"{folder}/a.disk", str(16 << 20), "http://a.example", "100")
    counts, is_over, bounds = {"begun": 0, "answered": 0}, threading.Event(), []
    with serving(program, folder) as (url, _):
        with beside(lambda: put_on(url, counts, is_over), ending=is_over.set):
            for number in range(SNAPSHOTS):
                time.sleep(0.1)
                answered = counts["answered"]
                snapshot(number)
                bounds.append((answered, counts["begun"]))
    if not bounds[-1][0] > bounds[0][0] + SNAPSHOTS // 2:
        raise Differs(f"there was hardly a put between the snapshots: {bounds}")
    return bounds


def look(program: str, disk: Path, bounds: Bounds) -> None:
    """Check that a file has the resources of a number of puts within these bounds."""
    def run(lines: list[str]) -> bytes:
        finished = subprocess.run([program, "run", disk], input="\n".join(lines).encode(), capture_output=True,
                                  timeout=SECONDS)
        compare(f"{disk}: its opening", b"", finished.stderr)
        return finished.stdout

    changes = int(run(["status"]).split()[3])
    if not bounds[0] <= changes <= bounds[1]:
        raise Differs(f"{disk} holds {changes} puts, not {bounds[0]} to {bounds[1]}")
    last = {number % NAMES: number for number in range(changes)}
    wanted = b"".join(b"bytes %d\n%b\n" % (len(body(number)), body(number)) for number in last.values())
    compare(f"{disk}", wanted, run([f"show /resource/{name}" for name in last]))


@contextlib.contextmanager
def attached(file: Path) -> Iterator[str]:
    """Attach a loop device to a file."""
    device = done("losetup", "--show", "-f", file)
    try:
        yield device
    finally:
        done("losetup", "-d", device)


@contextlib.contextmanager
def mounted(device: str | Path, folder: Path, options: str = "defaults") -> Iterator[Path]:
    """Mount a file system."""
    folder.mkdir(exist_ok=True)
    done("mount", "-o", options, device, folder)
    try:
        yield folder
    finally:
        done("umount", folder)


def new_file(path: Path, size: str, kind: str) -> Path:
    """Return a new file with a file system of this kind in it."""
    done("truncate", "-s", size, path)
    done(f"mkfs.{kind}", "-q", path)
    return path


@contextlib.contextmanager
def copying(room: Path) -> Iterator[Path]:
    """Return a folder on a file system that can copy a file at one moment."""
    with mounted(new_file(room / "xfs", "3G", "xfs"), room / "copying", "loop") as folder:
        yield folder


def copied(source: Path, to: Path) -> None:
    """Copy a file; the copy shares its blocks."""
    done("cp", "--reflink=always", source, to)


def test_a_copy_by_reflink_opens(program: str, tmp_path: Path) -> None:
    with copying(tmp_path) as folder:
        taken = bounds_of(program, folder, lambda name: copied(folder / "a.disk", folder / f"{name}.disk"))
        for number, bounds in enumerate(taken):
            look(program, folder / f"{number}.disk", bounds)


@pytest.mark.needs("mkfs.btrfs", "btrfs")
def test_a_snapshot_of_a_subvolume_of_btrfs_opens(program: str, tmp_path: Path) -> None:
    with mounted(new_file(tmp_path / "btrfs", "600M", "btrfs"), tmp_path / "top", "loop") as top:
        volume = top / "volume"
        done("btrfs", "subvolume", "create", volume)
        taken = bounds_of(program, volume, lambda name: done("btrfs", "subvolume", "snapshot", volume, top / f"{name}"))
        for number, bounds in enumerate(taken):
            look(program, top / f"{number}" / "a.disk", bounds)


@pytest.mark.needs("mkfs.ext4")
@pytest.mark.parametrize("kind, size, options", [("ext4", "64M", "loop"), ("xfs", "400M", "loop,nouuid")])
def test_a_snapshot_of_the_device_opens(program: str, tmp_path: Path, kind: str, size: str, options: str) -> None:
    """Copy the device below a mounted file system at one moment, and mount the copy."""
    with copying(tmp_path) as folder:
        with mounted(new_file(folder / "device", size, kind), tmp_path / "above", "loop") as above:
            taken = bounds_of(program, above, lambda name: copied(folder / "device", folder / f"{name}"))
        for number, bounds in enumerate(taken):
            with mounted(folder / f"{number}", tmp_path / "anew", options) as anew:
                look(program, anew / "a.disk", bounds)


@pytest.mark.needs("mkfs.btrfs", "btrfs")
def test_a_snapshot_of_one_device_of_two_opens(program: str, tmp_path: Path) -> None:
    """Copy the second of two devices of a btrfs mirror at one moment, and mount it without the first."""
    with copying(tmp_path) as folder:
        done("truncate", "-s", "300M", folder / "first", folder / "second")
        with attached(folder / "first") as first, attached(folder / "second") as second:
            done("mkfs.btrfs", "-q", "-d", "raid1", "-m", "raid1", first, second)
            done("btrfs", "device", "scan", first, second)
            with mounted(first, tmp_path / "above") as above:
                taken = bounds_of(program, above, lambda name: copied(folder / "second", folder / f"{name}"))
        for number, bounds in enumerate(taken):
            # (the system identifies a device by its superblock, which all of these share with the second)
            done("btrfs", "device", "scan", "--forget")
            with attached(folder / f"{number}") as alone, mounted(alone, tmp_path / "anew", "degraded") as anew:
                look(program, anew / "a.disk", bounds)
        done("btrfs", "device", "scan", "--forget")
