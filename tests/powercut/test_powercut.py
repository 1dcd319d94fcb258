"""Tests of power cuts below real file systems: the program loses no acknowledged command.

The program works on a file of ext4, XFS or btrfs. The file system is on a loop device over the file of a small FUSE
file system, which logs all writes and flushes in order (device.c). An image of a cut has all writes up to the last
completed flush, and any choice of the later writes, in any order, torn at sectors (cut_images.py). The system mounts
the image, which replays the journal, and the program opens its file: its answers must equal, to the byte, the state
after a prefix of the commands that includes all acknowledged ones (histories.py). Some images are cut again during
their replay. The commands are puts, groups, deletes, publications that drop history, `format`, `copy`, a longer file,
and requests to `serve` (lives.py). The long form adds long recordings, a full file system, failing calls on the device,
writes that the device loses, and sectors of garbage (parts.py). The test must notice programs and devices that lose
acknowledged commands (kinds.py).

IMAGES=N makes about N images of the file systems that must keep the promise, SEED=N sets another seed. All mounts are
in their own mount namespace, and end with it.
"""
import os
import random
import subprocess
import time
from collections.abc import Iterator
from pathlib import Path

import pytest

from tests import hunting
from tests.powercut import kinds, machine, parts, worst
from tests.powercut.kinds import CONTROLS, KINDS, SETTINGS, Kind
from tests.powercut.parts import Part, Runner
from tests.program import ROOT

MISSING = [device for device in ("/dev/fuse", "/dev/loop-control") if not os.path.exists(device)]
pytestmark = [pytest.mark.root, pytest.mark.needs("cc", "pkg-config", "sync"), pytest.mark.timeout(7200),
              pytest.mark.xdist_group("powercut"),
              pytest.mark.skipif(bool(MISSING), reason=f"there is no {', no '.join(MISSING)} here")]

SEED, IMAGES = 20261128, 20_000
# The limits of the gate per file system: seconds, and images; fewer images of the control.
SECONDS, SHORT, OF_CONTROL = 15, 150, 60
# The file systems in the gate.
OF_GATE = ("ext4", "xfs", "btrfs-4096")
LONG = pytest.mark.long
PICTURE = ROOT / "docs" / "pictures" / "powercut.svg"


@pytest.fixture
def machine_room(tmp_path: Path, own_mounts: None) -> Iterator[Path]:
    """Return a folder in memory that the test's mount namespace removes."""
    if subprocess.run(["pkg-config", "--exists", "fuse3"], check=False).returncode:
        pytest.skip("there is no libfuse3-dev here")
    machine.mount("tmpfs", tmp_path, "tmpfs")
    yield tmp_path
    machine.unmount(tmp_path)


@pytest.fixture
def runner(request: pytest.FixtureRequest, program: str, machine_room: Path) -> Runner:
    """Return a runner with a fixed seed and a time limit; the long form draws the seed."""
    is_long = request.config.getoption("--long")
    seed = hunting.seed(random.randrange(10**9) if is_long else SEED)
    print(f"SEED={seed}")
    made = Runner(machine_room, machine.compiled(machine_room), program, seed)
    made.until = None if is_long else time.monotonic() + SECONDS
    return made


def requires(kind: Kind, runner: Runner) -> None:
    """Skip unless this machine can make and mount a kind of file system."""
    try:
        file = kinds.made(kind, os.path.join(runner.room, "bytes"))
    except FileNotFoundError:
        pytest.skip(f"there is no {kind.make[0]} here")
    except subprocess.CalledProcessError as fault:
        pytest.skip(f"{kind.system} cannot be made here: {fault.stderr.decode(errors='replace')}")
    try:
        device = machine.Device(runner.server, runner.room, file, kind.sector)
    except machine.Unready as fault:
        pytest.skip(str(fault))
    try:
        with device.mounted(kind.system, kind.options):
            pass
    except machine.Unmounted as fault:
        pytest.skip(f"{kind.system} cannot be mounted here: {fault}")
    finally:
        device.close()


def look(runner: Runner, part: Part) -> None:
    """Run a part, and check the outcomes of its images."""
    requires(part.kind, runner)
    result = runner.run(part)
    assert result.fault is None, f"{result.title}: {result.fault}\n" + "\n".join(result.messages)
    assert sum(result.outcomes.values()) > 0


def images(request: pytest.FixtureRequest) -> int:
    """Return the number of images of the file systems that must keep the promise."""
    return hunting.number(request.config, "IMAGES", SHORT * len(KINDS), IMAGES)


@pytest.mark.parametrize("name", [name if name in OF_GATE else pytest.param(name, marks=LONG) for name in KINDS])
def test_a_power_cut_loses_no_acknowledged_command(request: pytest.FixtureRequest, runner: Runner, name: str) -> None:
    look(runner, parts.promised(name, images(request) // len(KINDS)))


def test_the_judge_rejects_a_program_without_its_last_sync(runner: Runner) -> None:
    look(runner, parts.control(CONTROLS["no-last-sync"], "ext4", OF_CONTROL, is_behind=True))


@pytest.mark.long
@pytest.mark.parametrize("control, name", [(control, name) for control, definition in CONTROLS.items() for name in KINDS
                                           if name in definition.kinds])
def test_the_judge_rejects_a_control(request: pytest.FixtureRequest, runner: Runner, control: str, name: str) -> None:
    look(runner, parts.control(CONTROLS[control], name, min(max(images(request) // 10, OF_CONTROL), 300)))


@pytest.mark.long
@pytest.mark.parametrize("number", range(len(parts.others("ext4", 1))), ids=lambda number: parts.OTHERS[number])
@pytest.mark.parametrize("name", KINDS)
def test_a_power_cut_with_a_fault_loses_no_acknowledged_command(request: pytest.FixtureRequest, runner: Runner,
                                                                name: str, number: int) -> None:
    look(runner, parts.others(name, max(images(request) // 40, 20))[number])


@pytest.mark.long
@pytest.mark.parametrize("name", SETTINGS)
def test_a_power_cut_with_other_settings(request: pytest.FixtureRequest, runner: Runner, name: str) -> None:
    """Print the figures; any outcome is right."""
    look(runner, parts.setting(name, images(request) // 20))


@pytest.mark.long
def test_the_picture_of_power_cuts_can_be_drawn(runner: Runner) -> None:
    """The picture can be drawn. WRITE=1 writes it to docs/pictures."""
    requires(KINDS["ext4"], runner)
    picture = worst.drawn(runner.server, runner.room, runner.program)
    assert picture.texts
    if os.environ.get("WRITE"):
        PICTURE.write_text(picture.spelled())
