"""Run the image for containers of the tested program under `runc` and systemd-nspawn."""
from __future__ import annotations

import json
import os
import random
import signal
import subprocess
import tarfile
import tempfile
from collections.abc import Iterator
from dataclasses import dataclass
from pathlib import Path

import pytest

from operations.image.__main__ import made
from operations.image.root import INCLUDED, SUITE
from operations.package.build import build
from operations.tests.image.container import SECONDS, Container
from operations.tests.machine import debian
from operations.tests.machine.debian import Missing
from operations.tests.machine.puts import Puts
from operations.tests.stamped import stamp_of
from tests.program import ROOT

# The largest size of the image in bytes, the number of kills of a container, and the timeout of SIGTERM in seconds.
LARGEST, KILLS, ENDING = 64 << 20, 20, 10
# The time of the packages where there is no git.
MOMENT = "1767225600"
BASE = "http://source.example.org"
# Paths that are read-only in a container.
CLOSED = ("/x", "/usr/bin/x", "/etc/x", "/tmp/x", "/var/lib/ropepeach/x")

pytestmark = [pytest.mark.root, pytest.mark.alone, pytest.mark.xdist_group("image"), pytest.mark.timeout(900),
              pytest.mark.needs("debootstrap", "umoci", "runc", "dpkg-deb", "strip")]


@dataclass(frozen=True)
class Image:
    """An image's layout, the packages that it was made of, and the Debian below it."""

    layout: Path
    packages: list[Path]
    base: Path

    def descriptor(self, folder: Path | None = None) -> dict[str, str]:
        """Return the descriptor of the only image of a layout."""
        found: dict[str, str] = json.loads(((folder or self.layout) / "index.json").read_text())["manifests"][0]
        return found

    def blob(self, digest: str) -> Path:
        """Return the file of a digest."""
        return self.layout / "blobs" / digest.replace(":", "/")


@pytest.fixture(scope="module")
def place() -> Iterator[Path]:
    """Return a folder for images and containers."""
    with tempfile.TemporaryDirectory(prefix="image-", dir=debian.place()) as name:
        yield Path(name)


@pytest.fixture(scope="module")
def image(program: str, place: Path) -> Image:
    """Make the packages and their image."""
    os.environ.setdefault("SOURCE_DATE_EPOCH", MOMENT)
    try:
        base = Path(debian.archive_of(SUITE, INCLUDED)[0])
    except Missing as what:
        pytest.skip(f"this machine has not {what}")
    version = (ROOT / "VERSION").read_text().strip()
    packages = [Path(path) for path in build(Path(program), version, place / "debs", stamp_of(program))]
    return Image(made(packages, place / "image", base), packages, base)


@pytest.fixture(scope="module")
def container(image: Image, place: Path) -> Iterator[Container]:
    """Return a container of the image, which serves a source of its volume."""
    room = place / "box"
    room.mkdir()
    box = Container(room, image.layout, (ROOT / "VERSION").read_text().strip())
    try:
        assert "formatted" in box.once("format", "/data/source.disk", "1048576", BASE, "100")
        box.start()
        yield box
    finally:
        box.close()


def test_the_image_is_small_and_its_user_is_not_root(image: Image, container: Container) -> None:
    """The image has one layer, and its user owns the volume."""
    size = sum(path.stat().st_size for path in image.layout.rglob("*") if path.is_file())
    layers = json.loads(image.blob(image.descriptor()["digest"]).read_text())["layers"]
    assert size < LARGEST and len(layers) == 1
    assert container.user[0] > 0 and container.user[1] > 0
    with tarfile.open(image.blob(layers[0]["digest"])) as layer:
        volume = layer.getmember("data")
    assert (volume.uid, volume.gid, volume.mode & 0o7777) == (*container.user, 0o755)


def test_two_images_of_the_same_packages_have_the_same_bytes(image: Image, place: Path) -> None:
    again = made(sorted(image.packages), place / "again", image.base)
    assert image.descriptor(again) == image.descriptor()
    assert (again / "index.json").read_text() == (image.layout / "index.json").read_text()


@pytest.mark.parametrize("path", CLOSED)
def test_a_container_writes_its_volume_only(container: Container, path: str) -> None:
    assert container.inside("touch", path).returncode != 0


def test_the_first_process_of_a_container_is_tini(container: Container) -> None:
    assert container.inside("cat", "/proc/1/comm").stdout.strip() == "tini"


def test_health_runs_in_a_container(container: Container) -> None:
    """`ropepeach health` exits 2 for a port without a source."""
    health = container.inside("ropepeach", "health", f"http://127.0.0.1:{container.port}")
    assert health.returncode == 0 and "OK" in health.stdout, health.stderr
    assert container.inside("ropepeach", "health", "http://127.0.0.1:1").returncode == 2


def test_sigterm_ends_a_container_which_starts_again(container: Container) -> None:
    assert container.stop(signal.SIGTERM) < ENDING
    container.start()


def test_killed_containers_lose_no_answered_put(container: Container) -> None:
    """Containers are killed 20 times during puts."""
    puts, draws = Puts(container, "kill", container.port), random.Random(78)
    for _ in range(KILLS):
        puts.start()
        puts.wait_for(draws.randrange(1, 12))
        container.stop()
        puts.stop()
        container.start()
        puts.look()


@pytest.mark.needs("systemd-nspawn")
def test_systemd_nspawn_serves_the_files_of_the_image(container: Container) -> None:
    """The container is read-only, runs as the same user, and ends on SIGTERM."""
    container.stop()
    words = ["systemd-nspawn", "--quiet", "--register=no", "--keep-unit", "--read-only",
             "--kill-signal=SIGTERM",
             f"--directory={container.bundle / 'rootfs'}",
             f"--bind={container.data}:/data", f"--user={container.user[0]}", "--console=pipe", *container.words()]
    with open(container.room / "log", "ab") as log:
        process = subprocess.Popen(words, stdin=subprocess.DEVNULL, stdout=log, stderr=log)
        try:
            container.until(container.listens, "the source listens")
        finally:
            # (if it were killed, its children would run on)
            process.terminate()
            process.wait(SECONDS)
    container.until(lambda: not container.listens(), "no process listens")
    container.start()
