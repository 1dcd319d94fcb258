"""Make all artifacts of a release twice, in two folders."""
from __future__ import annotations

import hashlib
import os
import shutil
import subprocess
import sys
from dataclasses import dataclass
from pathlib import Path

import pytest

from operations.image.root import INCLUDED, SUITE
from operations.package.stamp import digest
from operations.release.__main__ import lacking
from operations.release.artifacts import plain_programs
from operations.tests.machine import debian
from operations.tests.machine.debian import Missing
from operations.tests.release import made_up
from operations.tests.release.test_release import SKIP, facts
from operations.tests.stamped import stamp_of
from tests import verdict
from tests.program import ROOT

# The timeout of a release in seconds.
SECONDS = 7200
# The bytes, the mode and the time of files by name.
Files = dict[str, tuple[bytes, int, int]]

pytestmark = [pytest.mark.long, pytest.mark.alone, pytest.mark.xdist_group("release"), pytest.mark.root,
              pytest.mark.timeout(3 * SECONDS)]
LEFT_OUT = shutil.ignore_patterns(".git", "out", "__pycache__", ".mypy_cache", ".hypothesis")
# A script for both programs.
SCRIPT = b"put a 616263 text/plain\npublish\nshow /resource/a\n"


def copied(program: Path, to: Path) -> None:
    """Copy this repository, with one commit, the program with its stamp, and a verdict of the gate with a skip."""
    shutil.copytree(ROOT, to, ignore=LEFT_OUT, symlinks=True)
    commit = made_up.commit(to)
    built = to / "crates/rs_source/out/rs_source"
    built.parent.mkdir(exist_ok=True)
    shutil.copyfile(program, built)
    known = stamp_of(program)
    type(known)(digest(built), commit, False, 1767225600, known.kit).write(built)
    verdict.write(to, verdict.Verdict(commit, (), known.kit, 1, (), (SKIP,), "1 passed, 0 failed, 1 skipped"))


def released(folder: Path, base: Path, **settings: str) -> Path:
    """Make the release of a copy; return its folder."""
    words = [sys.executable, "-m", "operations.release", "--with-skips", "--base", str(base)]
    environment = {name: value for name, value in os.environ.items() if name != "SOURCE_DATE_EPOCH"}
    process = subprocess.run(words, cwd=folder, env={**environment, **settings}, capture_output=True, text=True,
                             timeout=SECONDS)
    assert process.returncode == 0, (process.stdout + process.stderr).strip()[-600:]
    return folder / "out/release"


def facts_of_release(program: Path, base: Path, folder: Path, mask: int, settings: dict[str, str]) -> Files:
    """Make a release in a folder, with a umask and settings of the environment; return its files."""
    before = os.umask(mask)
    try:
        copied(program, folder)
        return facts(released(folder, base, **settings))
    finally:
        os.umask(before)


def run_of(words: list[str]) -> bytes:
    """Return the output of a program for a script."""
    process = subprocess.run([*words, "mem", "65536", "http://127.0.0.1:8080", "2"], input=SCRIPT, capture_output=True,
                             timeout=120, check=True)
    return process.stdout


def pages_of_packages(release: Path, folder: Path) -> dict[str, str]:
    """Unpack the packages of a release into a folder; return PROVED by the name of the package."""
    texts = {}
    for deb in release.glob("*.deb"):
        subprocess.run(["dpkg-deb", "--extract", deb, folder / deb.name], check=True, capture_output=True)
        for page in (folder / deb.name).glob("usr/share/doc/*/PROVED"):
            texts[deb.name.partition("_")[0]] = page.read_text()
    return texts


@dataclass(frozen=True)
class Releases:
    """Two releases of one commit: their files by name, and the folder of the first."""

    made: Path
    found: list[Files]


@pytest.fixture(scope="module")
def releases(program: str, tmp_path_factory: pytest.TempPathFactory) -> Releases:
    """Return two releases, made in different folders, with different umasks and time zones."""
    if missing := lacking() or [tool for tool in ("qemu-aarch64", "rt") if not shutil.which(tool)]:
        pytest.skip(f"there is no {', '.join(missing)} here")
    try:
        base = Path(debian.archive_of(SUITE, INCLUDED)[0])
    except Missing as what:
        pytest.skip(f"this machine has not {what}")
    room = tmp_path_factory.mktemp("release")
    zones = {"TZ": "Asia/Tokyo", "LC_ALL": "C"}
    found = [facts_of_release(Path(program), base, room / "one", 0o022, {}),
             facts_of_release(Path(program), base, room / "two/below", 0o077, zones)]
    (room / "one/out/release").rename(room / "one/release")
    return Releases(room / "one/release", found)


def test_two_releases_are_the_same(releases: Releases) -> None:
    """The files of both releases have the same bytes, modes and times."""
    sums = [{name: (hashlib.sha256(content).hexdigest(), *more) for name, (content, *more) in files.items()}
            for files in releases.found]
    assert sums[0] == sums[1]


def test_the_plain_programs_answer_as_the_proved_one(program: str, releases: Releases) -> None:
    """The plain programs are static; the program for arm64 runs under qemu."""
    names, answer = plain_programs((ROOT / "VERSION").read_text().strip()), run_of([program]).splitlines()[-1]
    for words in ([str(releases.made / names["amd64"])], ["qemu-aarch64", str(releases.made / names["arm64"])]):
        assert run_of(words).splitlines()[-1] == answer, words
        kinds = subprocess.run(["readelf", "-lW", words[-1]], capture_output=True, text=True, check=True).stdout
        assert "INTERP" not in kinds, words


def test_proved_says_in_each_package_whether_its_program_is_proved(releases: Releases, room: Path) -> None:
    texts = pages_of_packages(releases.made, room)
    assert set(texts) == {"ropepeach", "ropepeach-plain"}
    assert "THIS PROGRAM IS NOT PROVED" in texts["ropepeach-plain"]
    assert "NOT PROVED" not in texts["ropepeach"]
    plain = room / next(path.name for path in releases.made.glob("ropepeach-plain_*_arm64.deb")) / "usr/bin/rs_source"
    assert digest(plain) in texts["ropepeach-plain"]
