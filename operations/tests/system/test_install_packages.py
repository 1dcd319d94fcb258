"""Test the Debian packages and the Python package: their bytes, their files, and the programs that they refuse."""
from __future__ import annotations

import dataclasses
import hashlib
import json
import os
import re
import shutil
import subprocess
import sys
from collections.abc import Iterator
from pathlib import Path

import pytest

from operations.tests.stamped import stamp_of
from operations.tests.system.install_shared import told_by
from tests.program import ROOT, room_in_memory

# The sources of the packages, without the program.
PARTS = ["operations", "debian", "docs", "VERSION", "LICENSE-MIT", "LICENSE-APACHE", "README.md",
         "pyproject.toml", "MANIFEST.in"]
# Debian's own Python, which has the modules for builds.
PYTHON = "/usr/bin/python3"
# 2026-01-01, for a build outside a git repository.
MOMENT = "1767225600"
SECONDS = 300
LIBC = re.compile(r"GLIBC_(\d+)\.(\d+)")
TOOLS = ["dpkg-buildpackage", "dh", "pybuild", "readelf", "strip"]
Files = dict[str, Path]

# (the tests share two packages, as a build takes a minute on a busy machine)
pytestmark = [pytest.mark.xdist_group("packages"), pytest.mark.timeout(600)]

# A C program that contains the path of its build.
TEXT = ('#include <stdio.h>\n#include <math.h>\nint main(int count, char **words) { return puts("%s") '
        '+ (int) floor(count * 0.5); }\n')
# Programs that are refused: a text in them, a change of their bytes, and texts of the refusal.
PROGRAMS = {
    "another loader": ("a", b"/lib64/ld-linux-x86-64.so.2", b"/lib64/ld-musl-x86_64.so.1\0", "is started by"),
    "another library": ("a", b"libm.so.6", b"libz.so.1", "needs libraries"),
    "a later C library": ("a", b"GLIBC_2.34", b"GLIBC_2.94", "wants version"),
    "a path of the build": ("/home/a/ropepeach/crates/rs_source/src/main.rt", b"", b"", "has paths of the build"),
}
# Changes of a source file that are refused, and texts of the refusal.
FILES = {
    "a path of the build": ("operations/install/closed", "No answer",
                            "{folder}/operations/install/closed: no answer", "has paths of the build"),
    "a path of make install": ("operations/ropepeach-command", "#!/usr/bin/python3", "#!/usr/local/bin/python3",
                               "has /usr/local/"),
    "a module that the wheel lacks": ("pyproject.toml", '"ropepeach.admin", ', "", "the wheel has not the modules"),
}


def copied(to: Path) -> None:
    """Copy the sources of the packages."""
    for part in PARTS:
        if (ROOT / part).is_dir():
            shutil.copytree(ROOT / part, to / part, ignore=shutil.ignore_patterns("__pycache__"))
        else:
            shutil.copy(ROOT / part, to)


def packed(folder: Path, program: str, **environment: str) -> subprocess.CompletedProcess[str]:
    """Run `python3 -m operations.package` in a folder."""
    words = [sys.executable, "-m", "operations.package", program, "--to", "made"]
    return subprocess.run(words, cwd=folder, env=os.environ | {"SOURCE_DATE_EPOCH": MOMENT} | environment,
                          capture_output=True, text=True, timeout=SECONDS)


def packed_with_stamp(program: str | Path, folder: Path, **environment: str) -> subprocess.CompletedProcess[str]:
    """Build the packages of a copy of a program, with a stamp."""
    copy = folder / "program"
    shutil.copyfile(program, copy)
    stamp_of(program).write(copy)
    return packed(folder, "program", **environment)


def built(program: str | Path, folder: Path, **environment: str) -> Files:
    """Build the packages of a program in a folder; return their files by name."""
    process = packed_with_stamp(program, folder, **environment)
    assert process.returncode == 0, (process.stdout + process.stderr).strip()[-600:]
    return {path.name: path for path in sorted((folder / "made").iterdir())}


def digest(path: Path | str) -> str:
    """Return the SHA-256 of a file."""
    return hashlib.sha256(Path(path).read_bytes()).hexdigest()


@pytest.fixture(scope="module")
def packages(program: str) -> Iterator[Files]:
    """Return the packages of this repository, built in a copy of it."""
    with room_in_memory("packages-") as room:
        copied(Path(room))
        yield built(program, Path(room))


def order(name: str) -> tuple[bool, bool, bool, str]:
    """Return the rank of a file in SHA256SUMS: packages, the source package, PROVED."""
    return name == "PROVED", not name.endswith(".deb"), not name.startswith("ropepeach_"), name


@pytest.mark.needs(*TOOLS)
def test_two_builds_of_a_commit_have_the_same_bytes(program: str, room: Path) -> None:
    """Builds differ in folder, umask, time zone, home and locale; SHA256SUMS has the digests of all files."""
    found: list[dict[str, bytes]] = []
    for folder, settings in (("one", {"TZ": "UTC"}),
                             ("two/below/another", {"TZ": "Asia/Tokyo", "HOME": "/nonexistent", "LC_ALL": "C"})):
        (room / folder).mkdir(parents=True)
        copied(room / folder)
        mask = os.umask(0o077 if found else 0o022)
        try:
            files = built(program, room / folder, **settings)
            found.append({name: path.read_bytes() for name, path in files.items()})
        finally:
            os.umask(mask)
    sums = [{name: hashlib.sha256(content).hexdigest() for name, content in build.items()} for build in found]
    assert sums[0] == sums[1]
    names = [name for name in sorted(sums[0], key=order) if name != "SHA256SUMS"]
    assert found[0]["SHA256SUMS"].decode() == "".join(f"{sums[0][name]}  {name}\n" for name in names)


@pytest.mark.needs(*TOOLS, "objdump")
def test_the_packages_have_the_program_and_its_dependencies(program: str, room: Path, packages: Files) -> None:
    """The program is stripped and depends on the C library of its symbols; root owns all files; /usr/local has none."""
    debs = [path for name, path in packages.items() if name.endswith(".deb")]
    for deb in debs:
        subprocess.run(["dpkg-deb", "--extract", deb, room / "at"], check=True, timeout=SECONDS)
        listed = told_by("dpkg-deb", "--contents", deb)[0]
        assert {line.split()[1] for line in listed.splitlines()} == {"root/root"}, deb.name
        assert "./usr/local" not in listed, deb.name
    symbols = told_by("objdump", "-T", program)[0]
    newest = max((tuple(map(int, number)) for number in LIBC.findall(symbols)), default=None)
    control = told_by("dpkg-deb", "--info", next(deb for deb in debs if deb.name.endswith("_amd64.deb")))[0]
    assert (f"Depends: libc6 (>= {newest[0]}.{newest[1]})," if newest else "Depends: systemd") in control
    programs = [program, f"{room}/at/usr/bin/rs_source"]
    usages = [subprocess.run([file], capture_output=True, timeout=SECONDS).stderr for file in programs]
    assert usages[0] == usages[1]
    output, status = told_by(f"{room}/at/usr/bin/ropepeach", "--help", cwd=room)
    assert (output[:21], status) == ("usage: ropepeach [-h]", 0)
    proved = packages["PROVED"].read_text()
    assert all(digest(file) in proved for file in programs)


@pytest.mark.needs(*TOOLS, "lintian")
def test_lintian_finds_nothing(packages: Files) -> None:
    debs = [path for name, path in packages.items() if name.endswith(".deb")]
    process = subprocess.run(["lintian", "--fail-on", "error,warning", "--allow-root", *debs], capture_output=True,
                             text=True, timeout=SECONDS)
    assert [line for line in process.stdout.splitlines() if line[:2] in ("E:", "W:")] == []
    assert process.returncode == 0


@pytest.mark.needs(*TOOLS)
def test_no_package_is_built_without_a_stamp(program: str, room: Path) -> None:
    """A program without a stamp, with another program's stamp or with a broken one is refused with one line."""
    copied(room)
    shutil.copyfile(program, room / "program")
    other = json.dumps(dataclasses.asdict(dataclasses.replace(stamp_of(program), sha256="0" * 64)))
    for name, text in [("/bin/true", ""), ("program", other), ("program", "{}"), ("program", "[1"), ("program", ""),
                       ("none", "")]:
        (room / "program.stamp").write_text(text)
        process = packed(room, name)
        lines = (process.stdout + process.stderr).splitlines()
        assert (process.returncode, len(lines)) == (1, 1), f"{name} with {text!r}: {lines}"
        assert lines[0].startswith("package: "), f"{name} with {text!r}"
        assert not list((room / "made").glob("*"))


@pytest.mark.needs(*TOOLS)
def test_the_source_package_builds_the_same_packages(room: Path, packages: Files) -> None:
    """`dpkg-buildpackage -us -uc` in the unpacked source package, in another folder, makes the same packages."""
    (room / "far").mkdir()
    dsc = next(path for name, path in packages.items() if name.endswith(".dsc"))
    for words, folder in ((["dpkg-source", "-x", str(dsc), "unpacked"], "far"),
                          (["dpkg-buildpackage", "-us", "-uc"], "far/unpacked")):
        process = subprocess.run(words, cwd=room / folder, capture_output=True, text=True, timeout=SECONDS)
        assert process.returncode == 0, process.stderr[-600:]
    debs = [name for name in packages if name.endswith(".deb")]
    assert [digest(room / "far" / name) for name in debs] == [digest(packages[name]) for name in debs]


@pytest.mark.needs(*TOOLS, "cc")
@pytest.mark.parametrize(("text", "old", "new", "refusal"), PROGRAMS.values(), ids=PROGRAMS)
def test_an_unfit_program_is_not_packed(room: Path, text: str, old: bytes, new: bytes, refusal: str) -> None:
    source, made, folder = room / "wrong.c", room / "wrong", room / "copy"
    source.write_text(TEXT % text)
    subprocess.run(["cc", "-O0", "-o", made, source, "-Wl,--no-as-needed", "-lm"], check=True, capture_output=True,
                   timeout=60)
    content = made.read_bytes()
    assert old in content
    made.write_bytes(content.replace(old, new) if old else content)
    folder.mkdir()
    copied(folder)
    process = packed_with_stamp(made, folder)
    assert process.returncode == 1 and refusal in process.stderr


@pytest.mark.needs(*TOOLS)
@pytest.mark.parametrize(("file", "old", "new", "refusal"), FILES.values(), ids=FILES)
def test_an_unfit_file_is_not_packed(program: str, room: Path, file: str, old: str, new: str, refusal: str) -> None:
    copied(room)
    text = (room / file).read_text()
    assert text.count(old) == 1
    (room / file).write_text(text.replace(old, new.replace("{folder}", str(room))))
    process = packed_with_stamp(program, room)
    assert process.returncode == 1 and refusal in process.stderr


@pytest.mark.needs(PYTHON)
def test_pip_installs_the_command_without_a_network(room: Path) -> None:
    """pip installs from the sources, from the wheel, and from the source archive of `build`, without a network."""
    folder = room / "copy"
    folder.mkdir()
    copied(folder)
    alone = ["unshare", "--net"] if os.geteuid() == 0 else []
    offline = ["--no-index", "--no-deps", "--no-build-isolation", "--root-user-action=ignore"]
    subprocess.run([*alone, PYTHON, "-m", "build", "--no-isolation"], cwd=folder, check=True, capture_output=True,
                   timeout=SECONDS)
    made = sorted(path.name for path in (folder / "dist").iterdir())
    version = (ROOT / "VERSION").read_text().strip()
    assert made == [f"ropepeach-{version}-py3-none-any.whl", f"ropepeach-{version}.tar.gz"]
    settings = os.environ | {"PYTHONPATH": f"{room}/at"}
    for what in (".", f"dist/{made[0]}", f"dist/{made[1]}"):
        shutil.rmtree(room / "at", ignore_errors=True)
        words = [*alone, PYTHON, "-m", "pip", "install", *offline, "--target", f"{room}/at", what]
        subprocess.run(words, cwd=folder, check=True, capture_output=True, timeout=SECONDS)
        command = [PYTHON, f"{room}/at/bin/ropepeach"]
        assert told_by(*command, "--version", env=settings) == (f"ropepeach {version}\n", 0), what
        site, status = told_by(*command, "site", "https://a.example", env=settings)
        assert status == 0 and "server_name" in site, what
