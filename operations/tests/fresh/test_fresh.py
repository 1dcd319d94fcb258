"""Build and install the Python package and the Debian packages in a Debian with only build tools and no network."""
from __future__ import annotations

import shutil
from collections.abc import Iterator
from pathlib import Path

import pytest

from operations.package import stamp
from operations.tests.fresh.root import MAKING, Ran, Root, fresh
from operations.tests.machine.debian import Missing
from operations.tests.stamped import stamp_of
from tests.program import ROOT

pytestmark = [pytest.mark.root, pytest.mark.long, pytest.mark.alone, pytest.mark.xdist_group("fresh"),
              pytest.mark.timeout(2 * MAKING), pytest.mark.needs("debootstrap", "unshare", "tar")]

VERSION = (ROOT / "VERSION").read_text().strip()
# The time of the packages where there is no git.
MOMENT = "1767225600"
INSTALL = ("pip3 install --quiet --no-index --no-build-isolation --break-system-packages --root-user-action=ignore "
           "--force-reinstall --no-deps")
INSTALLED = "/usr/local/lib/python3.11/dist-packages/ropepeach"


@pytest.fixture(scope="module")
def root() -> Iterator[Root]:
    """Return a new Debian."""
    try:
        with fresh() as made:
            yield made
    except Missing as what:
        pytest.skip(f"this machine has not {what}")


def done(finished: Ran) -> str:
    """Return the output of a run, which must succeed."""
    assert finished.returncode == 0, (finished.stdout + finished.stderr)[-600:]
    return finished.stdout


def check_command(root: Root) -> None:
    """Check the version, the help, the texts and the modules of the installed command."""
    assert done(root.run("ropepeach --version")) == f"ropepeach {VERSION}\n"
    assert "Content-Security-Policy" in done(root.run("ropepeach site https://a.example"))
    tried = root.run("cd /tmp && ropepeach mirror http://127.0.0.1:1 m --patience 0; "
                     "ropepeach fill /etc http://127.0.0.1:1 --patience 0")
    assert (tried.stderr.count("\n"), tried.stderr.count("no answer for 0 seconds")) == (2, 2), tried
    installed = root.path / INSTALLED.lstrip("/")
    names = {str(path.relative_to(installed)) for path in installed.rglob("*.*")}
    package = ROOT / "operations/ropepeach"
    ours = {str(path.relative_to(package)) for path in package.rglob("*.*") if "__pycache__" not in path.parts}
    assert names == ours


def test_pip_installs_the_sources(root: Root) -> None:
    root.source("/src")
    done(root.run(f"cd /src && {INSTALL} ."))
    check_command(root)
    done(root.run("pip3 uninstall --quiet --yes --break-system-packages --root-user-action=ignore ropepeach"))
    assert root.run("ropepeach --version").returncode == 127


def test_a_wheel_and_an_archive_of_sources_are_built(root: Root) -> None:
    """pip installs the same command from the wheel and from the source archive."""
    root.source("/src")
    done(root.run("cd /src && rm -rf /made && python3 -m build --no-isolation --outdir /made"))
    names = sorted(path.name for path in (root.path / "made").iterdir())
    assert names == [f"ropepeach-{VERSION}-py3-none-any.whl", f"ropepeach-{VERSION}.tar.gz"]
    for name in names:
        done(root.run(f"cd /made && {INSTALL} {name}"))
        check_command(root)
        done(root.run(f"rm -rf {INSTALLED}* /usr/local/bin/ropepeach"))


@pytest.mark.parametrize("text", ["there is no program yet", "has no stamp", "is not the program that its stamp is of"])
def test_no_package_is_built_without_the_program_and_its_stamp(root: Root, program: str, text: str) -> None:
    """dpkg-buildpackage fails with one line without the program or its stamp."""
    folder = root.source("/build/src")
    if text != "there is no program yet":
        place(folder, Path(program))
    if text == "has no stamp":
        (folder / "proved/rs_source.stamp").unlink()
    elif text == "is not the program that its stamp is of":
        with open(folder / "proved/rs_source", "ab") as file:
            file.write(b"x")
    finished = root.run("cd /build/src && dpkg-buildpackage -us -uc", SOURCE_DATE_EPOCH=MOMENT)
    lines = [line for line in (finished.stdout + finished.stderr).splitlines() if line.startswith("package: ")]
    assert finished.returncode and len(lines) == 1 and text in lines[0], finished.stderr[-300:]
    assert not list((root.path / "build").glob("*.deb"))
    assert "Traceback" not in finished.stderr


def place(folder: Path, program: Path) -> None:
    """Copy a program and its stamp to their place in a source package."""
    (folder / "proved").mkdir()
    copy = folder / "proved/rs_source"
    shutil.copyfile(program, copy)
    stamp_of(program).write(copy)


def test_packages_are_built_of_a_program_with_its_stamp(root: Root, program: str) -> None:
    """The packages install both commands, and both run."""
    folder = root.source("/build/src")
    place(folder, Path(program))
    done(root.run("cd /build/src && dpkg-buildpackage -us -uc", SOURCE_DATE_EPOCH=MOMENT, DEB_BUILD_OPTIONS="nocheck"))
    made = sorted(path.name for path in (root.path / "build").glob("*.deb"))
    assert {name.partition("_")[0] for name in made} == {"ropepeach", "ropepeach-tools"}
    assert len(list((root.path / "build").glob("*.dsc"))) == 1
    done(root.run("cd /build && rm -rf x && for it in *.deb; do dpkg-deb -x $it x; done"))
    assert done(root.run("/build/x/usr/bin/ropepeach --version")) == f"ropepeach {VERSION}\n"
    done(root.run("cd /tmp && rm -f d && /build/x/usr/bin/rs_source format d 1048576 https://a.example 100"))
    proved = (root.path / "build/x/usr/share/doc/ropepeach/PROVED").read_text()
    assert stamp.digest(Path(program)) in proved
    for path in (root.path / "build").glob("ropepeach*"):
        path.unlink()
