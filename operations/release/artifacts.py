"""The artifacts of a version, and how each is made."""
from __future__ import annotations

import hashlib
import tempfile
from email.utils import formatdate
from pathlib import Path

from operations.image import layout
from operations.image.__main__ import made as image_of
from operations.package import build
from operations.package.places import PLAIN_SOURCE, ROOT, SOURCE, TOOLS
from operations.package.program_facts import Unfit, stripped
from operations.package.stamp import Stamp
from operations.release.gathered import Part
from operations.release.grounds import Grounds
from rust import __main__ as writing
from rust.build import Failed
from rust.crates import Missing
from rust.targets import MACHINES, RUSTC, built, output_of

PROVED, CHANGES = "PROVED", "CHANGES.md"
PROVED_TEXT = """Ropepeach {version}, commit {commit} of {date}.

`make test` ran on that commit, and nothing else. Its last line was
  {line}
{skipped}
Proved: the program of {package} and of {image}.
Each of its functions was proved against its contract, and then it was built. Its prover was
  {kit}
SHA-256 of it as it was built:                       {built}
SHA-256 of it in the package and in the image:       {packed}
They differ in what is not loaded into memory. The sources' docs/RECOVERY.md has the promise, and names its premises.

NOT proved, but built of the same sources with their contracts erased, and tested, by
  {compiler}
{plain}
"""


def plain_programs(version: str) -> dict[str, str]:
    """Return the names of the static programs, by machine."""
    return {machine: f"rs_source-plain-{version}-linux-{machine}" for machine in MACHINES}


def packages(version: str) -> tuple[str, ...]:
    """Return the names of the packages of the proved program and of the tools, and of their source."""
    return (f"{SOURCE}_{version}_amd64.deb", f"{TOOLS}_{version}_all.deb", f"{SOURCE}_{version}.dsc",
            f"{SOURCE}_{version}.tar.xz")


def image_name(version: str) -> str:
    """Return the name of the image for containers."""
    return f"{SOURCE}-{version}-image-amd64.tar"


def proved_text(grounds: Grounds, packed: str, compiler: str) -> str:
    """Return the text of PROVED: the commit, the gate's verdict on it, and the artifacts that are proved."""
    version, found = grounds.version, grounds.verdict
    skipped = "".join(f"It did not try:\n  {why}\n" for why in found.skipped)
    plain = [f"{PLAIN_SOURCE}_{version}_arm64.deb", f"{writing.NAME}.tar.gz", *plain_programs(version).values()]
    return PROVED_TEXT.format(
        version=version, commit=found.commit, date=formatdate(grounds.stamp.date), line=found.line, skipped=skipped,
        package=packages(version)[0], image=image_name(version), kit=grounds.stamp.kit, built=grounds.stamp.sha256,
        packed=packed, compiler=compiler, plain="\n".join(f"  {name}" for name in plain))


def compiler() -> str:
    """Return rustc's line with its version."""
    return output_of(RUSTC, "--version").strip()


class Release:
    """The release of a version: its parts, in the order of their making."""

    def __init__(self, grounds: Grounds, program: Path, base: Path | None, room: Path) -> None:
        """Take `base`, an archive of the image's Debian or None, and `room`, a folder for files that parts share."""
        self.grounds, self.program, self.base, self.room = grounds, program, base, room
        self.version = grounds.version

    @property
    def workspace(self) -> Path:
        """Return the folder of the plain sources, which `write_plain` writes."""
        return self.room / "rust" / writing.NAME

    def write_packages(self, to: Path) -> None:
        """Write the Debian packages of the proved program and of the tools, and their source."""
        build.build(self.program, self.version, to, self.grounds.stamp)
        for name in packages(self.version)[:2]:
            (self.room / name).write_bytes((to / name).read_bytes())

    def write_image(self, to: Path) -> None:
        """Write the image for containers, with these packages."""
        debs = [self.room / name for name in packages(self.version)[:2]]
        made = image_of(debs, self.room / "image", self.base)
        layout.archive(made, to / image_name(self.version), build.moment())

    def write_plain(self, to: Path) -> None:
        """Write the sources as plain Rust."""
        why = writing.run(self.room / "rust")
        if why:
            raise Unfit(str(why))
        name = f"{writing.NAME}.tar.gz"
        (to / name).write_bytes((self.room / "rust" / name).read_bytes())

    def write_programs(self, to: Path) -> None:
        """Write the static programs."""
        for machine, name in plain_programs(self.version).items():
            built(self.workspace, MACHINES[machine], True, to / name)

    def write_plain_packages(self, to: Path) -> None:
        """Write the Debian package of the plain program for another machine, with Debian's C library."""
        made = built(self.workspace, MACHINES["arm64"], False, self.room / "arm64" / "rs_source")
        known = self.grounds.stamp
        stamp = Stamp(hashlib.sha256(made.read_bytes()).hexdigest(), known.commit, known.has_changes, known.date,
                      compiler())
        build.build_plain(made, stamp, "arm64", self.version, to)

    def write_texts(self, to: Path) -> None:
        """Write PROVED and the changes of the version."""
        with tempfile.TemporaryDirectory() as room:
            packed = hashlib.sha256(stripped(self.program, Path(room, "rs_source")).read_bytes()).hexdigest()
        (to / PROVED).write_text(proved_text(self.grounds, packed, compiler()))
        (to / CHANGES).write_text(self.grounds.changes)

    def parts(self) -> list[Part]:
        """Return all parts."""
        programs = tuple(plain_programs(self.version).values())
        return [Part((PROVED, CHANGES), self.write_texts), Part(packages(self.version), self.write_packages),
                Part((image_name(self.version),), self.write_image),
                Part((f"{writing.NAME}.tar.gz",), self.write_plain),
                Part(programs, self.write_programs, programs),
                Part((f"{PLAIN_SOURCE}_{self.version}_arm64.deb",), self.write_plain_packages)]


FAULTS = (Unfit, Failed, Missing, OSError, UnicodeDecodeError)
PROGRAM = ROOT / "crates/rs_source/out/rs_source"
