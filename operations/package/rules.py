"""The steps of debian/rules that Python does.

usage: python3 -m operations.package.rules bring  copies the program of `make build`, and its stamp, into proved/
       python3 -m operations.package.rules stage  puts all files into debian/ropepeach and debian/ropepeach-tools
For machines other than amd64 (DEB_HOST_ARCH) the program is the plain one, in plain/, and goes into
debian/ropepeach-plain.
Exit status 1, with an error message, if a package may not contain the program or a file.
"""
from __future__ import annotations

import hashlib
import os
import shutil
import sys
import tempfile
from email.utils import formatdate
from pathlib import Path

from operations.package import places, stamp
from operations.package.places import PLAIN_SOURCE, ROOT, SOURCE, Place
from operations.package.program_facts import (
    AMD64, MACHINES, Machine, Unfit, libc_version, libraries, paths_of_the_build, stripped,
)

# The variable that names the folder of the build, since `make package` builds in a copy; the program of `make build`,
# and its places in a package's sources.
FOLDER = "ROPEPEACH_BUILT_FROM"
BUILT = ROOT / "crates/rs_source/out/rs_source"
PROVED, PLAIN = ROOT / "proved/rs_source", ROOT / "plain/rs_source"
# The stamp of a plain program begins with this word: it names the compiler where other stamps name a prover.
COMPILER = "rustc "
TEXT = """Ropepeach {version}, commit {commit}{changes} of {date}.

`make build` proves each function of the program, and then builds it; the package has what it built. Its prover was
  {kit}
docs/RECOVERY.md has the promise, and names its premises.

SHA-256 of the program as it was built:    {built}
SHA-256 of the program in the package:     {packed}
They differ in what is not loaded into memory: `strip` took away names, and paths of the building machine.
It needs {needs}.
"""
PLAIN_TEXT = """Ropepeach {version}, commit {commit}{changes} of {date}: the plain build, for {machine}.

THIS PROGRAM IS NOT PROVED. The proofs are of the sources; it was built of the same sources as plain Rust, by
  {kit}
It trusts the eraser, the shim, rustc, its library and the pinned crates in place of the prover's compiler and
library. The package ropepeach, for amd64, has the proved program.

SHA-256 of the program as it was built:    {built}
SHA-256 of the program in the package:     {packed}
It needs {needs}.
"""


def machine() -> Machine:
    """Return the machine that packages are built for."""
    name = os.environ.get("DEB_HOST_ARCH") or AMD64.name
    if name not in MACHINES:
        raise Unfit(f"there is no package for {name}")
    return MACHINES[name]


def read_stamp(program: Path, is_plain: bool) -> stamp.Stamp:
    """Return the stamp of a program, which names a compiler for a plain program and a prover for a proved one."""
    known = stamp.read(program)
    if known.kit.startswith(COMPILER) != is_plain:
        kinds = ("a plain program, which is not proved", "a proved program")
        raise Unfit(f"{program} has the stamp of {kinds[is_plain]}: it goes into another package")
    return known


def bring() -> None:
    """Copy the built program with its stamp into the sources of a package.

    In an unpacked source package, the program that is already there stays.
    """
    if machine() != AMD64:
        read_stamp(PLAIN, True)
        return
    if BUILT.is_file():
        stamp.read(BUILT)
        PROVED.parent.mkdir(exist_ok=True)
        for path, to in ((BUILT, PROVED), (stamp.path_of(BUILT), stamp.path_of(PROVED))):
            shutil.copyfile(path, to)
    read_stamp(PROVED, False)


def text_of_proof(packed: Path, target: Machine) -> str:
    """Return the text of PROVED: the commit and the prover, or that the program itself is not proved."""
    is_plain = target != AMD64
    known, libc = read_stamp(PLAIN if is_plain else PROVED, is_plain), libc_version(packed, target)
    return (PLAIN_TEXT if is_plain else TEXT).format(
        machine=target.name, version=(ROOT / "VERSION").read_text().strip(), commit=known.commit
        or "not known, as this is no git repository",
        changes=", with changes that no commit has," if known.has_changes else "",
        date=formatdate(known.date), kit=known.kit,
        built=known.sha256, packed=hashlib.sha256(packed.read_bytes()).hexdigest(),
        needs=f"version {'.'.join(map(str, libc))} of the GNU C library, or a later one"
        if libc else "no C library")


def look(place: Place, path: str) -> None:
    """Raise Unfit if a file has paths of the build, or paths below /usr/local/, where packages have no files."""
    folders = [str(ROOT), os.environ.get(FOLDER, str(ROOT))]
    paths = [folder for folder in folders if f"{folder}/".encode() in place.content]
    if path == "/usr/bin/rs_source":
        paths += paths_of_the_build(place.content, ROOT)
    if paths:
        raise Unfit(f"{path} has paths of the build: {', '.join(paths[:5])}")
    if "/share/doc/" not in path and b"/usr/local/" in place.content:
        raise Unfit(f"{path} has /usr/local/, where a package has nothing")


def stage() -> None:
    """Put the files of both packages into the folders that debhelper packs."""
    target = machine()
    source, built = (SOURCE, PROVED) if target == AMD64 else (PLAIN_SOURCE, PLAIN)
    with tempfile.TemporaryDirectory() as room:
        program = stripped(built, Path(room, "rs_source"), target)
        proved = text_of_proof(program, target).encode()
        found = [*places.places(program, "/usr"), Place(f"share/doc/{source}/PROVED", proved)]
    for place in found:
        if place.package:
            path = place.path if place.path.startswith("/") else f"/usr/{place.path}"
            look(place, path)
            package = source if place.package == SOURCE else place.package
            places.put(place, Path(f"{ROOT}/debian/{package}{path}"))
    check_modules()
    if target != AMD64:
        needed = needs(program_of(PLAIN_SOURCE), target)
        Path(f"{ROOT}/debian/{PLAIN_SOURCE}.substvars").write_text(f"shlibs:Depends={needed}\n")


def program_of(package: str) -> Path:
    """Return the path of the program in a package before it is packed."""
    return ROOT / f"debian/{package}/usr/bin/rs_source"


def needs(program: Path, target: Machine) -> str:
    """Return the Debian packages of a program's libraries, as its dependencies."""
    version = libc_version(program, target)
    if not version:
        return ""
    wants_gcc = "libgcc_s.so.1" in libraries(program)
    return f"libc6 (>= {'.'.join(map(str, version))})" + ", libgcc-s1" * wants_gcc


def check_modules() -> None:
    """Check that the package has the same modules as the wheel."""
    packed = ROOT / "debian/ropepeach-tools/usr/lib/ropepeach/ropepeach"
    wheel = next((ROOT / "debian/tmp/usr/lib").glob("python3*/dist-packages/ropepeach"), ROOT)
    contents = [{str(path.relative_to(folder)): path.read_bytes() for path in folder.rglob("*.py")}
                for folder in (packed, wheel)]
    if contents[0] != contents[1]:
        names = sorted(name for name in contents[0] | contents[1]
                       if contents[0].get(name) != contents[1].get(name))
        raise Unfit(f"the wheel has not the modules of the package: {', '.join(names[:5])}")


def main() -> str | None:
    """Do the step that debian/rules asks for, or return an error text."""
    try:
        {"bring": bring, "stage": stage}[sys.argv[1]]()
    except Unfit as why:
        return f"package: {why}"
    return None


if __name__ == "__main__":
    sys.exit(main())
