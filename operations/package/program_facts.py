"""The dependencies of a program on its machine, found by readelf, and whether a package may contain it."""
from __future__ import annotations

import re
import subprocess
from dataclasses import dataclass
from pathlib import Path

# The libraries of Debian's libc6 and of libgcc-s1, on which it depends; and the version of libc6 in Debian 12.
LIBRARIES = {"libc.so.6", "libm.so.6", "libpthread.so.0", "libdl.so.2", "librt.so.1", "libgcc_s.so.1"}
NEWEST = (2, 36)
# Folders in which programs are built: a path below one of them belongs to the building machine.
BUILT_BELOW = re.compile(rb"/(?:home|root|tmp|var/tmp|work|build|usr/src|srv)/[\w.+-]+[\w./+-]*")
# The folder in which Debian builds its Rust library: the same in every program of its compiler.
DEBIANS_OWN = b"/usr/src/rustc-"


class Unfit(Exception):
    """The reason why a package may not contain something."""


@dataclass(frozen=True)
class Machine:
    """A kind of machine by Debian's name: readelf's name, the program loader there, and its strip."""

    name: str
    elf: str
    loader: str
    strip: str


MACHINES = {machine.name: machine for machine in (
    Machine("amd64", "Advanced Micro Devices X86-64", "/lib64/ld-linux-x86-64.so.2", "strip"),
    Machine("arm64", "AArch64", "/lib/ld-linux-aarch64.so.1", "aarch64-linux-gnu-strip"),
)}
AMD64 = MACHINES["amd64"]


def read(*words: object) -> str:
    """Return the output of readelf."""
    process = subprocess.run(["readelf", "-W", *map(str, words)], capture_output=True, text=True, timeout=60)
    if process.returncode or "Error" in process.stderr:
        raise Unfit(f"{words[-1]} is no program: {(process.stderr or process.stdout).strip()[:200]}")
    return process.stdout


def libraries(program: Path) -> set[str]:
    """Return the libraries that a program is linked with."""
    return set(re.findall(r"\(NEEDED\).*\[(.*)\]", read("-d", program)))


def libc_version(program: Path, machine: Machine = AMD64) -> tuple[int, ...] | None:
    """Return the oldest C library that the program runs with, as in (2, 34), or None if it needs no library."""
    kind = re.search(r"Machine: +(.*)", read("-h", program))
    if not kind or kind[1].strip() != machine.elf:
        raise Unfit(f"{program} is for {kind and kind[1].strip()}, and the package for {machine.name}")
    loader = re.search(r"\[Requesting program interpreter: (.*)\]", read("-l", program))
    needed = libraries(program)
    if not loader and not needed:
        return None
    if not loader or loader[1] != machine.loader:
        raise Unfit(f"{program} is started by {loader and loader[1]}, and Debian's C library by {machine.loader}")
    if others := needed - LIBRARIES - {Path(machine.loader).name}:
        raise Unfit(f"{program} needs libraries that libc6 has not: {', '.join(sorted(others))}")
    wanted = [tuple(map(int, version.split(".")))
              for version in re.findall(r"Name: GLIBC_([\d.]+)", read("-V", program))]
    newest = max(wanted, default=(2, 2))
    if newest > NEWEST:
        raise Unfit(f"{program} wants version {'.'.join(map(str, newest))} of the C library, and Debian 12 "
                    f"has {'.'.join(map(str, NEWEST))}")
    return newest


def loaded(program: Path) -> list[tuple[int, bytes]]:
    """Return the loaded bytes of a program with their addresses, without the ELF header, which locates the sections."""
    whole, segments = Path(program).read_bytes(), []
    for at, address, size in re.findall(r"(?m)^ +LOAD +0x(\w+) 0x(\w+) 0x\w+ 0x(\w+)", read("-l", program)):
        start, length = int(at, 16), int(size, 16)
        segments.append((int(address, 16), whole[max(start, 64) : start + length]))
    return segments


def stripped(program: Path, to: Path, machine: Machine = AMD64) -> Path:
    """Write a program without the parts that are not loaded, such as names and paths of the build.

    Raise Unfit if a loaded byte changed.
    """
    subprocess.run([machine.strip, "--strip-all", "--remove-section=.comment", "-o", to, program], check=True,
                   timeout=60)
    if loaded(program) != loaded(to):
        raise Unfit(f"strip changed what is loaded of {program}")
    return to


def paths_of_the_build(content: bytes, root: Path) -> list[str]:
    """Return the paths of the building machine in some bytes."""
    found = {path for path in BUILT_BELOW.findall(content) if not path.startswith(DEBIANS_OWN)}
    return sorted(path.decode() for path in found | ({str(root).encode()}
                                                     if f"{root}/".encode() in content else set()))
