"""Build the plain program of a workspace for a machine: with its C library, or against Debian's.

usage: python3 -m rust.targets WORKSPACE MACHINE [--static] [--to FILE]
MACHINE is amd64 or arm64, which needs packages.txt's `arm64`. FILE (MACHINE/rs_source) gets the program, stripped. No
path of the building machine is compiled in. Exit status 1 where something is missing or fails.
"""
import argparse
import os
import shutil
import subprocess
import sys
import tempfile
from dataclasses import dataclass
from pathlib import Path

from rust.build import SETTINGS, Failed
from rust.crates import ROOT, Missing
from rust.workspace import PROGRAM

# Where Debian's libraries of Rust for other machines are kept.
KEPT = ROOT / "out/rust-libraries"
# Debian's library of Rust, whose version is the compiler's, and its suites.
LIBRARY = "libstd-rust-web-dev"
SUITES = {"http://deb.debian.org/debian": "bookworm", "http://deb.debian.org/debian-security": "bookworm-security"}
KEYRING = "/usr/share/keyrings/debian-archive-keyring.gpg"
# Debian's own: their libraries for other machines are of the same version.
CARGO, RUSTC = "/usr/bin/cargo", "/usr/bin/rustc"
STATIC = ["-C", "target-feature=+crt-static"]
# No registry is waited for longer, in seconds.
SECONDS = 900


@dataclass(frozen=True)
class Machine:
    """A kind of machine by Debian's name for it: Rust's name, its linker and strip, and the package that has them."""
    name: str
    triple: str
    linker: str
    strip: str
    package: str
    is_ours: bool


MACHINES = {machine.name: machine for machine in (
    Machine("amd64", "x86_64-unknown-linux-gnu", "cc", "strip", "gcc", True),
    Machine("arm64", "aarch64-unknown-linux-gnu", "aarch64-linux-gnu-gcc", "aarch64-linux-gnu-strip",
            "gcc-aarch64-linux-gnu libc6-dev-arm64-cross", False),
)}


def output_of(*words: object, folder: Path | None = None, settings: dict[str, str] | None = None) -> str:
    """Return the output of a program that has to succeed, without settings of cargo and rustc in the environment."""
    environment = {name: value for name, value in os.environ.items() if not name.startswith(("CARGO", "RUST"))}
    done = subprocess.run([str(word) for word in words], cwd=folder, env={**environment, **(settings or {})},
                          stdin=subprocess.DEVNULL, capture_output=True, text=True, errors="replace", check=False)
    if done.returncode:
        lines = (done.stdout + done.stderr).strip().splitlines() or [f"status {done.returncode}"]
        faults = [line for line in lines if line.startswith("error")]
        raise Failed(f"{words[0]} failed: {[*faults, lines[-1]][0]}")
    return done.stdout


def fetched(machine: Machine, to: Path) -> None:
    """Unpack Debian's library of Rust for a machine into a folder. This machine's apt stays as it is."""
    with tempfile.TemporaryDirectory(prefix="library-") as name:
        room = Path(name)
        for folder in ("lists/partial", "archives/partial", "none"):
            (room / folder).mkdir(parents=True)
        lines = [f"deb [arch={machine.name} signed-by={KEYRING}] {address} {suite} main\n" for address,
                 suite in SUITES.items()]
        (room / "sources.list").write_text("".join(lines))
        settings = {"APT::Architectures::": machine.name, "Dir::State::Lists": room / "lists", "Dir::Cache": room,
                    "Dir::Etc::SourceList": room / "sources.list", "Dir::Etc::SourceParts": room / "none",
                    "APT::Sandbox::User": "root"}
        options = [word for key, value in settings.items() for word in ("-o", f"{key}={value}")]
        version = output_of("dpkg-query", "-W", "-f", "${Version}", LIBRARY)
        output_of("timeout", SECONDS, "apt-get", *options, "update", "-q")
        package = f"{LIBRARY}:{machine.name}={version}"
        output_of("timeout", SECONDS, "apt-get", *options, "download", package, folder=room)
        output_of("dpkg", "-x", next(room.glob(f"{LIBRARY}_*.deb")), to)


def library(machine: Machine, store: Path = KEPT) -> Path:
    """Return Debian's library of Rust for a machine, of the compiler's own version. It is kept for the next time."""
    compiler = output_of(RUSTC, "--version").split()[1]
    folder = store / f"{machine.name}-{compiler}"
    if not folder.is_dir():
        store.mkdir(parents=True, exist_ok=True)
        with tempfile.TemporaryDirectory(prefix=".new-", dir=store) as room:
            fetched(machine, Path(room, "library"))
            Path(room, "library").rename(folder)
    return folder / "usr"


def flags_of(workspace: Path, machine: Machine, is_static: bool) -> list[str]:
    """Return the flags of the compiler: its output has no path of this machine."""
    words = [f"--remap-path-prefix={workspace}=.", *(STATIC if is_static else [])]
    return words if machine.is_ours else [*words, f"--sysroot={library(machine)}"]


def built(workspace: Path, machine: Machine, is_static: bool, to: Path) -> Path:
    """Build the program for a machine, strip it, and move it to its place."""
    needed = {CARGO: "cargo-web", RUSTC: "rustc-web", machine.linker: machine.package, machine.strip: machine.package}
    if lacking := [name for name in needed if not shutil.which(name)]:
        raise Missing(f"there is no {lacking[0]} here: apt-get install {needed[lacking[0]]}")
    workspace = workspace.resolve()
    # (one character between words, so that a path may have a space)
    settings = {f"CARGO_TARGET_{machine.triple.upper().replace('-', '_')}_LINKER": machine.linker,
                "CARGO_ENCODED_RUSTFLAGS": "\x1f".join(flags_of(workspace, machine, is_static)),
                "RUSTC": RUSTC, "CARGO_HOME": str(workspace / "target/home"),
                "CARGO_TARGET_DIR": str(workspace / "target" / ("static" if is_static else "shared"))}
    output_of(CARGO, "build", "--release", "-p", PROGRAM, *SETTINGS, "--target", machine.triple, folder=workspace,
              settings=settings)
    made = Path(settings["CARGO_TARGET_DIR"], machine.triple, "release", PROGRAM)
    to.parent.mkdir(parents=True, exist_ok=True)
    output_of(machine.strip, "--strip-all", "--remove-section=.comment", "-o", to, made)
    to.chmod(0o755)
    return to


def main() -> int | str:
    """Build the machines of the command line."""
    words = argparse.ArgumentParser(prog="rust.targets", description=__doc__.partition("\n")[0], allow_abbrev=False)
    words.add_argument("workspace", type=Path)
    words.add_argument("machine", choices=MACHINES)
    words.add_argument("--static", action="store_true")
    words.add_argument("--to", type=Path, metavar="FILE")
    options = words.parse_args()
    if not (options.workspace / "Cargo.toml").is_file():
        return f"rust.targets: {options.workspace} is no workspace of `make rust`"
    try:
        to = options.to or Path(options.machine, PROGRAM)
        print(built(options.workspace, MACHINES[options.machine], options.static, to))
    except (Missing, Failed, OSError) as why:
        return f"rust.targets: {why}"
    return 0


if __name__ == "__main__":
    sys.exit(main())
