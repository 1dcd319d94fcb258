"""Write the sources as plain Rust, build them, and run their tests: `make rust` only writes.

usage: python3 -m rust.build [--to FOLDER] [--no-tests] [--upstream-digests]
The last line is 'plain: N tests passed; PROGRAM'. Exit status 1 where something is refused, does not build or fails,
and 77 where there is no cargo that is new enough, or a crate of others is missing.
"""
import argparse
import os
import re
import shutil
import subprocess
import sys
from pathlib import Path

from rust import __main__ as writing
from rust.crates import ROOT, Missing, vendored
from rust.workspace import FEATURE, PROGRAM, RUST_VERSION

# Debian's cargo, which is tried if PATH has none.
PLACES = ["/usr/bin/cargo"]
SETTINGS = ["--locked", "--offline"]
# The exit status where something is missing here.
SKIPPED = 77


class Failed(Exception):
    """A step of the build failed."""


def cargo() -> str:
    """Return a cargo that is new enough."""
    wanted = tuple(int(number) for number in RUST_VERSION.split("."))
    for found in [shutil.which("cargo"), *PLACES]:
        if found and os.access(found, os.X_OK):
            output = subprocess.run([found, "--version"], capture_output=True, text=True, check=False).stdout
            version = re.match(r"cargo (\d+)\.(\d+)", output)
            if version and tuple(int(number) for number in version.groups()) >= wanted:
                return found
    raise Missing(f"there is no cargo of version {RUST_VERSION} or later here: apt-get install cargo-web rustc-web")


def step(folder: Path, *words: str) -> str:
    """Run cargo in the workspace; return its output."""
    # (the compiler of the same folder, not the first one of PATH)
    path = f"{Path(words[0]).parent}{os.pathsep}{os.environ.get('PATH', '')}"
    settings = {**os.environ, "PATH": path}
    finished = subprocess.run(words, cwd=folder, capture_output=True, text=True, check=False, env=settings)
    if finished.returncode:
        raise Failed(f"{' '.join(words[1:3])} failed:\n{finished.stdout[-3000:]}\n{finished.stderr[-3000:]}")
    return finished.stdout


def passed(output: str) -> int:
    """Return the number of passed tests in the output of cargo. None may be left out."""
    results = re.findall(r"^test result: ok\. (\d+) passed; 0 failed; (\d+) ignored", output, re.MULTILINE)
    if not results or any(ignored != "0" for _, ignored in results):
        raise Failed("cargo reported no tests, or ignored some")
    return sum(int(count) for count, _ in results)


def main() -> int | str:
    """Write, build and test; return the exit status or a fault."""
    words = argparse.ArgumentParser(prog="rust.build", description=__doc__.partition("\n")[0])
    words.add_argument("--to", type=Path, default=ROOT / "out/rust", metavar="FOLDER")
    words.add_argument("--no-tests", action="store_true")
    words.add_argument("--upstream-digests", action="store_true")
    options = words.parse_args()
    try:
        tool, _ = cargo(), list(vendored())
    except Missing as why:
        print(f"plain: NOT TRIED: {why}")
        return SKIPPED
    status = writing.run(options.to)
    if status:
        return status
    folder = options.to / writing.NAME
    features = ["--features", FEATURE] if options.upstream_digests else []
    try:
        step(folder, tool, "build", "--release", "-p", PROGRAM, *features, *SETTINGS)
        tests = 0 if options.no_tests else passed(step(folder, tool, "test", "--workspace", *SETTINGS))
    except Failed as why:
        return f"plain: {why}"
    print(f"plain: {tests} tests passed; {folder}/target/release/{PROGRAM}")
    return 0


if __name__ == "__main__":
    sys.exit(main())
