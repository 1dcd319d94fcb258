"""Install the Debian packages that the tests need (packages.txt), or name the parts of the tests that are left out.

As root, the module installs missing packages by apt-get and announces it first; SETUP=no in the environment prevents
this. The installed packages start no service, now or later.
"""

import contextlib
import os
import shutil
import subprocess
import sys
from collections.abc import Iterator
from dataclasses import dataclass
from pathlib import Path

from gate.tested import line_of
from rattle.tables import lines

ROOT = Path(__file__).resolve().parents[2]
# The folders of Debian's commands that are missing from the path of some users.
PATH = "/usr/local/sbin:/usr/sbin:/sbin"
# Debian's packages ask this file, if it exists, whether to start a service; 101 forbids it.
POLICY = Path("/usr/sbin/policy-rc.d")
# Services that packages would start at boot; only the commands of these packages are needed.
SERVICES = {"nginx": "nginx.service"}


@dataclass(frozen=True)
class Package:
    """A package, the command or file that shows it is installed, its user, and its use."""

    name: str
    mark: str
    user: str
    use: str

    @property
    def is_there(self) -> bool:
        """Return whether this machine has it."""
        if self.mark.startswith("/"):
            return Path(self.mark).exists()
        return bool(shutil.which(self.mark, path=f"{os.environ.get('PATH', os.defpath)}:{PATH}"))


def packages(text: str) -> list[Package]:
    """Return the packages of a table, in order."""
    return [Package(*(field.strip() for field in line.split(" | "))) for line in lines(text)]


def missing(text: str) -> list[Package]:
    """Return the packages that the tests use and this machine lacks."""
    return [package for package in packages(text) if package.user in ("gate", "test") and not package.is_there]


@contextlib.contextmanager
def nothing_is_started() -> Iterator[None]:
    """Prevent packages from starting services within the context. An existing policy stays unchanged."""
    if POLICY.exists():
        yield
        return
    POLICY.write_text("#!/bin/sh\nexit 101\n")
    try:
        POLICY.chmod(0o755)
        yield
    finally:
        POLICY.unlink()


def run(*words: str) -> bool:
    """Run a command and return whether it succeeds; print its last lines if it fails."""
    try:
        quiet = {**os.environ, "DEBIAN_FRONTEND": "noninteractive"}
        done = subprocess.run(words, env=quiet, stdin=subprocess.DEVNULL, capture_output=True, text=True)
    except OSError as fault:
        print(fault)
        return False
    if done.returncode:
        print("\n".join(done.stderr.splitlines()[-5:]))
    return not done.returncode


def install(names: list[str]) -> bool:
    """Install packages from Debian's registry and return whether this succeeded."""
    with nothing_is_started():
        if not run("apt-get", "update", "-q") or not run("apt-get", "install", "-q", "-y", "--no-install-recommends",
                                                         *names):
            return False
    services = [SERVICES[name] for name in names if name in SERVICES]
    return not services or not shutil.which("systemctl") or run("systemctl", "disable", "--quiet", *services)


def setup(text: str) -> bool:
    """Install missing packages if allowed, name the parts left out, and return whether the gate can begin."""
    lacking = missing(text)
    if not lacking:
        return True
    print(f"== this machine lacks of Debian: {', '.join(package.name for package in lacking)} (packages.txt)",
          flush=True)
    if os.environ.get("SETUP") == "no":
        print("SETUP=no: nothing is installed")
    elif os.getuid():
        print("nothing is installed, as this does not run as root")
    else:
        print("installing them by apt-get; SETUP=no leaves the machine alone", flush=True)
        print("they are installed"
              if install([package.name for package in lacking]) else "not all could be installed", flush=True)
    still_missing = missing(text)
    for package in still_missing:
        print(line_of(package.name, f"there is no {package.mark} here: {package.use}"), flush=True)
    return all(package.user == "test" for package in still_missing)


def main() -> None:
    """Set the machine up by packages.txt."""
    if not setup(Path(ROOT, "packages.txt").read_text()):
        sys.exit("the gate cannot begin without what packages.txt has for it")


if __name__ == "__main__":
    main()
