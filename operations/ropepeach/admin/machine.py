"""The sources of this machine: paths, names of units, and the current settings."""
from __future__ import annotations

import argparse
import contextlib
import os
import pwd
import re
import shutil
import socket
from dataclasses import dataclass
from pathlib import Path

from ropepeach.admin import USER
from ropepeach.admin.programs import run_to_end
from ropepeach.admin.site_text import SOURCE_NAME
from ropepeach.disk import formula
from ropepeach.faults import Fault, Misused, Unusable

SETTINGS_FOLDER = Path("/etc/ropepeach")
STATE_FOLDER = Path("/var/lib/ropepeach")
SITES_FOLDER, ENABLED_SITES = Path("/etc/nginx/sites-available"), Path("/etc/nginx/sites-enabled")
CACHES = Path("/var/cache")
# The source whose units have no instance.
PLAIN_NAME = "source"
FIRST_PORT, LAST_PORT = 8080, 65_535
# The timers that `new` enables, and all timers of a source.
TIMERS, ALL_TIMERS = ("health", "verify"), ("health", "verify", "publish", "fill")
# The folders of units: those of the administrator, and those of this package.
UNIT_FOLDERS = (Path("/etc/systemd/system"), Path(__file__).resolve().parents[3] / "systemd/system")
# The drop-in of units that closes a port to other users: the administrator's, and that of this package.
GUARDS = (SETTINGS_FOLDER / "guard.conf", Path(__file__).resolve().parents[4] / "share/ropepeach/guard.conf")


@dataclass(frozen=True)
class Settings:
    """The settings of a source, as in /etc/ropepeach/NAME.env."""

    file: Path
    port: int

    @classmethod
    def read(cls, path: Path) -> Settings:
        """Read a file of settings. The last line of a name counts, as in systemd."""
        try:
            lines = path.read_text(encoding="utf-8").splitlines()
        except (OSError, UnicodeDecodeError) as fault:
            raise Unusable(f"{path}: can't be read: {fault}") from None
        pairs = dict(line.strip().split("=", 1) for line in lines if "=" in line)
        file, port = pairs.get("FILE", ""), pairs.get("PORT", "")
        if not file.startswith("/") or not re.fullmatch(r"[0-9]{1,5}", port) or not 0 < int(port) <= LAST_PORT:
            raise Unusable(f"{path}: it has no FILE=/.. or no PORT=1 to {LAST_PORT}")
        return cls(Path(file), int(port))

    @property
    def address(self) -> str:
        """Return the address of the source on this machine."""
        return f"http://127.0.0.1:{self.port}"

    def text(self) -> str:
        """Return the text of the file."""
        return f"FILE={self.file}\nPORT={self.port}\n"


class Place:
    """The paths and units of one source of this machine, by its name."""

    def __init__(self, name: str) -> None:
        if not SOURCE_NAME.fullmatch(name):
            raise Misused(f"{name!r}: a name is 1 to 32 of a-z, 0-9 and -, and begins with a letter or digit")
        self.name, self.settings, self.cache = name, SETTINGS_FOLDER / f"{name}.env", CACHES / f"ropepeach-{name}"
        self.site, self.enabled_site = SITES_FOLDER / f"ropepeach-{name}", ENABLED_SITES / f"ropepeach-{name}"

    @property
    def guard(self) -> Path:
        """Return the path of the drop-in that closes the port to other users."""
        return UNIT_FOLDERS[0] / f"{self.unit()}.d/guard.conf"

    def unit(self, kind: str = "", ending: str = "service") -> str:
        """Return the name of a unit of this source, such as ropepeach-health@NAME.timer."""
        instance = "" if self.name == PLAIN_NAME else f"@{self.name}"
        return f"ropepeach{'-' if kind else ''}{kind}{instance}.{ending}"

    def timers(self, kinds: tuple[str, ...] = TIMERS) -> list[str]:
        """Return the names of timers of this source."""
        return [self.unit(kind, "timer") for kind in kinds]

    def installed_timers(self) -> list[str]:
        """Return the names of this source's timers that are installed here."""
        timers = self.timers(ALL_TIMERS)
        files = [timer.replace(f"@{self.name}.", "@.") for timer in timers]
        return [timer for timer, file in zip(timers, files) if any((folder / file).exists() for folder in UNIT_FOLDERS)]

    def known(self) -> Settings | None:
        """Return the settings of this source, or None."""
        return Settings.read(self.settings) if self.settings.exists() else None

    def served(self) -> Settings:
        """Return the settings of this source. Raise `Unusable` if this machine has no such source."""
        settings = self.known()
        if settings is None:
            raise Unusable(f"there is no source {self.name} here: {self.settings} is not there")
        return settings


def add_source(parser: argparse.ArgumentParser) -> None:
    """Add the argument NAME: a source of this machine."""
    parser.add_argument("name", metavar="NAME", help="the name of the source")


def check_room(folder: Path, size: int, remedy: str) -> None:
    """Raise `Unusable` if the file system of a folder has less than this many bytes free."""
    free = formula.free_bytes(folder)
    if free < size:
        raise Unusable(f"{folder}: there are {free:,} bytes free, and {size:,} are needed: {remedy}")


def other_settings(name: str) -> dict[str, Settings]:
    """Return the settings of the other sources of this machine."""
    others = {}
    for path in sorted(SETTINGS_FOLDER.glob("*.env")):
        if path.stem != name and SOURCE_NAME.fullmatch(path.stem):
            # (the others are settings of a mirror, or invalid)
            with contextlib.suppress(Unusable):
                others[path.stem] = Settings.read(path)
    return others


def guard_text() -> str | None:
    """Return the drop-in that closes a port to other users, or None without nftables or the drop-in."""
    nft = shutil.which("nft", path=f"{os.environ.get('PATH', os.defpath)}:/usr/sbin")
    # (only root may ask the kernel, which may lack nftables)
    if nft is None or not os.geteuid() and run_to_end(nft, "list", "tables").returncode:
        return None
    return next((path.read_text() for path in GUARDS if path.is_file()), None)


def is_free(port: int) -> bool:
    """Return whether a port of this machine is free."""
    try:
        socket.create_server(("127.0.0.1", port)).close()
    except OSError:
        return False
    return True


def free_port(taken: set[int]) -> int:
    """Return the first port from 8080 on that is free, and that no source of this machine has in its settings."""
    free = (port for port in range(FIRST_PORT, LAST_PORT + 1) if port not in taken and is_free(port))
    port = next(free, None)
    if port is None:
        raise Fault(f"there is no free port from {FIRST_PORT} on")
    return port


def base_of(file: Path) -> str | None:
    """Return the base of the source in a file, or None if there is no file."""
    from ropepeach.disk import file as disk_file
    from ropepeach.disk.formats import NotRead

    if not os.path.lexists(file):
        return None
    try:
        with disk_file.File(file) as opened:
            return str(opened.read().header.base)
    except NotRead as why:
        raise Unusable(f"{file}: no source that can be read is there: {why}") from None
    except OSError as fault:
        raise Unusable(f"{file}: can't be read: {fault.strerror}") from None


def wants(*programs: str) -> None:
    """Raise a fault unless root asks, these programs are installed, and the user of the units exists."""
    if os.geteuid():
        raise Misused("only root can change units and sites: run it by sudo, or look with --dry-run")
    for program in programs:
        if not shutil.which(program):
            raise Unusable(f"{program} is not installed here")
    try:
        pwd.getpwnam(USER)
    except KeyError:
        raise Unusable(f"there is no user {USER}: install the package, or run systemd-sysusers") from None
