"""The installed files and their places: `make install`, `make uninstall` and the packages use this table.

usage: python3 -m operations.package.places install|uninstall PROGRAM PREFIX [DESTDIR]
(operations/docs/OPERATING.md)
"""
from __future__ import annotations

import os
import shutil
import sys
from collections.abc import Iterator
from dataclasses import dataclass
from pathlib import Path

ROOT = Path(__file__).resolve().parents[2]
# The two packages; only `make install` installs a file of neither. On other machines PLAIN_SOURCE, whose program is the
# plain, unproved one, replaces SOURCE.
SOURCE, TOOLS, PLAIN_SOURCE = "ropepeach", "ropepeach-tools", "ropepeach-plain"
# Units that need the tools, by the word after the dash; a mirror's unit belongs to no source.
WITH_TOOLS = ("health", "heal", "publish", "mirror", "fill", "collection")
# The prefix and the instance name in the files of operations/install/, and the replacement for the instance name.
WRITTEN_PREFIX, INSTANCE, PLAIN = "/usr/local/", "%i", "source"
# Folders that `make uninstall` removes with everything in them.
FOLDERS = ("lib/ropepeach", "share/ropepeach", "share/doc/ropepeach")


@dataclass(frozen=True)
class Place:
    """A file or link: its path, below the prefix or absolute; its bytes or its target; its mode; and its package."""

    path: str
    content: bytes
    mode: int = 0o644
    package: str | None = SOURCE
    leads_to: str = ""
    # The administrator edits the file; a changed one is neither overwritten nor removed.
    is_settings: bool = False


def plain(text: str) -> str:
    """Return the text of a unit without an instance: `ropepeach.service` serves the source of source.env."""
    return text.replace(f"@{INSTANCE}", "").replace(INSTANCE, PLAIN)


def units(folder: Path) -> Iterator[tuple[str, str]]:
    """Yield the units of a folder with their names, including those without an instance."""
    for file in sorted(folder.glob("ropepeach*@.*")):
        text = file.read_text()
        yield file.name, text
        if not file.name.startswith(("ropepeach-mirror", "ropepeach-collection")):
            yield file.name.replace("@", ""), plain(text)


def package_of(unit: str) -> str:
    """Return the package of a unit."""
    word = unit.partition(".")[0].partition("@")[0].partition("-")[2]
    return TOOLS if word in WITH_TOOLS else SOURCE


def places(program: Path, prefix: str, install: Path = ROOT / "operations/install") -> Iterator[Place]:
    """Yield all places, sorted by path within a kind."""

    def of(file: Path, path: str, mode: int = 0o644, package: str = SOURCE,
           is_settings: bool = False) -> Place:
        """Return the place of a file of the repository, with the prefix in its text."""
        content = file.read_bytes().replace(WRITTEN_PREFIX.encode(), f"{prefix}/".encode())
        return Place(path, content, mode, package, is_settings=is_settings)

    yield Place("bin/rs_source", program.read_bytes(), 0o755)
    for name, text in units(install):
        yield Place(f"lib/systemd/system/{name}", text.replace(WRITTEN_PREFIX, f"{prefix}/").encode(),
                    package=package_of(name))
    yield of(install / "source.env", "/etc/ropepeach/source.env", is_settings=True)
    yield of(install / "ropepeach.sysusers", "lib/sysusers.d/ropepeach.conf")
    yield of(install / "ropepeach-mirror.sysusers", "lib/sysusers.d/ropepeach-mirror.conf", package=TOOLS)
    yield of(install / "until-it-listens", "lib/ropepeach/until-it-listens", 0o755)
    yield of(install / "verify", "lib/ropepeach/verify", 0o755)
    yield of(install / "guard", "lib/ropepeach/guard", 0o755)
    yield of(install / "guard.conf", "share/ropepeach/guard.conf")
    yield of(install / "closed", "lib/ropepeach/closed", 0o755, TOOLS)
    yield of(install / "publish", "lib/ropepeach/publish", 0o755, TOOLS)
    yield of(install / "ropepeach.nginx", "share/ropepeach/ropepeach.nginx")
    for file in sorted(path for path in (install / "site").rglob("*") if path.is_file()):
        yield of(file, f"share/ropepeach/{file.relative_to(install)}")
    yield of(install / "rs_source.8", "share/man/man8/rs_source.8")
    for file in sorted(install.glob("*.1")):
        yield of(file, f"share/man/man1/{file.name}", package=TOOLS)
    for pages in (ROOT / "docs", ROOT / "operations/docs"):
        for file in [*sorted(pages.glob("*.md")), *sorted(pages.glob("pictures/*.*g"))]:
            yield Place(f"share/doc/ropepeach/{file.relative_to(pages)}", file.read_bytes())
    # Packages have the licence in their file `copyright`.
    for name in ("LICENSE-MIT", "LICENSE-APACHE"):
        yield Place(f"share/doc/ropepeach/{name}", (ROOT / name).read_bytes(), package=None)
    yield of(install / "ropepeach.bash", "share/bash-completion/completions/ropepeach", package=TOOLS)
    yield of(install / "_ropepeach", "share/zsh/vendor-completions/_ropepeach", package=TOOLS)
    yield of(ROOT / "operations/ropepeach/admin/site.nginx", "lib/ropepeach/ropepeach/admin/site.nginx", package=TOOLS)
    yield from command()


def command() -> Iterator[Place]:
    """Yield the files of the command `ropepeach`."""
    for file in sorted(ROOT.glob("operations/ropepeach/**/*.py")):
        path = file.relative_to(ROOT / "operations")
        yield Place(f"lib/ropepeach/{path}", file.read_bytes(), package=TOOLS)
    yield Place("lib/ropepeach/ropepeach-command", (ROOT / "operations/ropepeach-command").read_bytes(), 0o755,
                TOOLS)
    yield Place("bin/ropepeach", b"", package=TOOLS, leads_to="../lib/ropepeach/ropepeach-command")


def at(place: Place, prefix: str, root: str) -> Path:
    """Return the path of a file."""
    path = place.path if place.path.startswith("/") else f"{prefix}/{place.path}"
    return Path(f"{root}{path}")


def put(place: Place, path: Path) -> None:
    """Write a file or a link, replacing the old one."""
    path.parent.mkdir(parents=True, exist_ok=True)
    if place.is_settings and path.exists():
        return
    path.unlink(missing_ok=True)
    if place.leads_to:
        path.symlink_to(place.leads_to)
        return
    path.write_bytes(place.content)
    path.chmod(place.mode)


def take_away(place: Place, path: Path) -> None:
    """Remove a file unless it was changed."""
    if not place.is_settings or path.is_file() and path.read_bytes() == place.content:
        path.unlink(missing_ok=True)


def main(what: str, program: str, prefix: str, root: str = "") -> None:
    """Install or remove all files below a root."""
    prefix = prefix.rstrip("/")
    if what == "install":
        os.umask(0o022)
        for place in places(Path(program), prefix):
            put(place, at(place, prefix, root))
        return
    # The program may no longer exist.
    for place in places(Path(program) if os.path.exists(program) else Path(os.devnull), prefix):
        take_away(place, at(place, prefix, root))
    for folder in FOLDERS:
        shutil.rmtree(f"{root}{prefix}/{folder}", ignore_errors=True)


if __name__ == "__main__":
    main(*sys.argv[1:])
