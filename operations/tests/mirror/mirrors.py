"""Describe folders of mirrors, and set the environment of a command for a source on loopback."""
from __future__ import annotations

import pathlib
import re
from collections.abc import Mapping

# Settings that bypass proxies for loopback.
DIRECT = {"no_proxy": "127.0.0.1"}
# Files of the mirror itself, at the top of its folder.
OWN = ("#state", "#known", "#known-later")
# The timeout of a step in seconds.
SECONDS = 60


def files_of(folder: pathlib.Path) -> dict[str, bytes | None]:
    """Return the bytes of the files of a mirror by their paths, and None for its folders."""
    found: dict[str, bytes | None] = {}
    for path in folder.rglob("*"):
        found[str(path.relative_to(folder))] = None if path.is_dir() else path.read_bytes()
    return {name: body for name, body in found.items() if name not in OWN}


def laid_out(resources: Mapping[str, bytes]) -> dict[str, bytes | None]:
    """Return the files and folders of a mirror of these resources."""
    above = {name[: slash.start()] for name in resources for slash in re.finditer("/", name)}
    folders: dict[str, bytes | None] = dict.fromkeys(above)
    return folders | {name + "#" * (name in above): body for name, body in resources.items()}
