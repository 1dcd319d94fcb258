"""Run `ropepeach mirror` on a simulated source (hostile_source.py)."""
from __future__ import annotations

import json
import pathlib
from collections.abc import Mapping
from typing import Any

from operations.tests.tools.hostile_source import MOMENT, Liar, changed, entry
from operations.tests.tools.running import ropepeach

# Moments after the publication.
AFTER = [f"2000-02-29T00:00:00.{number:03}Z" for number in range(100)]


def change(liar: Liar, name: str, number: int, word: str, body: bytes = b"") -> str:
    """Return an entry of a Change List."""
    text = str(entry(f"{liar.base}/resource/{name}", body, moment=AFTER[number]))
    if word == "deleted":
        return f'<url><loc>{liar.base}/resource/{name}</loc><rs:md change="deleted" datetime="{AFTER[number]}"/></url>'
    return text.replace("<rs:md ", f'<rs:md change="{word}" datetime="{AFTER[number]}" ')


def goes_on(liar: Liar, bodies: dict[str, bytes], *entries: str) -> None:
    """Serve a Change List of these entries, and these bodies."""
    changed(liar, list(entries))
    liar.documents({f"/resource/{name}": body for name, body in bodies.items()})


def hold_files(liar: Liar, files: Mapping[str, bytes], at: str = MOMENT) -> None:
    """Serve a Resource List of these files, and the files."""
    liar.resources([entry(f"{liar.base}/resource/{name}", body) for name, body in files.items()],
                   attributes=f' at="{at}"')
    liar.documents({f"/resource/{name}": body for name, body in files.items()})


def mirrored(what: str, liar: Liar, *words: object, status: int = 0, says: str = "",
             into: str = "m") -> tuple[str, str]:
    """Run the mirror, check its exit status and a part of its output or messages, and return both."""
    found, output, messages = ropepeach("mirror", liar.base, into, *words)
    assert "Traceback" not in messages, messages
    assert found == status, f"{what}: {messages}"
    assert says in messages + output, what
    return output, messages


def state(folder: str = "m") -> Any:
    """Return the state of a mirror."""
    return json.loads(pathlib.Path(folder, "#state").read_text())
