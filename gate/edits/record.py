"""The record of the crates all of whose must-fail edits were seen refused (gate/edits/record.txt).

A crate's line names the kit, and holds a hash of the crate's code, specs, proofs and edits, of what the crates below
say to it (their source without bodies, and their specs), and of the program logic. Comments are no part of it.
`make edits` alone writes it.
"""

import datetime
import hashlib
from collections.abc import Iterable, Mapping
from functools import cache
from pathlib import Path

from gate.edits import kit
from rattle import antt, code, tables
from rattle.crates import below, crates_of

FILE = "gate/edits/record.txt"
HEAD = ("# Crates all of whose must-fail edits were seen refused: name, number of edits, day, kit, hash. "
        "Written by `make edits`.\n")
# The outline of a text is read once for all crates above it.
outline = cache(code.outline)


def said(path: Path) -> str:
    """Return the text of a file of a crate without comments and empty lines."""
    text = path.read_text()
    text = {".rt": code.without_comments, ".antt": antt.without_comments}.get(path.suffix, str)(text)
    return "\n".join(line.rstrip() for line in text.splitlines() if line.strip())


def files(folder: str | Path, *parts: str) -> list[str]:
    """The paths of the crate's files below these folders, in a fixed order."""
    return sorted(file.relative_to(folder).as_posix() for part in parts for file in Path(folder, part).rglob("*")
                  if file.is_file())


def edits_of(root: str | Path, name: str) -> list[str]:
    """The edits of a crate."""
    return files(Path(root, "crates", name), "must-fail")


def hash_of(root: str | Path, uses: Mapping[str, list[str]], name: str, logic: str) -> str:
    """The hash that a crate's line of the record must have now."""
    total, crates = hashlib.sha256(logic.encode()), Path(root, "crates")
    texts = [(name, " ".join(uses[name]))]
    own = files(crates / name, "src", "specs", "proofs", "must-fail")
    texts += [(file, said(crates / name / file)) for file in own]
    for lower in below(uses, name):
        for file in files(crates / lower, "src", "specs"):
            path = crates / lower / file
            texts.append((f"{lower}/{file}", outline(path.read_text()) if path.suffix == ".rt" else said(path)))
    for label, text in texts:
        total.update(f"{label} {len(text)}\n{text}".encode())
    return total.hexdigest()


def lines(root: str | Path) -> dict[str, tuple[str, ...]]:
    """The record's lines by crate: number of edits, day, kit and hash."""
    text = Path(root, FILE).read_text() if Path(root, FILE).is_file() else ""
    rows = [line.split() for line in tables.lines(text)]
    return {row[0]: tuple(row[1:]) for row in rows if len(row) == 5}


def uncovered(root: str | Path) -> list[str]:
    """Return the crates with edits that the record does not cover."""
    uses, known, (_, logic) = crates_of(root), lines(root), kit.identity()
    return [name for name in uses
            if edits_of(root, name) and known.get(name, ("",))[-1] != hash_of(root, uses, name, logic)]


def outdated(root: str | Path) -> list[str]:
    """The crates that have a line, which is older than they are, or which no crate has any more."""
    crates = {name for name in crates_of(root) if edits_of(root, name)} - {*uncovered(root)}
    return [name for name in lines(root) if name not in crates]


def picked(root: str | Path, commit: str, number: int = 2) -> list[str]:
    """This many crates with edits that a commit's own hash picks."""
    with_edits = [name for name in crates_of(root) if edits_of(root, name)]
    return sorted(with_edits, key=lambda name: hashlib.sha256(f"{commit} {name}".encode()).digest())[:number]


def drawn(root: str | Path, name: str, commit: str, limit: int = 24) -> list[str]:
    """At most this many edits of a crate, which a commit's own hash draws."""
    return sorted(edits_of(root, name), key=lambda path: hashlib.sha256(f"{commit} {path}".encode()).digest())[:limit]


def write(root: str | Path, names: Iterable[str]) -> None:
    """Rewrite the lines of these crates, and drop those of crates that are gone."""
    uses, known, (kit_name, logic) = crates_of(root), lines(root), kit.identity()
    today = datetime.date.today().isoformat()
    for name in names:
        known[name] = (str(len(edits_of(root, name))), today, kit_name, hash_of(root, uses, name, logic))
    Path(root, FILE).write_text(HEAD + "".join(f"{name} {' '.join(known[name])}\n" for name in uses if name in known))
