"""Copies of a function under names of their own, so that one check tries many edits of the function.

A copy has the function's contract and proof files, and an edit's body. The prover refuses a copy if it would refuse the
edited function, since only names differ: a function that another text of the crate's contracts, specs or proofs names
is not copied.
"""

import re
from functools import cache
from pathlib import Path

from gate.edits.edit import Edit, Texts
from rattle.code import functions_of, item_of


def proof_folder(symbol: str) -> Path:
    """Return the folder of a function's proof files in its crate."""
    return Path("proofs", *symbol.split("::")[1:])


def has_proof_of_its_own(folder: str | Path, symbol: str) -> bool:
    """Return whether a function is proved by hand, or calls itself, which gives its proof's folder a +."""
    place = Path(folder, proof_folder(symbol))
    return (place / "Proof.antt").is_file() or (place.parent / f"+{place.name}").is_dir()


def proof_module(symbol: str) -> str:
    """Return the name of a function's proof in proof files."""
    crate, *names = symbol.split("::")
    return ".".join(["Rattle", crate, "proofs", *names])


@cache
def texts_of(folder: str | Path) -> list[tuple[Path, str]]:
    """Return the texts of a crate's code, specs and proofs, by their files."""
    return [(file, file.read_text()) for part in ("src", "specs", "proofs") for file in Path(folder, part).rglob("*")
            if file.is_file()]


def can_be_copied(edit: Edit, folder: str | Path) -> bool:
    """Return whether an edit changes only one function, and that can be copied.

    It is no method of a trait, does not call itself, has no proof by hand, and only its own proof files name it.
    """
    if edit.function is None or len(edit.symbols) != 1 or len({path for path, _, _ in edit.pairs}) != 1:
        return False
    symbol = next(iter(edit.symbols))
    place, name = Path(folder, proof_folder(symbol)), re.escape(".".join(symbol.split("::")[1:]))
    has_proof = has_proof_of_its_own(folder, symbol) or (place.parent / "fn" / place.name).exists()
    if edit.function.name == "main" or has_proof or re.search(r"\bfor\b|\Atrait\b", edit.function.block):
        return False
    others = [text for file, text in texts_of(folder) if file.parent != place]
    return not any(re.search(rf"\b(?:proofs|contracts)\.{name}\b", text) for text in others)


def with_copy(texts: Texts, folder: str | Path, edit: Edit, edited: Texts, number: int) -> tuple[Texts, set[str]]:
    """Return these texts with a copy of the function that the edit changes, as in `edited`, and the copy's proof files;
    and the copy's symbol, in a set."""
    symbol, path = next(iter(edit.symbols)), edit.pairs[0][0]
    text, new_text = texts.get(path) or Path(folder, path).read_text(), edited[path]
    wanted = edit.function
    assert wanted is not None, f"{edit.label} changes no function"
    function, changed = (
        next(one for one in functions_of(each) if (one.name, one.block) == (wanted.name, wanted.block))
        for each in (text, new_text)
    )
    name = f"{changed.name}_tried_{number}"
    head = new_text[item_of(new_text, changed) : changed.at]
    copy = f"{head}{name}{new_text[changed.at + len(changed.name) : changed.end]}"
    texts = {**texts, path: f"{text[:function.end]}\n\n{copy}{text[function.end:]}"}
    copied = f"{symbol.rpartition('::')[0]}::{name}"
    for file in sorted(Path(folder, proof_folder(symbol)).glob("*.antt")):
        proof = file.read_text().replace(f"{proof_module(symbol)}.", f"{proof_module(copied)}.")
        texts[str(proof_folder(copied) / file.name)] = proof
    return texts, {copied}
