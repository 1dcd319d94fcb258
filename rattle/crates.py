"""Read crates.txt: the crates, the lowest first, and the crates below them."""

import re
from collections.abc import Iterable, Mapping
from pathlib import Path


def crates_of(root: str | Path) -> dict[str, list[str]]:
    """Return the crates of crates.txt with the libraries that they use, the lowest first."""
    rows = re.findall(r"(?m)^(\w+)[^\n#:]*:([^\n#]*)", Path(root, "crates.txt").read_text())
    return {name: uses.split() for name, uses in rows}


def below(uses: Mapping[str, Iterable[str]], name: str) -> list[str]:
    """Return the repository's crates below this one, direct or not, the lowest first."""
    lower = {*uses[name]}
    for crate in reversed([*uses]):
        lower |= {*uses[crate]} if crate in lower else set()
    return [crate for crate in uses if crate in lower]
