"""Draw the picture of the crates in docs/ARCHITECTURE.md: each crate's layer, description and dependencies.

The layers and the dependencies are computed from crates.txt. The descriptions are kept from the page.

usage: python3 -m tests.house.layers --write     rewrites the picture in the page
"""

import re
import sys

from rattle.crates import below, crates_of
from tests.made import Made
from tests.program import ROOT

PAGE = ROOT / "docs" / "ARCHITECTURE.md"
MADE = Made("crates.txt", "tests.house.layers")
# A line of the picture: the layer, the crate, and its description.
LINE = re.compile(r"(?m)^ *\d+  (rs_\w+) +(\S.*?)(?:  +rs_\w+(?: rs_\w+)*)?$")
# The layer of a crate, and the crates that it uses.
Layer = tuple[int, list[str]]


def layers(uses: dict[str, list[str]]) -> dict[str, Layer]:
    """Return the layer of every crate and the crates that it uses, without those below another used crate."""
    found: dict[str, Layer] = {}
    for name, needs in uses.items():
        own = [other for other in uses if other in needs]
        lower = {deeper for other in own for deeper in below(uses, other)}
        found[name] = 1 + max((found[other][0] for other in own), default=0), [it for it in own if it not in lower]
    return found


def drawn(uses: dict[str, list[str]], meanings: dict[str, str]) -> str:
    """Return the lines of the picture, the highest layer first, and the crates of tests last."""
    parts: tuple[list[str], list[str]] = [], []
    for name, (layer, own) in sorted(layers(uses).items(), key=lambda each: -each[1][0]):
        line = f"{layer:3}  {name:<19}{meanings.get(name, 'NO DESCRIPTION'):<45}{' '.join(own)}"
        parts[name.endswith("_tests")].append(line.rstrip())
    return "\n".join(["```", "\n\n".join("\n".join(part) for part in parts if part), "```"])


def with_picture(page: str, uses: dict[str, list[str]]) -> str:
    """Return the page with the correct picture."""
    return MADE.with_part(page, drawn(uses, dict(LINE.findall(MADE.part_of(page)))))


if __name__ == "__main__":
    if sys.argv[1:] != ["--write"]:
        sys.exit(__doc__)
    PAGE.write_text(with_picture(PAGE.read_text(), crates_of(ROOT)))
