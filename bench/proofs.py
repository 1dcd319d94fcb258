"""Measure the seconds of each part of a function's proof, by the moments when the prover kept its modules.

usage: python3 -m bench.proofs CRATE..     at the top, once a crate's library was built from nothing (make edits)

The prover keeps every module of a proof in a file of its own, one after the other. The borrow checker's part is also
the cost of an edit of the function, whichever goals its trial leaves out; the goals are the time of the search and of
the answers by hand. The first lines of a function also include everything that was read before it for the first time.
"""

import re
import sys
from pathlib import Path

# The modules with goals in a function's proof; the other modules are the borrow checker's part.
GOALS = {"Proof": "search", "Answers": "by hand"}
PART = re.compile(r"(.+?)\.(Code|Given|Goals|Kinds|Layout|Lts|Named|Reads|Statement|Symbol|TheLink|Tie|Carried|Met"
                  r"|Proof|Answers|Invariants)\b.*")
# A pause longer than this, in seconds, lies between two builds.
PAUSE = 60


def parts(crate: str) -> dict[str, dict[str, float]]:
    """Return the seconds of each part by the functions of a crate."""
    files = Path("crates", crate, "out", "incremental").glob("*/*.oantt")
    modules = sorted((file.stat().st_mtime, file.name) for file in files)
    seconds: dict[str, dict[str, float]] = {}
    for (before, _), (at, name) in zip(modules, modules[1:]):
        found = PART.fullmatch(name.removesuffix(".oantt").removeprefix(f"Rattle-{crate}-proofs."))
        if found and at - before < PAUSE:
            function = seconds.setdefault(found[1].replace(".", "::"), {})
            part = GOALS.get(found[2], "borrow checker")
            function[part] = function.get(part, 0.0) + at - before
    return seconds


def main() -> None:
    """Print the parts of each crate, and of its 20 longest functions."""
    for crate in sys.argv[1:]:
        functions = parts(crate)
        columns = ["borrow checker", *GOALS.values()]
        sums = {column: sum(seconds.get(column, 0) for seconds in functions.values()) for column in columns}
        print(f"{crate}: {', '.join(f'{total:.0f} s {column}' for column, total in sums.items())}")
        for name, seconds in sorted(functions.items(), key=lambda item: -sum(item[1].values()))[:20]:
            figures = "  ".join(f"{seconds.get(column, 0):5.1f} {column}" for column in columns)
            print(f"{sum(seconds.values()):7.1f}  {figures}  {name}")


if __name__ == "__main__":
    main()
