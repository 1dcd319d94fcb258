"""`make quick`: check a change since the last commit within minutes. The gate is `make test`.

It checks the layout of changed files, the types and the texts of edits, proves the changed crates (`rt check` of each
alone), and runs the tests that the change touches, the nearest first, on the program of the last `make build`. It runs
the tests that take about a minute in all (LIMIT=SECONDS in the environment is another limit), and names the others:
then its last line is 'N files of tests not run: no verdict', and else that of `make test`. Crates whose must-fail edits
are due are named, and fail nothing before `make test`.
"""

import functools
import os
import re
import shutil
import subprocess
import sys
import time
from pathlib import Path

from gate import chosen, gate, tested
from gate.edits import kit, record
from gate.tested import Result, line_of
from rattle.crates import crates_of

ROOT = Path(__file__).resolve().parent.parent
LIMIT = 60.0
# The files of which the record of must-fail edits speaks.
OF_EDITS = re.compile(r"crates/\w+/(src|specs|proofs|must-fail)/|gate/edits/record\.txt$")


def proof(crate: str) -> Result:
    """Prove a crate alone; run the tests of a crate of tests."""
    word = "test" if crate.endswith("_tests") else "check"
    status = subprocess.run([kit.RT, word], cwd=ROOT / "crates" / crate).returncode
    return int(not status), [f"rt {word} of {crate} ended with status {status}"] if status else [], []


def within(tests: list[str], table: dict[str, chosen.Executed], limit: float) -> tuple[list[str], list[str]]:
    """Return the first files of tests that take a limit of seconds together, and the others; the first always runs."""
    total = 0.0
    for number, test in enumerate(tests):
        total += table[test].seconds if test in table else 0
        if number and total > limit:
            return tests[:number], tests[number:]
    return tests, []


def due(parts: gate.Parts, names: list[str]) -> list[str]:
    """Return the crates with older edits, if one of these files may make edits due.

    A changed crate is always among them, until `make edits` tries its edits.
    """
    if not any(map(OF_EDITS.match, names)):
        return []
    if not shutil.which(kit.RT):
        parts.skipped.append(line_of("the record of edits", "there is no Rattle kit here"))
        return []
    return record.outdated(ROOT)


def check_texts(parts: gate.Parts, names: list[str]) -> None:
    """Check the layout of changed files, the types, and the texts of edits."""
    parts.run("the layout", lambda: gate.layout([ROOT / name for name in names if (ROOT / name).is_file()]))
    parts.run("types", gate.types)
    parts.run("the texts of edits", gate.fitting)


def main() -> int:
    """Check the change; return the exit status."""
    started, names, parts, lanes = time.monotonic(), chosen.changed(ROOT), gate.Parts(), kit.lanes()
    changed = chosen.crates(crates_of(ROOT), names)
    if changed:
        kit.require()
    table = chosen.recorded(tested.TABLE.read_text())
    touched = chosen.touched(ROOT, tested.files(ROOT), names, table)
    print(f"make quick: {len(names)} changed files touch {len(changed)} crates and {len(touched)} files of tests",
          flush=True)
    check_texts(parts, names)
    for crate in changed:
        parts.run(crate, functools.partial(proof, crate))
    if changed and touched:
        print("the tests run on the program of the last `make build`, without this change of its crates")
    now, later = within(touched, table, lanes * float(os.environ.get("LIMIT") or LIMIT))
    parts.run("tests", lambda: tested.run([*now, "-m", "not alone"], ROOT, lanes))
    if old := due(parts, names):
        print(f'due: make edits CRATES="{" ".join(old)}"')
    print("".join(f"not run: {test}\n" for test in later) + f"{time.monotonic() - started:.0f} seconds")
    status = parts.conclude(gate.is_strict())
    if later:
        print(f"{len(later)} files of tests not run: no verdict")
    return status


if __name__ == "__main__":
    sys.exit(main())
