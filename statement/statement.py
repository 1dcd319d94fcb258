"""Print the statement of every promise: its sentence, the clauses that carry it, and their full meaning.

    python3 -m statement.statement     prints the statements of all promises (promises.txt)
      --promise headline               that of the promises whose title has this word
      --html FILE                      writes all as one page, in which each word leads to its definition
      --check                          prints no statement, and one line where nothing is wrong

Whoever wants to believe a promise has to read its statement, and no more: the proofs are checked by the prover, and the
code against the clauses. The order is that of reach.py. Before all else it looks at the tables beside it. A word of the
kit without a line in kit_words.txt is an error; so is a pointer of evidence.txt whose file or function is missing; so
is a premise of a promise that neither a clause concludes nor promises.txt trusts, a relation that occurs only left of
an arrow and has no example, and a variable of a conclusion that nothing ties to the call. The status is then 1.
"""

import argparse
import signal
import sys
from collections.abc import Mapping
from pathlib import Path

from statement import evidence, givens, page, premises, shown, tables, witnesses
from statement.promises import Promise, promises
from statement.world import Unknown, World

ROOT = Path(__file__).resolve().parent.parent
Pieces = dict[str, list[evidence.Evidence]]


def arguments() -> argparse.Namespace:
    """Return the words of the command line."""
    parser = argparse.ArgumentParser(description="Prints the statement of each promise.")
    parser.add_argument("--promise", default="", help="print those alone whose title has this word")
    parser.add_argument("--html", type=Path, help="write one page to this file")
    parser.add_argument("--check", action="store_true", help="look at the tables, and print no statement")
    return parser.parse_args()


def refused(found: list[str]) -> int:
    """Print the faults; return the exit status."""
    for fault in found:
        print(f"statement: {fault}", file=sys.stderr)
    return 1 if found else 0


def check(every: list[Promise], pieces: Pieces) -> int:
    """Print the counts of the check; return the exit status."""
    reached = dict.fromkeys(definition for promise in every for definition in promise.reach.definitions)
    bare = evidence.bare(reached, pieces)
    lines = dict.fromkeys(line for promise in every for line in promise.spoken)
    kinds = {kind: sum(line.kind == kind for line in lines) for kind in givens.WORDS}
    print(f"{len(every)} promises: {kinds['from'] + kinds['law']} lines say which clause concludes a premise, "
          f"{kinds['trust']} which is trusted, {kinds['case']} which case is spoken of; "
          f"of {len(reached)} definitions {len(bare)} have no evidence of their own")
    return 0


def run(words: argparse.Namespace, world: World, every: list[Promise], pieces: Pieces,
        meanings: Mapping[str, str]) -> int:
    """Print or write the statement that the words choose; return the exit status."""
    if words.check:
        return check(every, pieces)
    if words.html:
        words.html.parent.mkdir(parents=True, exist_ok=True)
        words.html.write_text(page.page(world, every, pieces, meanings))
    else:
        chosen = [promise for promise in every if words.promise.lower() in promise.title.lower()]
        if not chosen:
            titles = ", ".join(promise.title for promise in every)
            return refused([f"no promise has '{words.promise}' in its title: {titles}"])
        print(shown.text(every, chosen, pieces, meanings))
    return 0


def main() -> int:
    """Read everything, check the tables, and print the chosen statement; return the exit status."""
    words = arguments()
    # A reader that stops early, as `head` does, ends the program.
    signal.signal(signal.SIGPIPE, signal.SIG_DFL)
    try:
        world = World(ROOT)
        every, pieces, meanings = promises(world), evidence.evidence(world), tables.kit_words()
        chains, free = premises.follow(world, every), witnesses.follow(world, every)
    except (Unknown, tables.Wrong) as fault:
        return refused([str(fault)])
    found = tables.faults_of_kit(every, meanings) + evidence.faults(world, every, pieces)
    found += premises.faults(world, chains, pieces) + free
    return refused(found) or run(words, world, every, pieces, meanings)


if __name__ == "__main__":
    sys.exit(main())
