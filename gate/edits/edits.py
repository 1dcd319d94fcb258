"""Try must-fail edits: wrong bodies that the prover has to refuse by a goal of the changed function.

One check tries many edits of bodies, on copies of their functions where these can be copied, and an edit is refused by
an error or an open goal of its own copy. An edit without one there is tried again alone, and so is one that changes
more.

It prints a line for every edit, and names those that may be refused only for their form (forms.py). The last line is
'N refused, M not refused', and the status is 1 where M is not 0. With --record the file goals.txt is written, and
record.txt for the crates of which every edit was refused.
"""

import argparse
import os
import shutil
import sys
import tempfile
from collections.abc import Callable, Iterable, Mapping, Sequence
from concurrent.futures import ThreadPoolExecutor, as_completed
from pathlib import Path

from gate.edits import edit, forms, goals, kit, record, verdict
from gate.edits.edit import Edit, Texts
from gate.edits.groups import Group, grouped
from gate.edits.libraries import Libraries
from rattle.crates import crates_of


class Trial:
    """The edits of one crate, tried in copies of it over the work that its last check kept."""

    def __init__(self, name: str, edits: list[Edit], built: Libraries) -> None:
        self.name, self.edits, self.built, self.folder = name, edits, built, f"{built.root}/crates/{name}"
        self.checks, self.seconds = 0, 0.0

    def check(self, room: str, texts: Mapping[str, str], only: Iterable[str] = (),
              work: str | None = None) -> kit.Report:
        """Checks a copy of the crate with these texts in place of its own, or only these functions of it.
        It goes over a copy of the work in the folder `room`, or over this `work` itself."""
        with self.built.turns, tempfile.TemporaryDirectory(prefix="copy-", dir=room) as crate:
            for part in ("src", "specs", "proofs"):
                if os.path.isdir(f"{self.folder}/{part}"):
                    shutil.copytree(f"{self.folder}/{part}", f"{crate}/{part}")
            for path, text in texts.items():
                Path(crate, path).parent.mkdir(parents=True, exist_ok=True)
                Path(crate, path).write_text(text)
            if work is None:
                work = f"{crate}/work"
                kit.linked_copy(f"{room}/kept", work)
            symbols = [word for symbol in only for word in ("--only", symbol)]
            report = kit.check([*self.built.command(self.name, work), *symbols], crate)
        self.checks, self.seconds = self.checks + 1, self.seconds + report.seconds
        return report

    def check_each(self, room: str, every: Sequence[tuple[Texts, list[str]]]) -> list[kit.Report]:
        """Check these texts with the functions to look at, in parallel as turns come free."""
        with ThreadPoolExecutor(max(1, len(every))) as pool:
            return list(pool.map(lambda one: self.check(room, *one), every))

    def can_be_tried(self, one: Edit, room: str, symbols: list[str] | None) -> bool:
        """Return whether an edit fits a proved crate with these symbols; find the functions that it changes."""
        if symbols is None:
            one.why = "the crate itself is not proved"
        elif edit.applied(one, self.folder) is None:
            one.outcome = edit.Outcome.NOT_APPLIED
            one.why = "it has no pair of texts, or an 'old:' text is not in its file once"
        else:
            edit.look(one, self.folder, symbols)
            is_of_one = len(one.symbols) == 1
            one.goal = one.goal if is_of_one else ""
            one.others = goals.of_function(f"{room}/kept", *one.symbols) if is_of_one else []
        return not one.why

    def run(self) -> None:
        """Tries the crate's edits, once its library's build or a check proved all its functions as they are."""
        with tempfile.TemporaryDirectory(prefix="edits-") as room:
            kit.linked_copy(f"{self.folder}/out/incremental", f"{room}/kept")
            symbols = self.built.proved(self.name)
            if symbols is None and (report := self.check(room, {}, work=f"{room}/kept")).is_proved:
                symbols = verdict.proved(report)
            fitting = [one for one in self.edits if self.can_be_tried(one, room, symbols)]
            self.try_together(room, [one for one in fitting if one.symbols])
            alone = [one for one in fitting if not one.is_refused]
            texts = [edit.applied(one, self.folder) or {} for one in alone]
            for one, report in zip(alone, self.check_each(room, [(each, []) for each in texts])):
                self.judge_alone(one, report)

    def try_together(self, room: str, edits: list[Edit]) -> None:
        """Try edits of bodies, many in one check, with only the known goal of an edit."""
        groups = grouped(edits, self.folder)
        for group in groups:
            for symbol, one in group.tried.items():
                group.texts = goals.left_out(group.texts, self.folder, symbol, one)
        for group, report in zip(groups, self.check_each(room, [(each.texts, [*each.tried]) for each in groups])):
            self.judge(group, report)

    def judge(self, group: Group, report: kit.Report) -> None:
        """Takes an edit of a group as refused by an error or an open goal of its own functions, or of copies of them.
        The goal that is known is taken first."""
        left_out = {symbol: goals.beside(one, self.folder) for symbol, one in group.tried.items()}
        found = verdict.read(self.name, report, left_out)
        if not found.is_read:
            count = len(group.tried)
            print(f"-- {self.name}: {count} edits are tried alone, since one is not read: {found.first}", flush=True)
        # An error of a function that none of them changes could come from any: then they are tried one by one.
        if found.is_read and {*found.own} <= {*group.tried}:
            for symbol, one in group.tried.items():
                if symbol in found.own and (not one.goal or one.goal in found.refused(symbol)):
                    self.refused(one, symbol, found)

    def judge_alone(self, one: Edit, report: kit.Report) -> None:
        """Judges an edit by a check of it alone."""
        found = verdict.read(self.name, report)
        own = {symbol: text for symbol, text in found.own.items() if not one.symbols or symbol in one.symbols}
        if report.is_proved:
            one.outcome, one.why = edit.Outcome.PROVED, "the crate is still proved with it"
        elif not found.is_read:
            one.outcome, one.why = edit.Outcome.NOT_READ, f"it did not reach the prover: {found.first}"
        elif not own:
            one.outcome = edit.Outcome.NO_GOAL
            one.why = f"no goal of what it changes is left open, so it shows nothing: {found.first}"
        else:
            self.refused(one, next(iter(own)), found, "(alone) ")

    def refused(self, one: Edit, symbol: str, found: verdict.Verdict, how: str = "") -> None:
        """Notes that an edit is refused, and by which goal: its line's own, unless that is not left open."""
        one.outcome, one.why = edit.Outcome.REFUSED, f"{how}{symbol}: {found.own[symbol]}"
        opened = found.refused(symbol)
        one.goal = one.goal if one.goal in opened else [*opened, ""][0]


def try_crates(root: str, names: Iterable[str], jobs: int,
               when_done: Callable[[str, list[Edit]], None] = lambda name, edits: None) -> dict[str, list[Edit]]:
    """Tries the edits of these crates, `jobs` checks side by side, and gives the edits by crate.
    It prints their outcomes, and calls `when_done` after every crate."""
    built, known = Libraries(root, jobs), goals.known(root)
    trials = [Trial(name, found, built) for name in names if (found := edit.of_crate(root, name, known))]
    # A crate's own checks go side by side too, so that the last leaves no processor idle. Crates of most edits begin.
    with ThreadPoolExecutor(jobs) as pool:
        running = {pool.submit(trial.run): trial for trial in sorted(trials, key=lambda trial: -len(trial.edits))}
        for done in as_completed(running):
            trial, _ = running[done], done.result()
            for one in trial.edits:
                print(f"{one.outcome.value}: {one.label}: {one.why[:200]}")
            count = f"{len(trial.edits)} edits by {trial.checks} checks"
            print(f"-- {trial.name}: {count}, {trial.seconds:.0f} seconds of a processor", flush=True)
            when_done(trial.name, trial.edits)
    return {trial.name: trial.edits for trial in trials}


def note(root: str, name: str, edits: list[Edit]) -> None:
    """Write the goals that refused a crate's edits, and its line of the record if all were refused."""
    goals.write(root, name, edits)
    if all(one.is_refused for one in edits):
        record.write(root, [name])


def main() -> int:
    """Tries the edits of the crates that are named, and gives the status."""
    words = argparse.ArgumentParser(description=__doc__, formatter_class=argparse.RawDescriptionHelpFormatter)
    words.add_argument("--root", default=os.getcwd())
    words.add_argument("--jobs", type=int, default=kit.lanes())
    words.add_argument("--record", action="store_true")
    words.add_argument("crates", nargs="*")
    options = words.parse_args()
    kit.require()
    names = [name for name in options.crates or crates_of(options.root) if record.edits_of(options.root, name)]
    if wrong := Libraries(options.root, options.jobs).build_each(names):
        sys.exit(wrong)
    built = kit.used() / 60
    noted = lambda name, edits: note(options.root, name, edits) if options.record else None
    tried = try_crates(options.root, names, options.jobs, noted)
    refused = [one.is_refused for edits in tried.values() for one in edits]
    tries = kit.used() / 60 - built
    print("\n".join(forms.told(Path(options.root), names)))
    print(f"minutes of a processor: {built:.1f} for crates that were not built, {tries:.1f} for the edits")
    print(f"{sum(refused)} refused, {len(refused) - sum(refused)} not refused")
    return 0 if all(refused) else 1


if __name__ == "__main__":
    sys.exit(main())
