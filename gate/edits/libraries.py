"""Build crates and the libraries below them, where their files changed since the last build."""

import os
import runpy
import shutil
from collections.abc import Callable, Iterable
from concurrent.futures import FIRST_COMPLETED, Future, ThreadPoolExecutor, wait
from functools import cache
from pathlib import Path
from threading import Semaphore
from typing import Any

from gate.edits import kit, verdict
from rattle.crates import below, crates_of

# The function to call after a build of a crate, with its name and the report of its check.
WhenDone = Callable[[str, kit.Report], None]


class Libraries:
    """The crates of a repository, built after the libraries below them. Of a program only the proofs are kept."""

    def __init__(self, root: str | Path, jobs: int) -> None:
        self.root, self.uses, self.jobs, self.turns = root, crates_of(root), jobs, Semaphore(jobs)
        # Each crate as the module of `rt` reads it, which gives the words of a check, and a sum of all that the crate
        # is made from.
        made = runpy.run_path(f"{kit.folder()}/bin/rtlib.py")["Crate"]
        known: dict[str, Any] = {}
        made.stamp = cache(made.stamp)
        for at in (f"{root}/crates/{name}" for name in self.uses):
            known[at] = known[at] if at in known else made(at, str(root), known)
        # The sums as they are at first: a crate that changes meanwhile is left due.
        self.crates = {crate.name: crate for crate in known.values()}
        self.stamps: dict[str, str] = {name: crate.stamp() for name, crate in self.crates.items()}

    def command(self, name: str, work: str | Path, how: str = "check", *more: str, jobs: int = 1) -> list[str]:
        """The words that check a crate of the repository, or build it, with its work kept in the folder `kept`."""
        return [f"{kit.folder()}/bin/rattle", how,
                *self.crates[name].words(["--jobs", str(jobs), "--incremental", str(work), *more])]

    def is_built(self, name: str) -> bool:
        """Return whether a crate is built from its files, here or by `rt`, which leaves the same stamp."""
        stamp = Path(self.root, "crates", name, "out", "rlib", "stamp")
        return stamp.is_file() and stamp.read_text() == self.stamps[name]

    def proved(self, name: str) -> list[str] | None:
        """The symbols of the functions that a crate's build here proved; None where it is not built from its files."""
        listed = Path(self.root, "crates", name, "out", "rlib", "proved")
        return listed.read_text().split() if self.is_built(name) and listed.is_file() else None

    def build(self, name: str, jobs: int, when_done: WhenDone) -> str:
        """Build a crate over the work of its last check, pass the report on, and return the fault, or ''."""
        folder = Path(self.root, "crates", name)
        work, built = folder / "out" / "incremental", folder / "out" / "rlib"
        shutil.rmtree(built, ignore_errors=True)
        os.makedirs(built)
        how = ["check"] if self.crates[name].is_program else ["build", "-o", str(built / f"{name}.rlib")]
        report = kit.check(self.command(name, work, *how, jobs=jobs), folder)
        when_done(name, report)
        if not report.is_proved:
            return f"{name} is not proved: {report.text[-600:]}"
        (built / "proved").write_text("\n".join(verdict.proved(report)))
        (built / "stamp").write_text(self.stamps[name])
        return ""

    def build_each(self, names: Iterable[str], when_done: WhenDone = lambda name, report: None) -> str:
        """Build these crates and all below them in parallel; return the fault, or nothing.

        A crate gets the jobs that no other one waits for.
        """
        wanted = {needed for name in names for needed in (*below(self.uses, name), name)}
        waiting, wrong = [name for name in self.uses if name in wanted and not self.is_built(name)], ""
        running: dict[Future[str], tuple[str, int]] = {}
        with ThreadPoolExecutor(self.jobs) as pool:
            while running or waiting and not wrong:
                undone = {*waiting, *(name for name, _ in running.values())}
                ready = [name for name in waiting if not wrong and not undone & {*below(self.uses, name)}]
                for at, name in enumerate(ready):
                    if idle := self.jobs - sum(jobs for _, jobs in running.values()):
                        jobs = min(4, max(1, idle // (len(ready) - at)))
                        running[pool.submit(self.build, name, jobs, when_done)] = name, jobs
                        waiting.remove(name)
                for finished in wait(running, return_when=FIRST_COMPLETED).done:
                    wrong, _ = wrong or finished.result(), running.pop(finished)
        return wrong
