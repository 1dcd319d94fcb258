"""The steps of a command that changes this machine. `--dry-run` prints them as shell; a run executes them."""
from __future__ import annotations

import argparse
import shlex
from collections.abc import Sequence
from dataclasses import dataclass
from pathlib import Path

from ropepeach.admin.programs import run_to_end
from ropepeach.cli import output
from ropepeach.faults import Fault, Unusable, printable

# The line that ends the text of a file in shell.
HEREDOC_END = "END_OF_FILE"


@dataclass(frozen=True)
class Program:
    """A program to run. If it fails, `undo` is run, if it is given."""

    purpose: str
    words: tuple[str, ...]
    undo: tuple[str, ...] = ()

    def shell(self) -> str:
        """Return the step as shell."""
        return shlex.join(self.words) + (f" || {{ {shlex.join(self.undo)}; exit 1; }}" if self.undo else "")

    def do(self) -> None:
        """Do it. Raise a fault that names its purpose."""
        if reason := self.failure():
            if self.undo:
                run_to_end(*self.undo)
            raise Fault(f"{self.purpose}: {reason}", f"the step was: {shlex.join(self.words)}")

    def failure(self) -> str:
        """Run the program. Return the reason of its failure, or an empty text."""
        try:
            ended = run_to_end(*self.words)
        except Unusable as fault:
            return str(fault)
        if not ended.returncode:
            return ""
        lines = (ended.stderr + ended.stdout).strip().splitlines()
        return printable(lines[-1]) if lines else f"status {ended.returncode}"


@dataclass(frozen=True)
class Write:
    """A file to write, in the place of an older one."""

    purpose: str
    path: Path
    text: str

    def shell(self) -> str:
        """Return the step as shell."""
        folder, path = shlex.quote(str(self.path.parent)), shlex.quote(str(self.path))
        return f"mkdir -p {folder}\ncat > {path} <<'{HEREDOC_END}'\n{self.text}{HEREDOC_END}"

    def do(self) -> None:
        """Do it. Raise a fault that names its purpose."""
        # (`remove` writes no file)
        from ropepeach.cli.files import write_file

        try:
            self.path.parent.mkdir(parents=True, exist_ok=True)
            write_file(self.path, self.text)
        except (OSError, Unusable) as fault:
            raise Fault(f"{self.purpose}: {fault}") from None


# One change of this machine.
Action = Program | Write


def as_user(user: str, *words: str) -> tuple[str, ...]:
    """Return the command that runs a program as another user: root never writes in that user's folder."""
    return ("runuser", "-u", user, "--", *words)


def cache_steps(cache: Path) -> list[Action]:
    """Return the steps that empty the cache of a site, because another file takes the place of a source's."""
    return [Program("nginx keeps no parts of it", ("find", str(cache), "-mindepth", "1", "-delete"))
            ] if cache.is_dir() else []


def add_dry_run(parser: argparse.ArgumentParser) -> None:
    """Add the option --dry-run of a command that has steps."""
    parser.add_argument("--dry-run", action="store_true", help="print each step as shell, and do nothing")


def carry_out(steps: Sequence[Action], is_dry: bool = False) -> None:
    """Announce and do all steps. A dry run prints a shell script that stops at the first failure."""
    if is_dry:
        shell = "\n".join(["set -e", *(f"# {step.purpose}\n{step.shell()}" for step in steps)])
        output.results(shell.splitlines(), {"shell": shell})
        return
    for step in steps:
        output.message(step.purpose)
        step.do()
