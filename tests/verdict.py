"""The verdict of `make test` on a commit: the gate writes it, and a release reads it."""

import dataclasses
import json
import subprocess
from dataclasses import dataclass
from pathlib import Path

# The path of the verdict, relative to the top of the repository.
PLACE = Path("out", "verdict.json")


class NoVerdict(Exception):
    """No readable verdict exists."""


@dataclass(frozen=True)
class State:
    """The commit of a repository, and the files that differ from it."""

    commit: str
    changes: tuple[str, ...]


@dataclass(frozen=True)
class Verdict:
    """The commit, files that differed from it, the kit, the count of passed parts, failures, skips, and last line."""

    commit: str
    changes: tuple[str, ...]
    kit: str
    passed: int
    failed: tuple[str, ...]
    skipped: tuple[str, ...]
    line: str

    @property
    def is_green(self) -> bool:
        """Return whether parts passed and none failed."""
        return self.passed > 0 and not self.failed


def git(root: Path, *words: str) -> str:
    """Return the output of git, or nothing if there is no repository."""
    finished = subprocess.run(["git", *words], cwd=root, capture_output=True, text=True, errors="replace", check=False)
    return finished.stdout if finished.returncode == 0 else ""


def state_of(root: Path) -> State:
    """Return the current state of a repository. Files that git ignores do not count."""
    # A moved file is listed as a deleted and a new one.
    changes = git(root, "status", "--porcelain", "-z", "--no-renames", "--untracked-files=all").split("\0")
    return State(git(root, "rev-parse", "HEAD").strip(), tuple(sorted(change[3:] for change in changes if change)))


def joined(before: State, after: State) -> State:
    """Return the state of a repository over a time: a commit made meanwhile counts as a change."""
    moved = () if before.commit == after.commit else (f"commit {after.commit}",)
    return State(before.commit, tuple(sorted({*before.changes, *after.changes, *moved})))


def write(root: Path, verdict: Verdict) -> None:
    """Write the verdict of a run, which replaces an earlier one."""
    path = root / PLACE
    path.parent.mkdir(exist_ok=True)
    beside = path.with_suffix(".new")
    beside.write_text(json.dumps(dataclasses.asdict(verdict), indent=2) + "\n")
    beside.replace(path)


def drop(root: Path) -> None:
    """Remove the verdict of an earlier run, so that a stopped run leaves none."""
    (root / PLACE).unlink(missing_ok=True)


def texts(value: object) -> tuple[str, ...]:
    """Return a list of texts in JSON."""
    if not isinstance(value, list) or not all(isinstance(entry, str) for entry in value):
        raise ValueError("no list of texts")
    return tuple(value)


def read(root: Path) -> Verdict:
    """Return the verdict of the last run."""
    path = root / PLACE
    try:
        found = json.loads(path.read_text(encoding="utf-8"))
        if not isinstance(found, dict) or set(found) != {field.name for field in dataclasses.fields(Verdict)}:
            raise ValueError("other fields")
        single = [found[name] for name in ("commit", "kit", "line")]
        if not all(isinstance(value, str) for value in single) or type(found["passed"]) is not int:
            raise ValueError("a field of another type")
        lists = {name: texts(found[name]) for name in ("changes", "failed", "skipped")}
    except FileNotFoundError:
        raise NoVerdict(f"there is no {PLACE}: make test") from None
    except (OSError, ValueError, RecursionError) as fault:
        raise NoVerdict(f"{PLACE} is no verdict of `make test` ({type(fault).__name__}): make test") from None
    return Verdict(**{**found, **lists})
