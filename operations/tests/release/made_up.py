"""Make a small repository with a program, its stamp and a verdict of the gate, for tests of a release."""
from __future__ import annotations

import dataclasses
import os
import subprocess
from pathlib import Path

from operations.package.stamp import Stamp, digest
from operations.release import grounds
from operations.release.grounds import Grounds
from tests import verdict

KIT = "kit-1 logic abc"
DAY = "2026-01-01"
# The author and the moment of every commit here.
AUTHOR = {"GIT_AUTHOR_NAME": "a", "GIT_AUTHOR_EMAIL": "a@example.org", "GIT_COMMITTER_NAME": "a",
          "GIT_COMMITTER_EMAIL": "a@example.org", "GIT_AUTHOR_DATE": "1767225600 +0000",
          "GIT_COMMITTER_DATE": "1767225600 +0000",
          "GIT_CONFIG_GLOBAL": os.devnull, "GIT_CONFIG_SYSTEM": os.devnull}
CHANGELOG = """# Changelog

## [0.1.0] - unreleased

### Added
- A first thing.

## [0.0.9] - 2025-01-01

- An older thing.
"""


def git(root: Path, *words: str) -> str:
    """Run git in a repository, with its own settings only."""
    process = subprocess.run(["git", *words], cwd=root, env={**os.environ, **AUTHOR}, check=True, capture_output=True,
                             text=True)
    return process.stdout.strip()


def commit(root: Path, subject: str = "a commit") -> str:
    """Commit all files; return the commit."""
    git(root, "init", "--quiet", "--initial-branch=main")
    git(root, "add", "--all")
    git(root, "commit", "--quiet", "--message", subject)
    return git(root, "rev-parse", "HEAD")


@dataclasses.dataclass
class MadeUp:
    """A repository that may be released, until a test changes it."""

    root: Path

    def __post_init__(self) -> None:
        """Make the repository."""
        self.root.mkdir(parents=True)
        (self.root / "VERSION").write_text("0.1.0\n")
        (self.root / "CHANGELOG.md").write_text(CHANGELOG)
        (self.root / ".gitignore").write_text("out/\n")
        self.first = commit(self.root)
        self.program.parent.mkdir()
        self.program.write_bytes(b"a program\n")
        self.write_stamp()
        self.write_verdict()

    @property
    def program(self) -> Path:
        """Return the path of the program."""
        return self.root / "out/rs_source"

    def write_stamp(self, **fields: object) -> None:
        """Write the stamp of the program, with some other fields."""
        right = {"sha256": digest(self.program), "commit": self.first, "has_changes": False, "date": 1767225600,
                 "kit": KIT}
        Stamp(**{**right, **fields}).write(self.program)  # type: ignore[arg-type]

    def write_verdict(self, **fields: object) -> None:
        """Write the gate's verdict, with some other fields."""
        right = {"commit": self.first, "changes": (), "kit": KIT, "passed": 3, "failed": (), "skipped": (),
                 "line": "3 passed, 0 failed"}
        verdict.write(self.root, verdict.Verdict(**{**right, **fields}))  # type: ignore[arg-type]

    def read(self, with_skips: bool = False) -> Grounds:
        """Return the grounds of a release, or raise Unfit."""
        return grounds.read(self.root, self.program, with_skips, DAY)


def another_commit(made: MadeUp) -> None:
    """Make a commit after the gate's."""
    (made.root / "a").write_text("a\n")
    commit(made.root, "another")


def tag_elsewhere(made: MadeUp) -> None:
    """Tag the version on another commit than the released one."""
    git(made.root, "tag", "v0.1.0")
    another_commit(made)
    made.first = git(made.root, "rev-parse", "HEAD")
    made.write_stamp()
    made.write_verdict()


def changelog(made: MadeUp, text: str) -> None:
    """Commit another changelog, with the gate's verdict on it."""
    (made.root / "CHANGELOG.md").write_text(text)
    made.first = commit(made.root, "a changelog")
    made.write_stamp()
    made.write_verdict()
