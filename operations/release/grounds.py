"""The grounds of a release: a commit without changes, the gate's verdict on it, and the program built from it."""
from __future__ import annotations

import re
from dataclasses import dataclass
from pathlib import Path

from operations.package import stamp
from operations.package.program_facts import Unfit
from tests import verdict
from tests.verdict import Verdict

# The option with which the user releases a version that the gate did not test completely.
WITH_SKIPS = "--with-skips"


@dataclass(frozen=True)
class Grounds:
    """A version, the gate's verdict on its commit, the stamp of its program, and its changes for users."""

    version: str
    verdict: Verdict
    stamp: stamp.Stamp
    changes: str


def section(text: str, version: str, day: str) -> str:
    """Return the section of a version in a changelog, with its date."""
    heading = re.compile(rf"^## \[{re.escape(version)}\].*$", re.MULTILINE)
    found = heading.findall(text)
    if len(found) != 1:
        raise Unfit(f"CHANGELOG.md has {len(found)} sections of {version}")
    body = re.split(r"(?m)^## \[", heading.split(text)[1])[0].strip()
    if not body:
        raise Unfit(f"CHANGELOG.md says nothing of {version}")
    return f"# Ropepeach {version}, {day}\n\n{body}\n"


def looked_at(root: Path, with_skips: bool) -> Verdict:
    """Return the verdict on the current commit of the repository if it allows a release."""
    state = verdict.state_of(root)
    if not state.commit:
        raise Unfit("there is no git repository here, so no commit to release")
    if state.changes:
        raise Unfit(f"{state.changes[0]} is not as the commit has it: commit, and make test")
    try:
        found = verdict.read(root)
    except verdict.NoVerdict as why:
        raise Unfit(str(why)) from None
    if found.commit != state.commit:
        raise Unfit(f"the gate ran on another commit, {found.commit[:12]}: make test")
    if found.changes:
        raise Unfit(f"the gate did not run on the commit alone: {found.changes[0]} was not as it has it: make test")
    if not found.is_green:
        raise Unfit(f"the gate did not pass: {found.line}")
    if found.skipped and not with_skips:
        raise Unfit(f"the gate skipped {len(found.skipped)}, the first is: {found.skipped[0]}: "
                    f"try that, or make release RELEASE={WITH_SKIPS}")
    return found


def tagged(root: Path, version: str, commit: str) -> None:
    """Raise Unfit if the tag of the version names another commit."""
    tag = verdict.git(root, "rev-list", "-n", "1", f"refs/tags/v{version}").strip()
    if tag and tag != commit:
        raise Unfit(f"the tag v{version} is on another commit, {tag[:12]}: a new version needs a new number in VERSION")


def stamped(program: Path, found: Verdict) -> stamp.Stamp:
    """Return the stamp of the program, which must match the commit and the prover of the verdict."""
    known = stamp.read(program)
    if known.commit != found.commit or known.has_changes:
        changed = " with changes" * known.has_changes
        raise Unfit(f"{program} was built of {known.commit[:12]}{changed}, not of {found.commit[:12]}: make build")
    if known.kit != found.kit:
        raise Unfit(f"{program} was proved by {known.kit}, and the gate ran with {found.kit}: make build")
    return known


def read(root: Path, program: Path, with_skips: bool, day: str) -> Grounds:
    """Return the grounds of a release, or raise the first error."""
    found = looked_at(root, with_skips)
    version = (root / "VERSION").read_text().strip()
    tagged(root, version, found.commit)
    return Grounds(version, found, stamped(program, found), section((root / "CHANGELOG.md").read_text(), version, day))
