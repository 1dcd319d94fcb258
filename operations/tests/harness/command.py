"""Run the command `ropepeach` as a user would: a process with arguments, an exit status and output."""
from __future__ import annotations

import dataclasses
import json
import os
import pathlib
import re
import subprocess
from collections.abc import Iterable, Mapping
from typing import Any

ROOT = pathlib.Path(__file__).resolve().parents[3]
# Debian's Python, which has the modules that the command imports; the `python3` on PATH may lack them.
PYTHON = "/usr/bin/python3"
SCRIPT = ROOT / "operations/ropepeach-command"
# Options of `ropepeach mirror` for a source of any software.
ANY_SOURCE = ("--any-source",)
# The default folder of a mirror.
FOLDER = "m"
# The timeout of a run in seconds.
DEADLINE = 60


@dataclasses.dataclass(frozen=True)
class Result:
    """Outcome of one run: exit status, standard output, standard error."""

    status: int
    output: str
    errors: str

    def succeeded(self) -> Result:
        """Assert exit status 0 and no traceback; return self."""
        return self.ended(0)

    def failed(self, *texts: str, status: int = 1) -> Result:
        """Assert this exit status, these texts on standard error and no traceback; return self."""
        self.ended(status)
        for text in texts:
            assert text in self.errors, f"{text!r} is not in the messages:\n{self.errors}"
        return self

    def ended(self, status: int) -> Result:
        """Assert this exit status and no traceback; return self."""
        assert "Traceback" not in self.errors, self.errors
        assert self.status == status, f"exit status {self.status}, expected {status}\n{self.output}{self.errors}"
        return self

    def results(self) -> list[dict[str, Any]]:
        """Return the results of a run with --json."""
        found: list[dict[str, Any]] = json.loads(self.output)["results"]
        return found

    def summary(self) -> dict[str, Any]:
        """Return the last result of a run with --json, which sums the run up."""
        return self.results()[-1]

    def way(self) -> str:
        """Return `baseline` or `incremental`, the first word of the summary line of a run without --json."""
        words = re.findall(r"(?m)^(baseline|incremental):", self.output)
        assert len(words) == 1, f"there is no summary line in:\n{self.output}{self.errors}"
        return str(words[0])


def environment(folder: pathlib.Path) -> dict[str, str]:
    """Return the environment of a run: no proxies, and state between runs below this folder."""
    kept = {name: value for name, value in os.environ.items() if not name.lower().endswith("_proxy")}
    return kept | {"XDG_STATE_HOME": str(folder / "state-home"), "PYTHONDONTWRITEBYTECODE": "1", "TZ": "UTC"}


class Ropepeach:
    """The command under test, run in a working folder."""

    def __init__(self, folder: pathlib.Path) -> None:
        self.folder = folder

    def __call__(self, *arguments: object, before: Iterable[str] = (), settings: Mapping[str, str] | None = None
                 ) -> Result:
        """Run to the end, or fail after DEADLINE seconds; `before` are the words of a wrapper program."""
        run = self.started(*arguments, before=before, settings=settings)
        try:
            output, errors = run.communicate(timeout=DEADLINE)
        except subprocess.TimeoutExpired:
            run.kill()
            raise AssertionError(f"not done within {DEADLINE} seconds: {arguments}") from None
        return Result(run.returncode, output, errors)

    def started(self, *arguments: object, before: Iterable[str] = (), settings: Mapping[str, str] | None = None
                ) -> subprocess.Popen[str]:
        """Start the command, and return its process."""
        words = [*before, PYTHON, str(SCRIPT), *map(str, arguments)]
        return subprocess.Popen(words, cwd=self.folder, text=True, stdout=subprocess.PIPE, stderr=subprocess.PIPE,
                                env=environment(self.folder) | dict(settings or {}))

    def mirror(self, url: str, *options: object, folder: str = FOLDER, before: Iterable[str] = ()) -> Result:
        """Mirror a source of any software into a folder."""
        return self("mirror", *ANY_SOURCE, url, folder, *options, before=before)

    def mirror_own(self, url: str, *options: object, folder: str = FOLDER) -> Result:
        """Mirror a source of this project into a folder."""
        return self("mirror", url, folder, *options)
