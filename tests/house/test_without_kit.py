"""Test that the make targets report a missing Rattle kit in one line."""

import os
import re
import shutil
import subprocess
from pathlib import Path

ROOT = Path(__file__).resolve().parents[2]
KIT, SECONDS = "rt", 120
# Targets that need no kit; `make quick` needs one after a change of a crate (gate/tests/test_quick.py).
WITHOUT = {"help", "setup", "quick", "statement", "install", "uninstall", "proof-times"}
# The least number of targets; fewer mean that the search failed.
LEAST = 20


def targets() -> list[str]:
    """Return the targets of the rules of both Makefiles, except checks by their names."""
    texts = [(ROOT / name).read_text() for name in ("Makefile", "operations/Makefile")]
    return [word for text in texts for line in re.findall(r"(?m)^([a-z][\w -]*):", text) for word in line.split()]


def path_without_kit() -> str:
    """Return the folders of commands that have no kit."""
    folders = os.environ.get("PATH", os.defpath).split(os.pathsep)
    return os.pathsep.join(folder for folder in folders if not Path(folder, KIT).exists())


def is_one_line(output: str) -> bool:
    """Return whether the output reports in one line that there is no kit; make itself may add why it ended."""
    lines = [line for line in output.splitlines() if not re.match(r"make(\[\d+\])?: ", line)]
    return len(lines) == 1 and "no Rattle kit here" in lines[0]


def test_each_target_says_so_in_one_line() -> None:
    path = path_without_kit()
    assert shutil.which(KIT, path=path) is None
    due = [target for target in targets() if target not in WITHOUT]
    assert len(due) > LEAST
    for target in due:
        environment = {**os.environ, "PATH": path, "SETUP": "no"}
        run = subprocess.run(["make", "--no-print-directory", target], cwd=ROOT, env=environment, text=True,
                             stdout=subprocess.PIPE, stderr=subprocess.STDOUT, timeout=SECONDS)
        assert run.returncode != 0
        assert is_one_line(run.stdout), run.stdout[-1000:]


def test_each_target_is_told() -> None:
    told = subprocess.run(["make", "help"], cwd=ROOT, capture_output=True, text=True, check=True).stdout
    assert sorted(re.findall(r"(?m)^make (\S+)", told)) == sorted(targets())


def test_no_target_is_a_file() -> None:
    """The targets in the help are .PHONY: make's own list of its rules has them all."""
    rules = subprocess.run(["make", "-pRrnq", "help"], cwd=ROOT, capture_output=True, text=True).stdout
    phony = re.findall(r"(?m)^\.PHONY:(.*)$", rules)
    assert sorted(" ".join(phony).split()) == sorted(targets())


def test_wrong_outputs_are_noticed() -> None:
    line = "there is no Rattle kit here (the command `rt`): a release has the built program (README.md)\n"
    end = "make: *** [Makefile:67: build] Error 1\n"
    assert is_one_line(line + end)
    for output in ("", end, line + line, f"Building the program\n{line}", "FileNotFoundError: 'rt'\n",
                   f"Traceback (most recent call last):\n{line}"):
        assert not is_one_line(output)
