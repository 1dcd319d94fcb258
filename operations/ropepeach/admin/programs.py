"""Runs of other programs."""
from __future__ import annotations

import subprocess
from collections.abc import Sequence

from ropepeach.faults import Unusable


def run_to_end(*words: str, lines: str = "", seconds: float | None = None, if_late: str = "run it again",
               if_absent: str = "install it", open_files: Sequence[int] = ()) -> subprocess.CompletedProcess[str]:
    """Run a program on lines of input. Raise `Unusable`, with a remedy, if it is late, or is not installed.

    `open_files` are descriptors that it inherits: /proc/self/fd/N is the path of such a file.
    """
    try:
        return subprocess.run(words, input=lines, capture_output=True, text=True, errors="replace", timeout=seconds,
                              pass_fds=open_files)
    except subprocess.TimeoutExpired:
        raise Unusable(f"{' '.join(words)}: no answer within {seconds} seconds: {if_late}") from None
    except OSError as fault:
        raise Unusable(f"{words[0]}: {fault.strerror}: {if_absent}") from None
