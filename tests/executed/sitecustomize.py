"""Note the modules of `ropepeach` that a process imports in the file ROPEPEACH_EXECUTED (gate/chosen.py)."""

import contextlib
import os
import sys


class Noting:
    """A finder that finds nothing, and notes the modules that are looked for."""

    def __init__(self, file: str) -> None:
        self.file = file

    def find_spec(self, name: str, path: object = None, target: object = None) -> None:
        """Note a module of the command."""
        if name.startswith("ropepeach."):
            # (another user may not write there)
            with contextlib.suppress(OSError), open(self.file, "a", encoding="ascii") as file:
                file.write(f"{name}\n")


if noted := os.environ.get("ROPEPEACH_EXECUTED"):
    sys.meta_path.insert(0, Noting(noted))
