"""Start the command `ropepeach`; name a missing Python module in one line."""
from __future__ import annotations

import gc
import os
import sys


def open_standard_files() -> None:
    """Open /dev/null in place of closed standard files: another file would get the descriptor, and their lines."""
    while (number := os.open(os.devnull, os.O_RDWR)) <= 2:
        os.set_inheritable(number, True)
    os.close(number)
    sys.stdin = sys.stdin or open(0, closefd=False)
    sys.stdout = sys.stdout or open(1, "w", closefd=False)
    sys.stderr = sys.stderr or open(2, "w", closefd=False)


def main() -> int:
    """Run the command; return the exit status."""
    # (modules stay loaded, so a garbage collection during imports would free no memory; `command.run` enables it again)
    gc.disable()
    open_standard_files()
    try:
        from ropepeach.cli import command
        from ropepeach.cli.stops import STOPS

        try:
            return command.main()
        finally:
            # (a signal would interrupt the end of Python)
            STOPS.ignore()
    except KeyboardInterrupt as stop:
        print("ropepeach: stopped", file=sys.stderr)
        return int(getattr(stop, "status", 130))
    except ModuleNotFoundError as fault:
        package = (fault.name or "").partition(".")[0]
        print(f"ropepeach: there is no {fault.name} here: install python3-{package}", file=sys.stderr)
        return 1


if __name__ == "__main__":
    sys.exit(main())
