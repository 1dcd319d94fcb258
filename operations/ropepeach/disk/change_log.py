"""The site's log of changes (site.nginx), one JSON line per change. Clients control parts of the lines."""
from __future__ import annotations

import json

from ropepeach.cli import output
from ropepeach.cli.statuses import Status
from ropepeach.faults import Unusable

# The fields of a line, in the order in which they are printed.
LINE_FIELDS = ("time", "address", "subject", "method", "path", "status")
# nginx takes heads of 32 KiB, and writes a byte as six at most.
LONGEST_LINE = 262_144
NOBODY = "-"
RESOURCE_PATH = "/resource/"


def logged_change(line: bytes) -> dict[str, str] | None:
    """Return the change in a line, or None."""
    try:
        fields = json.loads(line.decode("utf-8", "surrogateescape"))
    except (ValueError, RecursionError):
        return None
    if not isinstance(fields, dict) or set(fields) != set(LINE_FIELDS):
        return None
    if not all(isinstance(value, str) for value in fields.values()):
        return None
    return {name: fields[name] or NOBODY for name in LINE_FIELDS}


def print_changes(path: str) -> int:
    """Print the changes; return the exit status."""
    wrong = 0
    try:
        with open(path, "rb") as file:
            # (an overlong line comes in pieces, which are no changes)
            for line in iter(lambda: file.readline(LONGEST_LINE), b""):
                change = logged_change(line)
                if change is None:
                    wrong += 1
                    continue
                # (a space divides the fields, and a subject may have some)
                subject = change["subject"]
                subject = json.dumps(subject, ensure_ascii=False) if " " in subject else subject
                name = change["path"].partition(RESOURCE_PATH)[2] or change["path"]
                output.result(" ".join([change["time"], change["address"], subject, change["method"], name,
                                        change["status"]]), **change)
    except OSError as fault:
        raise Unusable(f"{path}: can't be read: {fault.strerror}") from None
    if wrong:
        output.message(f"{path}: {wrong:,} lines are no changes")
    return Status.DAMAGED if wrong else Status.DONE
