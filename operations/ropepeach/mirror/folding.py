"""File systems that have two names of a source as one, or a name as another one."""
from __future__ import annotations

import errno
import os

from ropepeach.cli.files import make_file
from ropepeach.faults import Unusable

# Two names of all characters that a name may have, which a file system that folds case has as one.
PROBE, FOLDED = "aB0-._~!$&'()*+,;=:@%C3.", "Ab0-._~!$&'()*+,;=:@%c3."


def check_names(path: str, folder: int) -> None:
    """Refuse the file system of an empty folder, if it folds names or takes not all of them."""
    try:
        os.close(make_file(folder, PROBE))
        found = [*os.listdir(folder), *(name for name in (FOLDED, PROBE.rstrip(".")) if is_at(folder, name))]
    except OSError as fault:
        if fault.errno not in (errno.EINVAL, errno.EILSEQ):
            raise
        raise Unusable(f"{path}: its file system does not take each name that a resource may have: "
                       f"{fault.strerror}") from None
    if found != [PROBE]:
        raise Unusable(f"{path}: its file system has several names as one ({' and '.join(found)}): "
                       "take one that tells upper from lower case")


def is_at(folder: int, name: str) -> bool:
    """Return whether an open folder has a file of a name."""
    try:
        os.stat(name, dir_fd=folder, follow_symlinks=False)
    except FileNotFoundError:
        return False
    return True
