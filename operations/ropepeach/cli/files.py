"""The files that a command writes. Each begins as a new file of an open folder, so that no link is followed and no
other file is opened; it is synced before it gets its name, so that readers see the old file or the new one.
"""
from __future__ import annotations

import contextlib
import errno
import os
import stat
from collections.abc import Iterator
from typing import IO

from ropepeach.faults import Unusable

NEW_FILE = os.O_WRONLY | os.O_CREAT | os.O_EXCL | os.O_NOFOLLOW | os.O_CLOEXEC


def make_file(folder: int, name: str, mode: int = 0o666) -> int:
    """Make a file in an open folder; return its descriptor. Raise FileExistsError for a file or a link of the name."""
    return os.open(name, NEW_FILE, mode, dir_fd=folder)


@contextlib.contextmanager
def opened_folder(path: str | os.PathLike[str]) -> Iterator[int]:
    """Open a folder during a `with` block."""
    number = os.open(path, os.O_RDONLY | os.O_DIRECTORY | os.O_CLOEXEC)
    try:
        yield number
    finally:
        os.close(number)


@contextlib.contextmanager
def replaced(folder: int, name: str, fresh: str, within: int | None = None, is_new: bool = False,
             mode: int = 0o666) -> Iterator[IO[bytes]]:
    """Yield a new file, which gets the name in the open folder at the end of the `with` block.

    Before, it is the file `fresh` of the open folder `within`, by default the same one; a failure removes it. With
    `is_new` it replaces no file: FileExistsError is raised.
    """
    above = folder if within is None else within
    number = make_file(above, fresh, mode)
    try:
        with open(number, "wb") as file:
            yield file
            file.flush()
            os.fsync(number)
            if is_new:
                # (another user of the folder may have put another file at `fresh`)
                os.link(f"/proc/self/fd/{number}", name, dst_dir_fd=folder)
                with contextlib.suppress(FileNotFoundError):
                    os.unlink(fresh, dir_fd=above)
            else:
                os.replace(fresh, name, src_dir_fd=above, dst_dir_fd=folder)
    except BaseException:
        with contextlib.suppress(OSError):
            os.unlink(fresh, dir_fd=above)
        raise
    os.fsync(folder)


@contextlib.contextmanager
def file_at(path: str | os.PathLike[str], is_new: bool = False, mode: int = 0o666) -> Iterator[IO[bytes]]:
    """Yield a new file, which gets the path at the end of the `with` block, in place of an older file or link.

    It replaces no device, pipe or folder.
    """
    above, name = os.path.split(os.path.abspath(path))
    with opened_folder(above) as folder:
        with contextlib.suppress(FileNotFoundError):
            mode_there = os.stat(name, dir_fd=folder, follow_symlinks=False).st_mode
            if not stat.S_ISREG(mode_there) and not stat.S_ISLNK(mode_there):
                raise FileExistsError(errno.EEXIST, "there is something else than a file", name)
        with replaced(folder, name, f"{name}.{os.urandom(8).hex()}.new", is_new=is_new, mode=mode) as file:
            yield file


def write_file(path: str | os.PathLike[str], text: str) -> None:
    """Write a file that all users may read. Raise `Unusable` if it cannot be written."""
    try:
        with file_at(path, mode=0o644) as file:
            os.fchmod(file.fileno(), 0o644)
            file.write(text.encode())
    except OSError as fault:
        raise Unusable(f"{path}: can't be written: {fault.strerror}") from None
