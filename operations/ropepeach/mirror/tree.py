"""Files below a folder, reached by the descriptors of the folders above them: no link is followed, even if another
program puts one there meanwhile.

A path has segments joined by `/`. The folders of the last path stay open, since the next one mostly has them too.
"""
import contextlib
import fcntl
import os
import stat
from collections.abc import Iterator
from typing import NamedTuple

from ropepeach.disk.formula import LONGEST_NAME
from ropepeach.faults import Unusable

# The greatest depth of a source's name.
DEEPEST = LONGEST_NAME // 2
# The bytes of a file that are read or copied at once.
PIECE = 1 << 20
FOLDER = os.O_RDONLY | os.O_DIRECTORY | os.O_NOFOLLOW
READING = os.O_RDONLY | os.O_NOFOLLOW | os.O_NONBLOCK | os.O_NOCTTY


class Linked(Unusable):
    """A link in place of a folder."""


class Level(NamedTuple):
    """The entries of a folder: its path with a `/` at the end, empty for the top; the names of folders and others."""

    front: str
    folders: set[str]
    others: list[str]


class Tree:
    """A folder by its descriptor, and all below it."""

    def __init__(self, path: str, top: int) -> None:
        self.path, self.top = path, top
        self.way: list[tuple[str, int]] = []
        # The last folder, and its descriptor.
        self.last: tuple[str, int] = ("", top)

    def shown(self, path: str) -> str:
        """Return a path for a message."""
        return os.path.join(self.path, path)

    def back_to(self, depth: int) -> None:
        """Close the folders of the last path below a depth."""
        self.last = ("", self.top)
        while len(self.way) > depth:
            os.close(self.way.pop()[1])

    def folder(self, path: str) -> int:
        """Return the descriptor of a folder, which stays open until the next call."""
        if path == self.last[0]:
            return self.last[1]
        segments = path.split("/") if path else []
        same = 0
        while same < min(len(segments), len(self.way)) and segments[same] == self.way[same][0]:
            same += 1
        self.back_to(same)
        for name in segments[same:]:
            self.way.append((name, self.enter(name)))
        self.last = (path, self.way[-1][1] if self.way else self.top)
        return self.last[1]

    def enter(self, segment: str) -> int:
        """Open the folder of a segment in the last folder of the way."""
        above = self.way[-1][1] if self.way else self.top
        try:
            return os.open(segment, FOLDER, dir_fd=above)
        except NotADirectoryError:
            if stat.S_ISLNK(os.stat(segment, dir_fd=above, follow_symlinks=False).st_mode):
                path = self.shown("/".join([*(name for name, _ in self.way), segment]))
                says = "is a link, and none below a folder is followed: move it away"
                raise Linked(f"{path}: {says}") from None
            raise

    def parted(self, path: str) -> tuple[int, str]:
        """Return the descriptor of the parent folder of a path, and its last segment."""
        above, _, last = path.rpartition("/")
        return self.folder(above), last

    def status(self, path: str) -> os.stat_result | None:
        """Return the status of a path itself, or None if it is missing."""
        try:
            above, last = self.parted(path)
            return os.stat(last, dir_fd=above, follow_symlinks=False)
        except (FileNotFoundError, NotADirectoryError):
            return None

    def is_there(self, path: str) -> bool:
        """Return whether there is something, a link too."""
        return self.status(path) is not None

    def is_folder(self, path: str) -> bool:
        """Return whether a path is a folder, and no link to one."""
        found = self.status(path)
        return found is not None and stat.S_ISDIR(found.st_mode)

    def is_file(self, path: str) -> bool:
        """Return whether a path is a regular file and not a symbolic link."""
        found = self.status(path)
        return found is not None and stat.S_ISREG(found.st_mode)

    def opened(self, path: str) -> int:
        """Open a path for reading, unless it is a link, without waiting for the writer of a pipe."""
        above, last = self.parted(path)
        return os.open(last, READING, dir_fd=above)

    def regular(self, path: str) -> int:
        """Open a regular file for reading. Raise Unusable for another file."""
        if not self.is_file(path):
            raise Unusable(f"{self.shown(path)}: is no regular file")
        return self.opened(path)

    def read(self, path: str, longest: int) -> bytes:
        """Return the first bytes of a regular file. Raise Unusable for another file."""
        with open(self.regular(path), "rb") as file:
            return file.read(longest)

    def make_folder(self, path: str) -> None:
        """Make a folder."""
        above, last = self.parted(path)
        os.mkdir(last, dir_fd=above)

    def move(self, path: str, to: str) -> None:
        """Rename a file within its folder, in the place of another one."""
        above, last = self.parted(path)
        os.replace(last, to.rpartition("/")[2], src_dir_fd=above, dst_dir_fd=above)

    def take(self, folder: int, name: str, to: str) -> None:
        """Move a file of an open folder to a path."""
        above, last = self.parted(to)
        os.replace(name, last, src_dir_fd=folder, dst_dir_fd=above)

    def remove(self, path: str) -> None:
        """Remove a file, or a link itself."""
        above, last = self.parted(path)
        os.remove(last, dir_fd=above)

    def remove_folder(self, path: str) -> None:
        """Remove an empty folder."""
        above, last = self.parted(path)
        self.back_to(path.count("/"))
        os.rmdir(last, dir_fd=above)

    def listed(self, path: str) -> Iterator[tuple[str, bool]]:
        """Yield the names in a folder, in any order, and whether they are folders; a link is no folder."""
        with os.scandir(self.folder(path)) as entries:
            for entry in entries:
                yield entry.name, entry.is_dir(follow_symlinks=False)

    def levels(self, is_passed: str) -> Iterator[Level]:
        """Yield the folders, parents first, without the names that begin with a mark."""
        due = [""]
        while due:
            front = due.pop()
            if front.count("/") > DEEPEST:
                raise Unusable(f"{self.shown(front)[:300]}: lies deeper than any resource: a mirror has none "
                               f"but its own folders")
            level = Level(front, set(), [])
            for name, is_folder in self.listed(front.rstrip("/")):
                if not name.startswith(is_passed):
                    level.folders.add(name) if is_folder else level.others.append(name)
            yield level
            due += [f"{front}{name}/" for name in level.folders]


@contextlib.contextmanager
def tree_at(path: str) -> Iterator[Tree]:
    """Open the folder of a path, which may have links."""
    folder = os.open(path, os.O_RDONLY | os.O_DIRECTORY)
    try:
        yield Tree(path, folder)
    finally:
        os.close(folder)


def lock_folder(folder: int, path: str) -> None:
    """Lock an open folder until it is closed. Raise Unusable if another run has locked it."""
    try:
        fcntl.flock(folder, fcntl.LOCK_EX | fcntl.LOCK_NB)
    except BlockingIOError:
        os.close(folder)
        raise Unusable(f"{path}: another run is at work in it") from None
