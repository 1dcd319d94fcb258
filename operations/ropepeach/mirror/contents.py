"""The files of a mirror's folder: the names with a file, and their comparison with the lists. Reads only."""
from __future__ import annotations

import os
import stat
from collections.abc import Iterable, Iterator

from ropepeach.mirror.tree import PIECE, Tree
from ropepeach.resync.facts import Facts, Measure, algorithms_for, has_length, is_name, length_of

# The end of the file of a name that has another name below it.
ASIDE = "#"


class Contents:
    """The files of a folder, by the names of their resources."""

    lock: int
    tree: Tree

    def __init__(self) -> None:
        # The number of files at the beginning of the run, and the names of files that were missing.
        self.file_count, self.absent = 0, set[str]()

    @property
    def is_open(self) -> bool:
        """Return whether the folder exists, and so is locked."""
        return self.lock >= 0

    def place(self, name: str) -> str:
        """Return the path of the file of a name, which may be missing."""
        return name + ASIDE if self.tree.is_folder(name) else name

    def is_held(self, name: str) -> bool:
        """Return whether a file or a folder is in the place of a name."""
        return self.is_open and self.tree.is_there(self.place(name))

    def length(self, name: str) -> int:
        """Return the bytes of the file of a name, or 0."""
        found = self.tree.status(self.place(name)) if self.is_open else None
        return found.st_size if found is not None and stat.S_ISREG(found.st_mode) else 0

    def has(self, name: str, facts: Facts) -> bool:
        """Return whether the file of a name has the listed length and digests."""
        return self.fitting(name, [facts]) is not None

    def fitting(self, name: str, choices: Iterable[Facts]) -> Measure | None:
        """Return the measure of the file of a name, if it fits one of some facts."""
        if not self.is_open:
            return None
        try:
            number = self.tree.opened(name)
            found = os.fstat(number)
            if stat.S_ISDIR(found.st_mode):
                os.close(number)
                number = self.tree.opened(name + ASIDE)
                found = os.fstat(number)
            with open(number, "rb", buffering=0) as file:
                if not stat.S_ISREG(found.st_mode):
                    return None
                likely = [facts for facts in choices if not has_length(facts) or found.st_size == length_of(facts)]
                if not likely:
                    return None
                measure = Measure(algorithms_for(likely))
                while piece := file.read(PIECE):
                    measure.take(piece)
                return measure if any(measure.fits(facts) for facts in likely) else None
        except (FileNotFoundError, NotADirectoryError):
            self.absent.add(name)
            return None
        except OSError:
            # (a link, a socket or a device without a driver cannot be opened, and is no file)
            if self.tree.is_file(self.place(name)):
                raise
            return None

    def count(self) -> None:
        """Count the files."""
        self.file_count = sum(len(level.others) for level in self.tree.levels(ASIDE)) if self.is_open else 0

    def names(self) -> Iterator[str]:
        """Return the names of all files except the mirror's own, and the paths of files without a valid name."""
        if not self.is_open:
            return
        for level in self.tree.levels(ASIDE):
            for name in level.others:
                own = level.front + name[:-1]
                is_aside = name.endswith(ASIDE) and name[:-1] in level.folders and is_name(own)
                yield own if is_aside else level.front + name
