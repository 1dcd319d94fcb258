"""The folder of a mirror: the place of every resource, the way to it, and the state.

A name is a path of segments joined by `/`. Its file has that path below the folder, byte for byte as the name is
written, `%` too. If another name lies below a name (`a` and `a/b`), its file has a `#` at its end (`a#` next to `a/b`),
which no name has. `#state` and `#incoming` at the top belong to the mirror: the state, and the files that are being
written. All other files whose names begin with `#` are foreign, and stay.

Every change is the rename of a synced file, so a stop, also a power cut, leaves every file whole. A stop can leave
an empty folder, or a `#` that is not needed: opening a folder removes both. The state is written only after all files
are in their places and synced. No link below the folder is followed (mirror/tree.py).
"""
from __future__ import annotations

import contextlib
import ctypes
import os
import pathlib
import re
import stat
from collections.abc import Callable, Iterable
from typing import IO, TYPE_CHECKING

from ropepeach.cli import output
from ropepeach.cli.files import make_file, replaced
from ropepeach.faults import Unusable
from ropepeach.mirror.contents import ASIDE, Contents
from ropepeach.mirror.folding import check_names
from ropepeach.mirror.state import FRONTS, LONGEST_FRONT, LONGEST_STATE, STATE, State
from ropepeach.mirror.tree import FOLDER, Tree, lock_folder
from ropepeach.resync.filters import Filters

if TYPE_CHECKING:
    import concurrent.futures

INCOMING = "#incoming"
# The name in `#incoming` of one of the mirror's own files, while bodies are there.
OWN = "own"
# The number of files, or of bytes, that are synced together.
BATCH, BATCH_BYTES = 256, 16 << 20


def above_it(name: str) -> list[str]:
    """Return the folders above a name, the outermost first."""
    return [name[: slash.start()] for slash in re.finditer("/", name)]


def sync_all(opened: int) -> None:
    """Sync the file system of an open folder: on Linux this waits for the disk, as fsync of all its files would."""
    if ctypes.CDLL(None, use_errno=True).syncfs(opened):
        raise OSError(ctypes.get_errno(), os.strerror(ctypes.get_errno()))


class Folder(Contents):
    """A folder that one program at a time makes the mirror of one source."""

    def __init__(self, path: str, within: int | None = None, filters: Filters | None = None) -> None:
        """Open the folder at a path, without changes. With `within` it must be a subfolder of that folder, no link."""
        super().__init__()
        self.path, self.within, self.lock = os.path.abspath(path), within, -1
        self.name = self.path if within is None else os.path.basename(self.path)
        self.filters = filters or Filters()
        # The current state, and the one that is written.
        self.state: State | None = None
        self.written_state: State | None = None
        # Whether the folder has no files; whether a run may resume from the state.
        self.is_empty, self.is_usable = True, True
        # Whether this run has repaired the folder after a stop.
        self.is_ready = False
        self.worker: concurrent.futures.ThreadPoolExecutor | None = None
        self.incoming: int | None = None
        # The files that were written since the last sync began, and their bytes; those of that sync; the number of all.
        self.written: list[tuple[str, str]] = []
        self.syncing: list[tuple[str, str]] = []
        self.synced: concurrent.futures.Future[None] | None = None
        self.size = self.number = 0
        with contextlib.suppress(FileNotFoundError):
            self.open()

    @property
    def is_new(self) -> bool:
        """Return whether the folder is no mirror yet, so that it may become the mirror of any source."""
        return self.state is None or (self.is_empty and self.state.until is None)

    @property
    def until(self) -> str | None:
        """Return the moment up to which the source's changes are here, if a run may resume there."""
        return self.state.until if self.state is not None and self.is_usable else None

    def open(self) -> None:
        """Lock the folder, and read its state. Raise FileNotFoundError if it is missing."""
        flags = os.O_RDONLY | os.O_DIRECTORY if self.within is None else FOLDER
        try:
            lock = os.open(self.name, flags, dir_fd=self.within)
        except NotADirectoryError:
            if self.within is None:
                raise
            raise Unusable(f"{self.path}: is a link, or no folder, and a mirror follows no link: "
                           "move it away") from None
        lock_folder(lock, self.path)
        self.lock, self.tree = lock, Tree(self.path, lock)
        self.is_empty = set(os.listdir(lock)) <= {STATE, INCOMING}
        if not self.tree.is_there(STATE):
            if not self.is_empty or not self.is_begun():
                raise Unusable(f"{self.path}: is not empty, and no mirror")
            return
        self.state = self.written_state = self.read_state()

    def is_begun(self) -> bool:
        """Return whether `#incoming` is missing, or the beginning of a first state, which a stop left."""
        found = self.tree.status(INCOMING)
        if found is None:
            return True
        if not stat.S_ISREG(found.st_mode) or found.st_size > LONGEST_FRONT:
            return False
        text = self.tree.read(INCOMING, LONGEST_FRONT)
        return any(text.startswith(front) or front.startswith(text) for front in FRONTS)

    def claim(self, source: str, is_any: bool) -> None:
        """Check that the folder is a mirror of this source, or may become one. Report an unusable state."""
        state = self.state
        if state is None or self.is_new:
            self.state = State(source, None, None, is_any, filters=self.filters.digest())
            return
        if state.source != source or state.is_any != is_any:
            raise Unusable(f"{self.path}: is a mirror of {state.source}")
        has_filters = state.filters == self.filters.digest()
        self.is_usable = has_filters and state.is_true()
        if not state.is_true():
            output.message(f"{self.tree.shown(STATE)}: remembers {state.until} and {state.newest}, which no source "
                           f"may have by now: this run is a baseline")
        if not has_filters:
            output.message(f"{self.path}: the last run had other patterns of --include and --exclude: this run is a "
                           f"baseline")

    def begin(self) -> None:
        """Make the folder if it is missing, and repair it after a stop."""
        state = self.state
        if self.is_ready or state is None:
            return
        if not self.is_open:
            if self.within is None:
                os.makedirs(self.path, exist_ok=True)
            else:
                with contextlib.suppress(FileExistsError):
                    os.mkdir(self.name, dir_fd=self.within)
            self.open()
            if self.state is not None and not self.is_new:
                raise Unusable(f"{self.path}: another run has begun it meanwhile")
            self.state = state
        if self.until is None:
            self.remember(state._replace(until=None, newest=None, mark=None))
        self.put_right()
        try:
            check_names(self.path, self.enter_incoming())
        finally:
            self.drop_incoming()
        self.is_ready = True

    def release_all_but_lock(self) -> None:
        """Release all but the lock."""
        if self.worker is not None:
            self.worker.shutdown()
            self.worker = None
        self.leave_incoming()
        self.tree.back_to(0)

    def close(self) -> None:
        """Remove the files that have no place yet, and release the folder."""
        if self.is_open:
            with contextlib.suppress(OSError, Unusable):
                if self.written or self.syncing or self.incoming is not None:
                    self.drop_incoming()
            self.release_all_but_lock()
            os.close(self.lock)
            self.lock = -1

    def read_state(self) -> State:
        """Return the state that is written."""
        found = State.read(self.tree.read(STATE, LONGEST_STATE))
        if found is None:
            raise Unusable(f"{self.tree.shown(STATE)}: can't be read")
        return found

    def check_room(self, wanted: Callable[[], Iterable[tuple[str, int]]]) -> None:
        """Refuse files of these names and lengths if the file system reports too little room for them."""
        # (a dry run may find no folder)
        parents = pathlib.Path(self.path).absolute().parents
        room = os.fstatvfs(self.lock) if self.is_open else os.statvfs(next(filter(pathlib.Path.exists, parents)))
        if not room.f_blocks:
            return
        free, unit = room.f_bavail * room.f_frsize, room.f_frsize
        if sum(rounded(size, unit) for _, size in wanted()) <= free:
            return
        held = self.length if self.is_open else lambda name: 0
        more = sum(max(0, rounded(size, unit) - rounded(held(name), unit)) for name, size in wanted())
        if more > free:
            raise Unusable(f"{self.path}: has room for {free:,} bytes, and what the source lists takes "
                           f"{more:,} more: nothing was fetched")

    def incoming_file(self) -> tuple[str, int]:
        """Make a file in `#incoming`, and return its name there and its descriptor."""
        path = str(self.number)
        self.number += 1
        return path, make_file(self.enter_incoming(), path)

    def drop(self, path: str) -> None:
        """Remove a file of `#incoming`."""
        with contextlib.suppress(FileNotFoundError):
            os.remove(path, dir_fd=self.enter_incoming())

    def take(self, path: str, name: str, size: int) -> None:
        """Give a name a file of `#incoming` that is closed; `place_all` puts it in its place."""
        self.written.append((path, name))
        self.size += size
        if len(self.written) >= BATCH or self.size >= BATCH_BYTES:
            self.place_synced()

    def enter_incoming(self) -> int:
        """Return the descriptor of `#incoming`, which is made if it is missing."""
        if self.incoming is None:
            if not self.tree.is_there(INCOMING):
                self.tree.make_folder(INCOMING)
            self.incoming = os.dup(self.tree.folder(INCOMING))
        return self.incoming

    def leave_incoming(self) -> None:
        """Close `#incoming`."""
        if self.incoming is not None:
            os.close(self.incoming)
            self.incoming = None

    def place_synced(self) -> None:
        """Put the synced files in their places, and begin to sync the files that were written since."""
        if self.synced is not None:
            self.synced.result()
        synced, self.syncing, self.synced = self.syncing, self.written, None
        self.written, self.size = [], 0
        if self.syncing:
            # (a run without changes does not need it)
            import concurrent.futures

            self.worker = self.worker or concurrent.futures.ThreadPoolExecutor(1)
            self.synced = self.worker.submit(sync_all, self.lock)
        for path, name in synced:
            self.put_in_place(path, name)

    def place_all(self) -> None:
        """Wait until all written files are in their places."""
        while self.written or self.syncing:
            self.place_synced()

    def put_in_place(self, path: str, name: str) -> None:
        """Rename a synced file to the place of its name; rename(2) finds a folder there, or a missing one."""
        try:
            self.tree.take(self.enter_incoming(), path, name)
        except IsADirectoryError:
            self.tree.take(self.enter_incoming(), path, name + ASIDE)
        except (FileNotFoundError, NotADirectoryError):
            self.make_way(name)
            self.tree.take(self.enter_incoming(), path, name)

    def make_way(self, name: str) -> None:
        """Make the folders above a name; a file in the place of one gets a `#`."""
        for above in above_it(name):
            if self.tree.is_file(above):
                self.tree.move(above, above + ASIDE)
            if not self.tree.is_folder(above):
                self.tree.make_folder(above)

    def remove(self, name: str) -> bool:
        """Remove the file of a name and the folders that it leaves empty. Return whether it was there."""
        is_there = self.is_held(name)
        if is_there:
            self.tree.remove(self.place(name))
        for above in reversed(above_it(name)):
            self.drop_empty(above)
        return is_there

    def drop_empty(self, path: str) -> None:
        """Remove a folder if it is empty. The file that got a `#` because of the folder gets its name back."""
        with contextlib.suppress(OSError):
            self.tree.remove_folder(path)
        if self.tree.is_file(path + ASIDE) and not self.tree.is_there(path):
            self.tree.move(path + ASIDE, path)

    def put_right(self) -> None:
        """Repair the folder after a stop, and count its files."""
        self.drop_incoming()
        self.file_count, due = 0, []
        for level in self.tree.levels(ASIDE):
            aside = {name[:-1] for name in level.others if name.endswith(ASIDE)}
            due.append([level.front + name for name in level.folders | aside])
            self.file_count += len(level.others)
        for paths in reversed(due):
            for path in paths:
                self.drop_empty(path)

    def drop_incoming(self) -> None:
        """Remove `#incoming` with its files, for example the file of an interrupted write of the mirror itself."""
        self.leave_incoming()
        if self.tree.is_folder(INCOMING):
            folder = self.tree.folder(INCOMING)
            for name in os.listdir(folder):
                os.remove(name, dir_fd=folder)
            self.tree.remove_folder(INCOMING)
        elif self.tree.is_there(INCOMING):
            self.tree.remove(INCOMING)

    def write_own(self, name: str, write: Callable[[IO[bytes]], object]) -> None:
        """Write a file of the mirror's own under another name, sync it, and put it in its place."""
        if self.incoming is None:
            self.drop_incoming()
            within, fresh = self.lock, INCOMING
        else:
            # (bodies are being written there)
            within, fresh = self.incoming, OWN
            self.drop(fresh)
        with replaced(self.lock, name, fresh, within) as file:
            write(file)

    def write_state(self, state: State) -> None:
        """Write a state."""
        self.write_own(STATE, lambda file: file.write(state.text()))
        self.state = self.written_state = state

    def promise(self, state: State) -> None:
        """Write a state before the run brings its changes: an older source has gone back by the next run."""
        self.write_state(state)

    def remember(self, state: State) -> None:
        """Sync all files, which are in their places, and then write a state."""
        self.drop_incoming()
        sync_all(self.lock)
        self.write_state(state)
        self.is_usable = True


def rounded(size: int, unit: int) -> int:
    """Return the bytes that a file of this size takes of a file system."""
    return -(-size // unit) * unit
