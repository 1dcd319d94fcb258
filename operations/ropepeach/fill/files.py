"""The files of a folder as resources: their names in order, their media types, and their bytes as one version."""
from __future__ import annotations

import contextlib
import os
import re
import stat
import struct
import time
import urllib.parse
from collections.abc import Callable, Iterable, Iterator
from typing import NamedTuple

from ropepeach.disk.formula import LONGEST_BODY, LONGEST_NAME
from ropepeach.faults import Fault, Misused, Unusable
from ropepeach.mirror.tree import Linked, Tree
from ropepeach.resync.filters import Filters

Order = Callable[[Iterable[str]], Iterable[str]]

# The characters that a path has unquoted, next to letters and digits (RFC 3986, section 3.3).
UNQUOTED = "-._~!$&'()*+,;=:@/"
UNQUOTED_PATH = re.compile(rf"[A-Za-z0-9{re.escape(UNQUOTED)}]*")
UNKNOWN = "application/octet-stream"
TOKEN = r"[A-Za-z0-9!#$%&'*+.^_`|~-]+"
MEDIA_TYPE = rf"(?=.{{3,100}}\Z){TOKEN}/{TOKEN}(?:[ -~]*[!-~])?"
# A file that changed less than YOUNG seconds ago is read again, MOST_READINGS times at most.
YOUNG, MOST_READINGS = 1.0, 3
# The clock of a file system may pause for this many nanoseconds: a file that changed less than that before it
# was read may change once more without a new time. (FAT counts in units of 2 seconds.)
GRAIN = 2_000_000_000
# The four numbers of a stamp. The inode is unsigned in stat(2), and signed in SQLite.
UNSIGNED, SIGNED, LATEST = struct.Struct("=qqqQ"), struct.Struct("=4q"), (1 << 63) - 1


class Unfit(Exception):
    """The reason why a file cannot be a resource now."""


class Unlawful(Unfit):
    """The reason why a file cannot be a resource, however often the run is repeated."""


class Stamp(NamedTuple):
    """The fields of stat(2) that change with the bytes of a file. Times are in nanoseconds."""

    size: int
    mtime: int
    ctime: int
    inode: int

    def is_settled(self, moment: int) -> bool:
        """Return whether a later change of the file has later times, if the file was read from this moment on."""
        return max(self.mtime, self.ctime) + GRAIN <= moment


def packed_stamp(status: os.stat_result) -> bytes:
    """Return the numbers of a stamp in 32 bytes. A time that does not fit becomes the latest, never settled one."""
    try:
        return UNSIGNED.pack(status.st_size, status.st_mtime_ns, status.st_ctime_ns, status.st_ino)
    except struct.error:
        return UNSIGNED.pack(status.st_size, LATEST, LATEST, status.st_ino)


def stamps_in(packed: bytes | bytearray) -> Iterator[Stamp]:
    """Yield the stamps that were packed one after another."""
    return map(Stamp._make, SIGNED.iter_unpack(packed))


def stamp_of(status: os.stat_result) -> Stamp:
    """Return the stamp of a file."""
    return next(stamps_in(packed_stamp(status)))


class FileReading(NamedTuple):
    """The bytes of a file, whether it was unchanged meanwhile, its stamp, and the moment before, in nanoseconds."""

    body: bytes
    is_still: bool
    stamp: Stamp
    moment: int


def path_of(name: str) -> str:
    """Return the path, below the folder, of the file that has a name."""
    return os.fsdecode(urllib.parse.unquote_to_bytes(name)) if "%" in name else name


def shown_path(path: str) -> str:
    """Return a path on one line of printable characters."""
    text = os.fsencode(path).decode("utf-8", "backslashreplace")
    return "".join(character if character.isprintable() else character.encode("unicode_escape").decode()
                   for character in text)


def check_lawful(status: os.stat_result) -> None:
    """Refuse a file that cannot be a resource."""
    if not stat.S_ISREG(status.st_mode):
        raise Unlawful("it is no regular file")
    if status.st_size > LONGEST_BODY:
        raise Unlawful(f"it has more than {LONGEST_BODY:,} bytes")


class Files:
    """The files of a folder by name, opened through their parent folders, so that no link leads out of the folder."""

    def __init__(self, folder: str, is_following: bool = False, filters: Filters | None = None) -> None:
        """Open a folder, whose filters exclude files. With `is_following`, links to files within it are followed."""
        self.folder, self.is_following, self.filters = folder, is_following, filters or Filters()
        try:
            self.tree = Tree(folder, os.open(folder, os.O_RDONLY | os.O_DIRECTORY))
        except OSError as fault:
            raise Unusable(f"a folder cannot be listed: {shown_path(folder)}: {fault.strerror}") from None

    def entries(self, front: str = "") -> list[str]:
        """Return the entries of a folder, in no order: the last segments of their names, with a `/` after a folder."""
        path, rules = path_of(front).rstrip("/"), self.filters.rules
        try:
            entries = [name + "/" if is_folder else name for name, is_folder in self.tree.listed(path)
                       if not rules or self.filters.has_entry(os.path.join(path, name), is_folder)]
        except (OSError, Linked) as fault:
            why = fault.strerror if isinstance(fault, OSError) else "it is a link by now"
            raise Fault(f"a folder cannot be listed: {shown_path(os.path.join(self.folder, path))}: {why}") from None
        # (one look at all of them is faster)
        if UNQUOTED_PATH.fullmatch("".join(entries)):
            return entries
        return [urllib.parse.quote(os.fsencode(entry), safe=UNQUOTED) for entry in entries]

    def names(self, order: Order = sorted) -> Iterator[str]:
        """Yield the names of all entries that are no folders, in the order of their bytes, or in the given order."""
        return self.names_of(self.entries(), order)

    def names_of(self, entries: Iterable[str], order: Order = sorted) -> Iterator[str]:
        """Yield the names of some top entries, and of all entries below them. A folder without a short enough name is
        one entry.
        """
        due = [("", iter(order(entries)))]
        del entries
        while due:
            front, rest = due[-1]
            for entry in rest:
                if entry.endswith("/") and len(front + entry) < LONGEST_NAME:
                    due.append((front + entry, iter(order(self.entries(front + entry)))))
                    break
                yield front + entry
            else:
                due.pop()

    def scan(self, names: Iterable[str]) -> tuple[list[str], bytearray, dict[str, Unfit]]:
        """Return the names of files that can be resources, their packed stamps, and the reasons of other files."""
        found, packed, unfit = list[str](), bytearray(), dict[str, Unfit]()
        for name in names:
            try:
                packed += packed_stamp(self.status(name))
                found.append(name)
            except Unfit as why:
                unfit[name] = why
        return found, packed, unfit

    def status(self, name: str) -> os.stat_result:
        """Return the status of a file that can be a resource."""
        if name.endswith("/"):
            raise Unlawful(f"what it holds has names of more than {LONGEST_NAME} bytes")
        if len(name) > LONGEST_NAME:
            raise Unlawful(f"its name has {len(name)} bytes, more than {LONGEST_NAME}")
        path = path_of(name)
        front, _, last = path.rpartition("/")
        try:
            status = os.stat(last, dir_fd=self.tree.folder(front), follow_symlinks=False)
            if stat.S_ISLNK(status.st_mode):
                status = self.status_at(self.end_of(path))
        except (Linked, OSError) as fault:
            raise unfit_by(fault) from None
        check_lawful(status)
        return status

    def check_readable(self, name: str) -> None:
        """Refuse a file that this user may not read."""
        with unfit():
            above, last = self.tree.parted(self.followed(name))
            if not os.access(last, os.R_OK, dir_fd=above):
                raise Unfit("it cannot be read: Permission denied")

    def status_at(self, path: str) -> os.stat_result:
        """Return the status of a path, and not that of the file that a link leads to."""
        above, last = self.tree.parted(path)
        return os.stat(last, dir_fd=above, follow_symlinks=False)

    def followed(self, name: str) -> str:
        """Return the path of a file, or that of the file within the folder that a link leads to."""
        path = path_of(name)
        return self.end_of(path) if stat.S_ISLNK(self.status_at(path).st_mode) else path

    def end_of(self, path: str) -> str:
        """Return the path of the file within the folder that a link leads to."""
        if not self.is_following:
            raise Unlawful("it is a link, and is not followed (--links follows those that end inside FOLDER)")
        top, end = os.path.realpath(self.folder), os.path.realpath(os.path.join(self.folder, path))
        if os.path.commonpath([top, end]) != top or top == end:
            raise Unlawful("it is a link that leads out of FOLDER")
        return os.path.relpath(end, top)

    def read(self, name: str) -> FileReading:
        """Read a file, and note whether it stays unchanged meanwhile."""
        moment = time.time_ns()
        with unfit(), open(self.tree.opened(self.followed(name)), "rb") as file:
            before = os.fstat(file.fileno())
            check_lawful(before)
            body = file.read(LONGEST_BODY + 1)
            after = os.fstat(file.fileno())
        check_lawful(after)
        is_young = 0 <= time.time() - after.st_mtime < YOUNG
        is_same = stamp_of(before) == stamp_of(after) and len(body) == after.st_size
        return FileReading(body, is_same and not is_young, stamp_of(after), moment)

    def read_unchanged(self, name: str) -> FileReading:
        """Read a file until it does not change meanwhile, so that all bytes are of one version."""
        for _ in range(MOST_READINGS):
            reading = self.read(name)
            if reading.is_still:
                return reading
            time.sleep(YOUNG)
        raise Unfit("it changes while it is read, and is left for the next run")


@contextlib.contextmanager
def unfit() -> Iterator[None]:
    """Turn an error of the system into the reason why a file cannot be a resource."""
    try:
        yield
    except (Linked, OSError) as fault:
        raise unfit_by(fault) from None


def unfit_by(fault: Exception) -> Unfit:
    """Return the reason why a file cannot be a resource, for an error of the system."""
    if isinstance(fault, OSError):
        return Unfit(f"it cannot be read: {fault.strerror}")
    return Unlawful("it lies below a link")


class Kinds:
    """The media types of names: by the patterns of a file, otherwise by the ending of the name."""

    def __init__(self, path: str | None = None) -> None:
        """Read lines of a pattern and a type, such as `data/* text/csv`; `#` begins a comment."""
        self.patterns: list[tuple[re.Pattern[str], str]] = []
        for number, line in enumerate(text_lines(path) if path else [], 1):
            pattern, _, kind = line.strip().partition(" ")
            if pattern and not pattern.startswith("#"):
                if not re.fullmatch(MEDIA_TYPE, kind.strip()):
                    raise Misused(f"{path}: line {number} is no pattern and media type, as data/* text/csv is")
                # (few runs have patterns)
                import fnmatch

                self.patterns.append((re.compile(fnmatch.translate(pattern)), kind.strip()))

    def given_to(self, name: str) -> str:
        """Return the type that a pattern gives to a name, or an empty text."""
        return next((kind for pattern, kind in self.patterns if pattern.fullmatch(name)), "") if self.patterns else ""

    def of(self, name: str) -> str:
        """Return the type of a name. A compressed file does not have the type of its content."""
        # (a run without new files needs no types)
        import mimetypes

        # (after `./` the text cannot have a URL scheme)
        last = urllib.parse.unquote(name, errors="replace").rpartition("/")[2]
        kind, coding = mimetypes.guess_type("./" + last)
        return self.given_to(name) or (kind if kind and not coding else UNKNOWN)


def text_lines(path: str) -> list[str]:
    """Return the lines of a text file."""
    try:
        with open(path, encoding="utf-8") as file:
            return file.read().splitlines()
    except OSError as fault:
        raise Unusable(f"{path}: cannot be read: {fault.strerror}") from None
    except ValueError as fault:
        raise Misused(f"{path}: cannot be read: {fault}") from None
