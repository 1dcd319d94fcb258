"""The tested file systems, and the programs and settings that must lose acknowledged commands."""
import subprocess
from typing import NamedTuple


class Kind(NamedTuple):
    """A file system: its name, the size of its device in bytes, the command that makes it, its mount options, and the
    sector size in bytes at which a power cut tears writes.
    """

    system: str
    size: int
    make: list[str]
    options: str
    sector: int


# Fill all tables at once, so that the file system itself writes little. There is room for a second superblock.
EXT4 = ["mkfs.ext4", "-q", "-b", "4096", "-N", "1024", "-J", "size=4", "-E", "lazy_itable_init=0,lazy_journal_init=0"]
FAST = ["-O", "fast_commit"]
XFS, BTRFS = ["mkfs.xfs", "-q"], ["mkfs.btrfs", "-q"]
# The file systems that must keep the promise.
KINDS = {
    "ext4": Kind("ext4", 192 << 20, EXT4, "data=ordered", 512),
    "ext4-writeback": Kind("ext4", 192 << 20, EXT4, "data=writeback", 512),
    "ext4-journal": Kind("ext4", 192 << 20, EXT4, "data=journal", 512),
    "xfs": Kind("xfs", 300 << 20, XFS, "", 512),
    "btrfs": Kind("btrfs", 128 << 20, BTRFS, "", 512),
    "ext4-4096": Kind("ext4", 192 << 20, EXT4, "", 4096),
    "xfs-4096": Kind("xfs", 300 << 20, [*XFS, "-s", "size=4096"], "", 4096),
    "btrfs-4096": Kind("btrfs", 128 << 20, BTRFS, "", 4096),
}
# Settings of ext4 other than the defaults.
SETTINGS = {
    "ext4-fast-commit": Kind("ext4", 192 << 20, EXT4 + FAST, "", 512),
    "ext4-async-commit": Kind("ext4", 192 << 20, EXT4, "data=writeback,journal_async_commit", 512),
}
# Settings that send no flush to the device.
WITHOUT_BARRIERS = {
    "ext4": Kind("ext4", 192 << 20, EXT4, "barrier=0", 512),
    "btrfs": Kind("btrfs", 128 << 20, BTRFS, "nobarrier", 512),
}
# A library whose `fsync` does nothing, and one whose `fsync` does nothing after the write that opens a gate.
NO_SYNC = "int fsync(int fd) { return 0; }\nint fdatasync(int fd) { return 0; }\n"
NO_LAST_SYNC = r"""
#define _GNU_SOURCE
#include <sys/syscall.h>
#include <unistd.h>
static int is_opened = 0;
ssize_t pwrite64(int fd, const void *from, size_t n, off_t at) {
    is_opened = n == 1 && *(const char *)from == 1 && (at == 0 || at == 512);
    return syscall(SYS_pwrite64, fd, from, n, at);
}
ssize_t pwrite(int fd, const void *from, size_t n, off_t at) { return pwrite64(fd, from, n, at); }
int fsync(int fd) {
    int is_last = is_opened;
    is_opened = 0;
    return is_last ? 0 : syscall(SYS_fsync, fd);
}
"""


class Control(NamedTuple):
    """A fault that loses commands: its description, the file systems that show it, a preloaded library, and the number
    of writes that the device caches although it answers flushes.
    """

    title: str
    kinds: dict[str, Kind]
    library: str | None
    cache: int | None


# (a caching device and a system without flushes get a small device)
CACHE = 64
CONTROLS = {
    "no-sync": Control("a program whose fsync does nothing", KINDS, NO_SYNC, None),
    "no-last-sync": Control("a program that leaves out its last sync alone", KINDS, NO_LAST_SYNC, None),
    "no-barriers": Control("a file system that sends no flush", WITHOUT_BARRIERS, None, CACHE),
    "hidden-cache": Control("a device that hides its cache", KINDS, None, CACHE),
}


def made(kind: Kind, path: str) -> str:
    """Make a file with a new file system of a kind; return its path."""
    with open(path, "wb") as file:
        file.truncate(kind.size)
    subprocess.run([*kind.make, path], check=True, capture_output=True)
    return path
