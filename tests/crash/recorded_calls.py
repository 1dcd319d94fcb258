"""Record the calls by which a program changes a file, in order and between its answers.

The program runs with a preloaded C library (built by `cc`) that notes every write to the file with its offset and
bytes, every sync, every change of its length, and all bytes written to standard output. The program receives a line of
its script only after the answer to the previous line.
"""
import os
import subprocess
import threading
from collections.abc import Iterable, Sequence
from pathlib import Path
from typing import Any, NamedTuple

# The longest session, in seconds.
SECONDS = 120
WRITE, SYNC, LENGTH, ANSWER = "write", "sync", "length", "answer"


class Call(NamedTuple):
    """A successful call: `at` is a write's offset or the file's new length, `data` the written or answered bytes."""

    kind: str
    at: int
    data: bytes


NOTES = r"""
#define _GNU_SOURCE
#include <errno.h>
#include <fcntl.h>
#include <stdio.h>
#include <stdlib.h>
#include <sys/stat.h>
#include <sys/syscall.h>
#include <unistd.h>
static int is_disk(int fd) {
    struct stat here, disk;
    int error = errno, is = fstat(fd, &here) == 0 && stat(getenv("DISK"), &disk) == 0;
    errno = error;
    return is && here.st_dev == disk.st_dev && here.st_ino == disk.st_ino;
}
static void note(const char *kind, long at, const void *bytes, long length) {
    int error = errno;
    char line[100];
    long log = syscall(SYS_openat, AT_FDCWD, getenv("CALLS"), O_WRONLY | O_CREAT | O_APPEND, 0600);
    syscall(SYS_write, log, line, snprintf(line, sizeof line, "%s %ld %ld\n", kind, at, length));
    syscall(SYS_write, log, bytes, length);
    syscall(SYS_close, log);
    errno = error;
}
ssize_t pwrite(int fd, const void *from, size_t n, off_t at) {
    ssize_t done = syscall(SYS_pwrite64, fd, from, n, at);
    if (done > 0 && is_disk(fd)) note("write", at, from, done);
    return done;
}
ssize_t pwrite64(int fd, const void *from, size_t n, off_t at) { return pwrite(fd, from, n, at); }
ssize_t write(int fd, const void *from, size_t n) {
    if (fd == 1) note("answer", 0, from, n);
    return syscall(SYS_write, fd, from, n);
}
static int synced(int fd, int result) {
    if (result == 0 && is_disk(fd)) note("sync", 0, "", 0);
    return result;
}
int fsync(int fd) { return synced(fd, syscall(SYS_fsync, fd)); }
int fdatasync(int fd) { return synced(fd, syscall(SYS_fdatasync, fd)); }
int ftruncate(int fd, off_t length) {
    int result = syscall(SYS_ftruncate, fd, length);
    if (result == 0 && is_disk(fd)) note("length", length, "", 0);
    return result;
}
int ftruncate64(int fd, off_t length) { return ftruncate(fd, length); }
"""


class Unrecorded(Exception):
    """The program made a call that the record cannot hold, or gave a wrong answer."""


class Recorder:
    """Runs a program on the file `source.disk` in its own folder, and records its calls."""

    def __init__(self, program: str, room: str | Path) -> None:
        self.program, self.room = program, Path(room)
        self.disk, self.log = self.room / "source.disk", self.room / "calls"
        source, self.library = self.room / "notes.c", self.room / "notes.so"
        source.write_text(NOTES)
        words = ["cc", "-O1", "-shared", "-fPIC", "-o", str(self.library), str(source)]
        subprocess.run(words, check=True)

    def format(self, size: int, base: str, limit: int) -> list[Call]:
        """Format a new file; return the calls."""
        self.disk.unlink(missing_ok=True)
        words = ["format", "source.disk", str(size), base, str(limit)]
        return self.record(words, b"", [], [f"formatted {size}"])

    def run(self, before: bytes, lines: Sequence[str], answers: Sequence[str]) -> list[Call]:
        """Run these lines on a disk, check the answers, and return the calls."""
        self.disk.write_bytes(before)
        return self.record(["run", "source.disk"], before, lines, answers)

    def record(self, words: list[str], before: bytes, lines: Sequence[str], answers: Sequence[str]) -> list[Call]:
        """Run the program with these arguments and lines, check the answers, and return the calls."""
        self.log.unlink(missing_ok=True)
        paths = {"LD_PRELOAD": self.library, "CALLS": self.log, "DISK": self.disk}
        names = {**os.environ, **{name: str(path) for name, path in paths.items()}}
        how: dict[str, Any] = {"cwd": self.room, "env": names, "stdin": subprocess.PIPE, "stdout": subprocess.PIPE}
        with subprocess.Popen([self.program, *words], **how) as process:
            watch = threading.Timer(SECONDS, process.kill)
            watch.daemon = True
            watch.start()
            output = b"".join([ask(process, line) for line in lines] + [process.communicate()[0]])
            watch.cancel()
        calls = calls_of(self.log.read_bytes() if self.log.exists() else b"")
        wanted = "".join(answer + "\n" for answer in answers).encode()
        if process.returncode or output != wanted:
            found = f"status {process.returncode}, answered {output!r}, and not {wanted!r}"
            raise Unrecorded(f"{words}: {found}")
        if b"".join(call.data for call in calls if call.kind == ANSWER) != output:
            raise Unrecorded(f"{words}: an answer is not in the record")
        if replayed(before, calls) != self.disk.read_bytes():
            raise Unrecorded(f"{words}: the file is not what the recorded writes make it")
        return calls


def ask(process: subprocess.Popen[bytes], line: str) -> bytes:
    """Return the answer to one line; it is empty if the program has ended."""
    assert process.stdin and process.stdout
    try:
        process.stdin.write(line.encode() + b"\n")
        process.stdin.flush()
    except BrokenPipeError:
        return b""
    return process.stdout.readline()


def calls_of(log: bytes) -> list[Call]:
    """Return the calls of a log."""
    calls, at = list[Call](), 0
    while at < len(log):
        end = log.index(b"\n", at) + 1
        kind, place, length = log[at:end].split()
        calls.append(Call(kind.decode(), int(place), log[end : end + int(length)]))
        at = end + int(length)
    return calls


def over(disk: bytes, writes: Iterable[tuple[int, bytes]]) -> bytes:
    """Return a disk after these writes, in order."""
    found = bytearray(disk)
    for at, data in writes:
        found[at : at + len(data)] = data
    return bytes(found)


def replayed(disk: bytes, calls: Iterable[Call]) -> bytes:
    """Return the bytes that a read gives after these calls."""
    for call in calls:
        if call.kind == LENGTH:
            disk = disk[: call.at].ljust(call.at, b"\0")
        elif call.kind == WRITE:
            disk = over(disk, [(call.at, call.data)])
    return disk
