"""Record the system calls of a program on all its files in one list, in order.

The program runs with a preloaded C library (built by `cc`) that notes the calls on files with a relative path or the
path ALSO, the reads of standard input (one line per read), and the writes of standard output. It transfers at most
AT_ONCE bytes per call, makes the call FAILS fail, and ends the program before the call STOPS; calls count from 1. It
passes only the bits READ_BITS and WRITE_BITS of file offsets to the system.
"""
import os
import resource
import signal
import subprocess
from collections.abc import Sequence
from pathlib import Path
from typing import Any, NamedTuple

SHIM = r"""
#define _GNU_SOURCE
#include <errno.h>
#include <fcntl.h>
#include <stdarg.h>
#include <stdio.h>
#include <stdlib.h>
#include <string.h>
#include <sys/stat.h>
#include <sys/syscall.h>
#include <unistd.h>
#define MOST 1024
static char is_ours[MOST];
static long calls = 0, failing = -1, stopping = -1, at_once = 0, read_bits = -1, write_bits = -1;
__attribute__((constructor)) static void begin(void) {
    if (getenv("FAILS")) failing = atol(getenv("FAILS"));
    if (getenv("STOPS")) stopping = atol(getenv("STOPS"));
    if (getenv("READ_BITS")) read_bits = atol(getenv("READ_BITS"));
    if (getenv("WRITE_BITS")) write_bits = atol(getenv("WRITE_BITS"));
    if (getenv("AT_ONCE")) at_once = atol(getenv("AT_ONCE"));
}
static int ours(long fd) { return fd >= 0 && fd < MOST && is_ours[fd]; }
/* A line of the list: the call, its number, its result, and a remark. */
static long noted(const char *call, long fd, long result, long at, long length, const char *more) {
    int error = errno, n;
    char line[5000];
    long log = syscall(SYS_openat, AT_FDCWD, getenv("CALLS"), O_WRONLY | O_CREAT | O_APPEND, 0600);
    n = snprintf(line, sizeof line, "%s %ld %ld %ld %ld %s\n", call, fd, result, at, length, more);
    syscall(SYS_write, log, line, n);
    syscall(SYS_close, log);
    errno = error;
    return result;
}
/* Whether the next call is the one that fails. The program is gone before the one at which it stops. */
static int fails(void) {
    if (++calls == stopping) _exit(0);
    if (calls != failing) return 0;
    errno = EIO;
    return 1;
}
#define NOTED(call, fd, made, at, length) noted(call, fd, fails() ? -1 : (made), at, length, "")
/* A call on a file of ours is noted; every other one is made. */
#define PASSED(call, fd, made, at, length) (ours(fd) ? NOTED(call, fd, made, at, length) : (made))
static int opened(int at, const char *path, int flags, int mode) {
    const char *also = getenv("ALSO"), *how = flags & O_CREAT ? flags & O_EXCL ? "make" : "create" : "open";
    if (path[0] == '/' && !(also && !strcmp(also, path))) return syscall(SYS_openat, at, path, flags, mode);
    long fd = fails() ? -1 : syscall(SYS_openat, at, path, flags, mode);
    if (fd >= 0 && fd < MOST) is_ours[fd] = 1;
    return noted(how, fd, fd, 0, 0, path);
}
#define MODE(after) va_list more; va_start(more, after); int mode = va_arg(more, int); va_end(more)
int open(const char *path, int flags, ...) { MODE(flags); return opened(AT_FDCWD, path, flags, mode); }
int open64(const char *path, int flags, ...) { MODE(flags); return opened(AT_FDCWD, path, flags, mode); }
int openat(int at, const char *path, int flags, ...) { MODE(flags); return opened(at, path, flags, mode); }
int openat64(int at, const char *path, int flags, ...) { MODE(flags); return opened(at, path, flags, mode); }
int close(int fd) {
    if (!ours(fd)) return syscall(SYS_close, fd);
    is_ours[fd] = 0;
    calls++;
    return noted("close", fd, syscall(SYS_close, fd), 0, 0, "");
}
static int fcntl_of(int fd, int command, long to) {
    long result = syscall(SYS_fcntl, fd, command, to);
    if (!ours(fd) || (command != F_DUPFD_CLOEXEC && command != F_DUPFD)) return result;
    if (result >= 0 && result < MOST) is_ours[result] = 1;
    calls++;
    return noted("copy", fd, result, 0, 0, "");
}
#define TO va_list more; va_start(more, command); long to = va_arg(more, long); va_end(more)
int fcntl(int fd, int command, ...) { TO; return fcntl_of(fd, command, to); }
int fcntl64(int fd, int command, ...) { TO; return fcntl_of(fd, command, to); }
int fsync(int fd) { return PASSED("sync", fd, syscall(SYS_fsync, fd), 0, 0); }
int fdatasync(int fd) { return PASSED("datasync", fd, syscall(SYS_fdatasync, fd), 0, 0); }
int syncfs(int fd) { return PASSED("syncfs", fd, syscall(SYS_syncfs, fd), 0, 0); }
int statx(int fd, const char *path, int flags, unsigned mask, struct statx *to) {
    return PASSED("measure", fd, syscall(SYS_statx, fd, path, flags, mask, to), 0, 0);
}
off_t lseek(int fd, off_t at, int whence) { return PASSED("seek", fd, syscall(SYS_lseek, fd, at, whence), at, whence); }
off_t lseek64(int fd, off_t at, int whence) { return lseek(fd, at, whence); }
int flock(int fd, int how) { return PASSED("lock", fd, syscall(SYS_flock, fd, how), how, 0); }
int ftruncate(int fd, off_t n) { return PASSED("length", fd, syscall(SYS_ftruncate, fd, n), n, 0); }
int ftruncate64(int fd, off_t n) { return ftruncate(fd, n); }
int fallocate(int fd, int mode, off_t at, off_t n) {
    return PASSED("room", fd, syscall(SYS_fallocate, fd, mode, at, n), at, n);
}
int posix_fallocate(int fd, off_t at, off_t n) {
    return PASSED("room", fd, syscall(SYS_fallocate, fd, 0, at, n), at, n) ? errno : 0;
}
/* This call answers its error. */
int posix_fadvise(int fd, off_t at, off_t n, int advice) {
    int result = ours(fd) && fails() ? EIO : syscall(SYS_fadvise64, fd, at, n, advice);
    char text[20];
    snprintf(text, sizeof text, "%d", advice);
    if (ours(fd)) noted("advise", fd, -result, at, n, text);
    return result;
}
int posix_fadvise64(int fd, off_t at, off_t n, int advice) { return posix_fadvise(fd, at, n, advice); }
static size_t part(size_t n) { return at_once && n > at_once ? at_once : n; }
ssize_t pread(int fd, void *to, size_t n, off_t at) {
    return PASSED("read", fd, syscall(SYS_pread64, fd, to, part(n), at & read_bits), at, n);
}
ssize_t pread64(int fd, void *to, size_t n, off_t at) { return pread(fd, to, n, at); }
ssize_t pwrite(int fd, const void *from, size_t n, off_t at) {
    return PASSED("write", fd, syscall(SYS_pwrite64, fd, from, part(n), at & write_bits), at, n);
}
ssize_t pwrite64(int fd, const void *from, size_t n, off_t at) { return pwrite(fd, from, n, at); }
ssize_t write(int fd, const void *from, size_t n) {
    /* Who reads an answer finds it noted. */
    if (fd == 1 && !ours(fd)) { calls++; noted("answer", 1, n, 0, n, ""); }
    return PASSED("write_on", fd, syscall(SYS_write, fd, from, n), 0, n);
}
/* The next byte of standard input, which is read ahead, or -1 at its end. */
static int next_byte(void) {
    static unsigned char ahead[65536];
    static ssize_t has = 0, given = 0;
    if (given == has) has = syscall(SYS_read, 0, ahead, sizeof ahead), given = 0;
    return has > 0 ? ahead[given++] : (has = 0, -1);
}
ssize_t read(int fd, void *to, size_t n) {
    char *line = to;
    size_t came = 0;
    int byte;
    if (fd != 0 || ours(fd)) return PASSED("read_on", fd, syscall(SYS_read, fd, to, n), 0, n);
    while (came < n && (came == 0 || line[came - 1] != '\n') && (byte = next_byte()) >= 0) line[came++] = byte;
    /* A line may come in parts, of which the last one is noted. */
    if (came < n || line[n - 1] == '\n') { calls++; noted("line", 0, came, 0, n, ""); }
    return came;
}
"""


class Call(NamedTuple):
    """A call: its name, the path of its file, its other arguments, its result, and the file descriptor."""

    name: str
    path: str
    words: str
    result: int
    fd: int


class Outcome(NamedTuple):
    """The exit status and output of a run, and its calls."""

    status: int
    output: bytes
    error: bytes
    calls: list[Call]


# The names of calls with an offset and a length, and of calls with one number.
PLACED, TOLD = ("read", "write", "room"), ("lock", "length")


def calls_of(text: str) -> list[Call]:
    """Return the calls of a log, in their order."""
    paths, found = {0: "input", 1: "output"}, list[Call]()
    for line in text.splitlines():
        name, fd, result, at, length, more = line.split(" ", 5)
        number, value = int(fd), int(result)
        path = more if name in ("make", "create", "open") else paths.get(number, "")
        fields: dict[str, list[str]] = {"advise": [at, length, more]}
        fields |= dict.fromkeys(PLACED, [at, length]) | dict.fromkeys(TOLD, [at])
        found.append(Call(name, path, " ".join(fields.get(name, [])), value, number))
        if value >= 0 and name in ("make", "create", "open", "copy"):
            paths[value] = path
    return found


def texts(calls: list[Call]) -> list[str]:
    """Return a text for every call, for example `write source.disk 1024 86`.

    A read of input is `line`; all writes of one answer are one `answer`.
    """
    found = list[str]()
    for call in calls:
        text = call.name if call.name in ("line", "answer") else f"{call.name} {call.path} {call.words}".rstrip()
        text += " fails" if call.result < 0 else ""
        if text != "answer" or found[-1:] != ["answer"]:
            found.append(text)
    return found


class Room:
    """A folder to run a program in."""

    def __init__(self, program: str, folder: str | Path) -> None:
        self.program, self.folder, self.runs = program, Path(folder), 0
        source, self.shim = self.folder / "shim.c", self.folder / "shim.so"
        source.write_text(SHIM)
        subprocess.run(["cc", "-O1", "-shared", "-fPIC", "-o", self.shim, source], check=True)

    def environment(self, **settings: object) -> dict[str, str]:
        """Empty the record; return the environment in which the library notes calls, with these settings."""
        log = self.folder / "calls"
        log.unlink(missing_ok=True)
        self.runs += 1
        variables: dict[str, object] = {"LD_PRELOAD": self.shim, "CALLS": log, **settings}
        return {**os.environ, **{name: str(value) for name, value in variables.items()}}

    def noted(self) -> list[Call]:
        """Return the recorded calls so far."""
        log = self.folder / "calls"
        return calls_of(log.read_text() if log.exists() else "")

    def run(self, words: Sequence[str], script: bytes = b"", closed: Any = (), limit: Any = None,
            **settings: object) -> Outcome:
        """Run the program; return the outcome and the calls.

        The streams with the numbers in `closed` are closed, and the longest possible file has `limit` bytes.
        """
        env = self.environment(**settings)

        def begin() -> None:
            signal.signal(signal.SIGXFSZ, signal.SIG_IGN)
            if limit is not None:
                resource.setrlimit(resource.RLIMIT_FSIZE, (limit, limit))
            for fd in closed:
                os.close(fd)

        how: dict[str, Any] = {"stdout": subprocess.PIPE, "stderr": subprocess.PIPE, "env": env, "cwd": self.folder,
               "preexec_fn": begin}
        finished = subprocess.run([self.program, *words], input=script, **how)
        return Outcome(finished.returncode, finished.stdout, finished.stderr, self.noted())

    def content(self, name: str = "source.disk") -> bytes:
        """Return the bytes of a file, empty if it is missing."""
        path = self.folder / name
        return path.read_bytes() if path.exists() else b""

    def put(self, data: bytes | bytearray, name: str = "source.disk") -> None:
        """Write a file."""
        (self.folder / name).write_bytes(data)

    def clear(self, name: str = "source.disk") -> None:
        """Remove a file."""
        (self.folder / name).unlink(missing_ok=True)
