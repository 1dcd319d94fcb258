"""Record the system calls by which `ropepeach mirror` changes a folder, in order.

The command runs with a C library (built by `cc`) that records every call on a path below FOLDER. It writes at most
AT_ONCE bytes per call, makes a sync of the file system last SLOW microseconds longer, and fails call FAILS, counted
from 1, with the error ERROR.
"""
from __future__ import annotations

import os
import pathlib
import subprocess
from collections.abc import Sequence
from typing import NamedTuple

from operations.tests import PYTHON
from operations.tests.mirror.mirrors import DIRECT
from tests.program import TOOLS, interposed

SECONDS = 60
SHIM = r"""
#define _GNU_SOURCE
#include <errno.h>
#include <fcntl.h>
#include <stdarg.h>
#include <stdio.h>
#include <stdlib.h>
#include <string.h>
#include <sys/syscall.h>
#include <unistd.h>
static long calls = 0, failing = -1, error = EIO, at_once = 0;
static const char *folder;
__attribute__((constructor)) static void begin(void) {
    folder = getenv("FOLDER");
    if (getenv("FAILS")) failing = atol(getenv("FAILS"));
    if (getenv("ERROR")) error = atol(getenv("ERROR"));
    if (getenv("AT_ONCE")) at_once = atol(getenv("AT_ONCE"));
}
static int ours(const char *path) { return folder && !strncmp(path, folder, strlen(folder)); }
static const char *path_of(int fd, char *into) {
    char link[64];
    snprintf(link, sizeof link, "/proc/self/fd/%d", fd);
    long length = syscall(SYS_readlinkat, AT_FDCWD, link, into, 4000);
    into[length > 0 ? length : 0] = 0;
    return into;
}
/* Whether a call fails, and a line of the list: the call, whether it failed, and one path or two. */
static int fails(const char *call, const char *path, const char *to) {
    char line[9000];
    int is_failing = ++calls == failing;
    int n = snprintf(line, sizeof line, "%s\t%d\t%s\t%s\n", call, is_failing, path, to);
    long log = syscall(SYS_openat, AT_FDCWD, getenv("CALLS"), O_WRONLY | O_CREAT | O_APPEND, 0600);
    syscall(SYS_write, log, line, n);
    syscall(SYS_close, log);
    errno = error;
    return is_failing;
}
/* The whole path of one below an open folder. */
static const char *whole(int at, const char *path, char *into) {
    if (at == AT_FDCWD || path[0] == '/') return path;
    strcat(strcat((char *) path_of(at, into), "/"), path);
    return into;
}
#define ON_FILE(call, fd, made) char path[4096]; return ours(path_of(fd, path)) && fails(call, path, "") ? -1 : (made)
#define ON_PATH(call, path, to, made) return ours(path) && fails(call, path, to) ? -1 : (made)
static int opened(int at, const char *path, int flags, int mode) {
    char from[9000];
    if (flags & (O_CREAT | O_TRUNC) && ours(whole(at, path, from)) && fails("make", whole(at, path, from), ""))
        return -1;
    return syscall(SYS_openat, at, path, flags, mode);
}
#define MODE(after) va_list more; va_start(more, after); int mode = va_arg(more, int); va_end(more)
int open(const char *path, int flags, ...) { MODE(flags); return opened(AT_FDCWD, path, flags, mode); }
int open64(const char *path, int flags, ...) { MODE(flags); return opened(AT_FDCWD, path, flags, mode); }
int openat(int at, const char *path, int flags, ...) { MODE(flags); return opened(at, path, flags, mode); }
int openat64(int at, const char *path, int flags, ...) { MODE(flags); return opened(at, path, flags, mode); }
ssize_t write(int fd, const void *from, size_t n) {
    char path[4096];
    if (!ours(path_of(fd, path))) return syscall(SYS_write, fd, from, n);
    return fails("write", path, "") ? -1 : syscall(SYS_write, fd, from, at_once && n > at_once ? at_once : n);
}
int fsync(int fd) { ON_FILE("fsync", fd, syscall(SYS_fsync, fd)); }
int fdatasync(int fd) { ON_FILE("fsync", fd, syscall(SYS_fdatasync, fd)); }
/* A sync of all has a second line when it is done, which is not counted. */
int syncfs(int fd) {
    char path[4096];
    if (fails("syncfs", path_of(fd, path), "")) return -1;
    usleep(getenv("SLOW") ? atoi(getenv("SLOW")) : 0);
    int result = syscall(SYS_syncfs, fd);
    calls--;
    fails("synced", path, "");
    return result;
}
int renameat(int at, const char *from, int beside, const char *to) {
    char one[9000], two[9000];
    ON_PATH("rename", whole(at, from, one), whole(beside, to, two), syscall(SYS_renameat, at, from, beside, to));
}
int rename(const char *from, const char *to) { return renameat(AT_FDCWD, from, AT_FDCWD, to); }
int mkdirat(int at, const char *path, mode_t mode) {
    char one[9000];
    ON_PATH("mkdir", whole(at, path, one), "", syscall(SYS_mkdirat, at, path, mode));
}
int mkdir(const char *path, mode_t mode) { return mkdirat(AT_FDCWD, path, mode); }
int unlinkat(int at, const char *path, int flags) {
    char one[9000];
    ON_PATH(flags & AT_REMOVEDIR ? "rmdir" : "unlink", whole(at, path, one), "",
            syscall(SYS_unlinkat, at, path, flags));
}
int rmdir(const char *path) { return unlinkat(AT_FDCWD, path, AT_REMOVEDIR); }
int unlink(const char *path) { return unlinkat(AT_FDCWD, path, 0); }
"""


class Call(NamedTuple):
    """A call: its name, whether it failed, its path and its second path, relative to the folder."""

    name: str
    failed: bool
    path: str
    to: str


# A script that runs `mirror` with batches of 3 files.
RUN = """import sys
sys.path.insert(0, sys.argv.pop(1))
from ropepeach.cli import command
from ropepeach.mirror import folder as mirror_folder
mirror_folder.BATCH = 3
sys.exit(command.main(sys.argv[1:]))
"""


def noted(room: pathlib.Path, words: Sequence[str], **settings: object) -> tuple[int, str, list[Call]]:
    """Run `mirror` on the folder `m`; return its exit status, its messages and its calls."""
    log, folder = room / "calls", str(room / "m")
    log.unlink(missing_ok=True)
    environment = interposed(room, "noted", SHIM) | DIRECT | {"CALLS": str(log), "FOLDER": folder}
    environment |= {name: str(value) for name, value in settings.items()}
    process = subprocess.run([PYTHON, "-c", RUN, TOOLS, "mirror", *words, folder], env=environment, capture_output=True,
                             text=True, timeout=SECONDS)
    lines = [line.split("\t") for line in log.read_text().splitlines()] if log.exists() else []
    below = lambda path: os.path.relpath(path, folder) if path else ""
    return process.returncode, process.stderr, [Call(name, failed == "1", below(path), below(to))
                                                for name, failed, path, to in lines]
