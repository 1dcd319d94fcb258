"""Simulate a file system on which several names are equal: a C library changes the names in system calls."""
from __future__ import annotations

import pathlib

from operations.tests.mirror.mirrors import DIRECT
from tests.program import interposed

# `fold` and `keep` ignore case; `keep` lists names as they were made; `dots` drops trailing dots; `refuse` refuses `:`.
TEXT = r"""
#define _GNU_SOURCE
#include <ctype.h>
#include <dirent.h>
#include <errno.h>
#include <fcntl.h>
#include <stdarg.h>
#include <stdio.h>
#include <stdlib.h>
#include <string.h>
#include <sys/stat.h>
#include <sys/syscall.h>
#include <unistd.h>
static const char *folder, *how;
__attribute__((constructor)) static void begin(void) { folder = getenv("FOLDED"); how = getenv("HOW"); }
static int is_below(int at, const char *path) {
    char link[64], into[4096];
    if (!folder || !how) return 0;
    if (path[0] == '/' || at == AT_FDCWD) return !strncmp(path, folder, strlen(folder)) && path[strlen(folder)];
    snprintf(link, sizeof link, "/proc/self/fd/%d", at);
    long n = syscall(SYS_readlinkat, AT_FDCWD, link, into, 4000);
    into[n > 0 ? n : 0] = 0;
    return !strncmp(into, folder, strlen(folder));
}
/* Puts the name as it was made in the place of the last segment, if there is one that differs by case alone. */
static void kept(int at, char *path) {
    char *last = strrchr(path, '/'), above[4096] = ".";
    if (last) snprintf(above, sizeof above, "%.*s/", (int) (last - path), path);
    int folder = syscall(SYS_openat, at, above, O_RDONLY | O_DIRECTORY, 0);
    DIR *entries = folder < 0 ? 0 : fdopendir(folder);
    for (struct dirent *it; entries && (it = readdir(entries)); )
        if (!strcasecmp(it->d_name, last ? last + 1 : path)) strcpy(last ? last + 1 : path, it->d_name);
    if (entries) closedir(entries);
}
static const char *changed(int at, const char *path, char *into) {
    if (!is_below(at, path)) return path;
    char *from = strcpy(into, path) + (path[0] == '/' ? strlen(folder) : 0);
    if (*how == 'f') for (; *from; from++) *from = tolower(*from);
    if (*how == 'k') kept(at, into);
    if (*how == 'd') for (char *end = into + strlen(into); end > from && end[-1] == '.'; ) *--end = 0;
    return into;
}
static int is_refused(int at, const char *path) {
    return is_below(at, path) && *how == 'r' && strchr(path, ':') ? (errno = EINVAL) : 0;
}
#define CALL(at, path, made) char one[4096]; return is_refused(at, path) ? -1 : (made)
#define OPENED(at, path) MODE(flags); CALL(at, path, syscall(SYS_openat, at, changed(at, path, one), flags, mode))
#define LOOKED(at, path, s, flags) CALL(at, path, syscall(SYS_newfstatat, at, changed(at, path, one), s, flags))
#define MODE(after) va_list more; va_start(more, after); int mode = va_arg(more, int); va_end(more)
int open(const char *path, int flags, ...) { OPENED(AT_FDCWD, path); }
int open64(const char *path, int flags, ...) { OPENED(AT_FDCWD, path); }
int openat(int at, const char *path, int flags, ...) { OPENED(at, path); }
int openat64(int at, const char *path, int flags, ...) { OPENED(at, path); }
int stat(const char *path, struct stat *s) { LOOKED(AT_FDCWD, path, s, 0); }
int stat64(const char *path, struct stat64 *s) { return stat(path, (struct stat *) s); }
int lstat(const char *path, struct stat *s) { LOOKED(AT_FDCWD, path, s, AT_SYMLINK_NOFOLLOW); }
int lstat64(const char *path, struct stat64 *s) { return lstat(path, (struct stat *) s); }
int fstatat(int at, const char *path, struct stat *s, int flags) { LOOKED(at, path, s, flags); }
int fstatat64(int at, const char *path, struct stat64 *s, int flags) {
    return fstatat(at, path, (struct stat *) s, flags);
}
int renameat(int at, const char *from, int beside, const char *to) {
    char two[4096];
    CALL(at, from, syscall(SYS_renameat, at, changed(at, from, one), beside, changed(beside, to, two)));
}
int rename(const char *from, const char *to) { return renameat(AT_FDCWD, from, AT_FDCWD, to); }
int unlinkat(int at, const char *path, int flags) {
    CALL(at, path, syscall(SYS_unlinkat, at, changed(at, path, one), flags));
}
int unlink(const char *path) { return unlinkat(AT_FDCWD, path, 0); }
int rmdir(const char *path) { return unlinkat(AT_FDCWD, path, AT_REMOVEDIR); }
int mkdirat(int at, const char *path, mode_t mode) {
    CALL(at, path, syscall(SYS_mkdirat, at, changed(at, path, one), mode));
}
int mkdir(const char *path, mode_t mode) { return mkdirat(AT_FDCWD, path, mode); }
"""


def folding(room: pathlib.Path, how: str) -> dict[str, str]:
    """Return the environment of a command for which the folder `m` is on this file system."""
    library: dict[str, str] = interposed(room, "folded", TEXT)
    return library | DIRECT | {"FOLDED": f"{room}/m", "HOW": how}
