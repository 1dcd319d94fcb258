"""Diagnoses `Device` errors of the program: finds out why it cannot open FILE, or listen on PORT.

The output names one cause, the first that the program meets, and its remedy. `why` opens the file as the program's user
would, and takes the lock and the port for a moment if they are free; it writes and syncs nothing. The unit of
the program has further limits: it may write only its own folder, and listen only on its own port.
"""
from __future__ import annotations

import argparse
import errno
import fcntl
import os
import pathlib
import pwd
import re
import socket
import stat
from collections.abc import Callable

from ropepeach.admin import USER
from ropepeach.admin.processes import Processes
from ropepeach.cli import numbers, output
from ropepeach.cli.statuses import Status
from ropepeach.disk import formula
from ropepeach.faults import Misused, Unusable

# About the bytes that the longest command may write: a body, pages and a directory.
COMMAND = 17 * 1_048_576
# The flags by which the program opens its file.
FILE_FLAGS = os.O_RDWR | os.O_CLOEXEC | os.O_NONBLOCK | os.O_NOCTTY
IRREGULAR = {stat.S_ISFIFO: "a named pipe", stat.S_ISSOCK: "a socket", stat.S_ISBLK: "a block device",
         stat.S_ISCHR: "a device"}


class Cause(Exception):
    """The cause of an error, and its remedy."""


def add_arguments(parser: argparse.ArgumentParser) -> None:
    """Add the arguments of the command."""
    parser.add_argument("file", metavar="FILE", help="the file of the source")
    parser.add_argument("port", metavar="PORT", nargs="?", type=numbers.any_port, help="the port of the source")
    runner = f"the user that runs the program (default: {USER}, if root asks and that user exists; else you)"
    parser.add_argument("--user", metavar="USER", help=runner)


def user_of(name: str | None) -> pwd.struct_passwd | None:
    """Return the user that runs the program, or None for the current user."""
    if not name and os.geteuid():
        return None
    try:
        user = pwd.getpwnam(name or USER)
    except KeyError:
        if name:
            raise Cause(f"there is no user {name}: make it (systemd-sysusers), or name another") from None
        return None
    if os.geteuid() not in (0, user.pw_uid):
        raise Misused("--user: only root can look for another user")
    return user


def number_of(call: Callable[..., object], *words: object) -> int:
    """Return the errno of a call, or 0."""
    try:
        call(*words)
    except OSError as fault:
        return fault.errno or errno.EIO
    return 0


def tried(user: pwd.struct_passwd | None, call: Callable[..., object], *words: object) -> int:
    """Return the errno of a call that a user makes, in a separate process, or 0."""
    if user is None or user.pw_uid == os.geteuid():
        return number_of(call, *words)
    child = os.fork()
    if child:
        return os.waitstatus_to_exitcode(os.waitpid(child, 0)[1])
    status = errno.EPERM
    try:
        os.initgroups(user.pw_name, user.pw_gid)
        os.setgid(user.pw_gid)
        os.setuid(user.pw_uid)
        status = number_of(call, *words)
    finally:
        os._exit(status)


def open_as_program(path: str) -> None:
    """Open a file as the program does, and close it."""
    os.close(os.open(path, FILE_FLAGS))


def listen_as_program(port: int) -> None:
    """Listen on a port of 127.0.0.1 as the program does, and release it."""
    socket.create_server(("127.0.0.1", port)).close()


def owner_name(number: int) -> str:
    """Return the name of the user of a number."""
    try:
        return pwd.getpwuid(number).pw_name
    except KeyError:
        return f"number {number}"


def name_of(user: pwd.struct_passwd | None) -> str:
    """Return the name of a user, or of the current one."""
    return user.pw_name if user else owner_name(os.geteuid())


def rights(path: str | pathlib.Path) -> str:
    """Return the owner and the mode of a path as text."""
    status = os.stat(path)
    return f"{stat.filemode(status.st_mode)} of {owner_name(status.st_uid)}"


def look_at_path(path: str) -> os.stat_result | None:
    """Return the status of a regular file, or None if only its user may look. Raise `Cause` if the file is missing."""
    try:
        status = os.stat(path)
    except (FileNotFoundError, NotADirectoryError):
        raise missing(path) from None
    except PermissionError:
        return None
    except OSError as fault:
        raise Cause(f"{path} can't be looked at, {fault.strerror}: look at the path, the disk and the kernel's log"
                    ) from None
    if stat.S_ISDIR(status.st_mode):
        raise Cause(f"{path} is a folder: name the file of the source in it")
    if not stat.S_ISREG(status.st_mode):
        kind = next((name for is_so, name in IRREGULAR.items() if is_so(status.st_mode)), "no file")
        raise Cause(f"{path} is {kind}, and no regular file: the program takes regular files alone")
    return status


def missing(path: str) -> Cause:
    """Return the missing part of a path."""
    if os.path.islink(path):
        return Cause(f"{path} is a link to {os.readlink(path)}, which is not there: restore that, or make a new link")
    folders = [folder for folder in reversed(pathlib.Path(path).absolute().parents) if not folder.is_dir()]
    if folders:
        return Cause(f"there is no folder {folders[0]}: mount its file system, or make it, before {path} can be there")
    return Cause(f"there is no file {path}: mount its file system, restore a backup, or make a source by rs_source "
                 "format")


def is_held_by_mount(path: str, processes: Processes) -> bool:
    """Return whether the file system of a path is writable but mounted read-only here, for example for a unit."""
    real, longest, is_so = os.path.realpath(path), -1, False
    for line in processes.lines("self/mountinfo"):
        words = line.split(" ")
        mount = re.sub(r"\\([0-7]{3})", lambda octal: chr(int(octal[1], 8)), words[4])
        if len(mount) >= longest and (real + "/").startswith(mount.rstrip("/") + "/"):
            longest = len(mount)
            is_so = "ro" in words[5].split(",") and "rw" in words[-1].split(",")
    return is_so


def read_only(path: str, processes: Processes) -> Cause:
    """Return the cause of a read-only file: its file system, or the mount of a unit."""
    unit, folder = processes.unit(os.getpid()), os.path.dirname(os.path.realpath(path))
    if unit and is_held_by_mount(path, processes):
        return Cause(f"the unit {unit} may not write {folder} (ProtectSystem=): systemctl edit {unit}, "
                     f"and write the lines [Service] and ReadWritePaths={folder} there")
    return Cause(f"the file system of {path} is read-only: look at the kernel's log, then mount it again (mount -o "
                 "remount,rw)")


def look_at_rights(path: str, user: pwd.struct_passwd | None, processes: Processes) -> None:
    """Raise `Cause` unless the user may open the file for reading and writing."""
    number, who = tried(user, open_as_program, path), name_of(user)
    if not number:
        return
    if number == errno.EROFS:
        raise read_only(path, processes)
    if number == errno.EPERM:
        raise Cause(f"nobody may change {path}, by an attribute of the file: take that away (lsattr, chattr -i)")
    if number != errno.EACCES:
        raise Cause(f"{path} can't be opened, {os.strerror(number)}: look at the disk and the kernel's log")
    # The current user need not be the user that runs the program.
    if_so = "" if user or not os.geteuid() else f" if {who} runs the program, else ask as root"
    for folder in reversed(pathlib.Path(path).absolute().parents):
        if tried(user, os.stat, f"{folder}/."):
            raise Cause(f"the user {who} may not pass the folder {folder} ({rights(folder)}): "
                        f"give it the right (chown {who}: {folder}, or chmod){if_so}")
    raise Cause(f"the user {who} may not read and write {path} ({rights(path)}): chown {who}: {path}{if_so}")


def is_locked(path: str) -> bool:
    """Return whether another process has the file locked. Take the lock as the program takes it, and release it."""
    number = os.open(path, FILE_FLAGS)
    try:
        fcntl.flock(number, fcntl.LOCK_EX | fcntl.LOCK_NB)
    except BlockingIOError:
        return True
    finally:
        os.close(number)
    return False


def look_at_lock(path: str, status: os.stat_result, processes: Processes) -> None:
    """Raise `Cause` if another program has the file."""
    number = processes.locker(status)
    if number is None and is_locked(path):
        number = 0
    if number is not None:
        unit = processes.unit(number)
        raise Cause(f"{path} is locked by {processes.describe(number)}: one program has a file at a time, so "
                    f"stop that one first{f' (systemctl stop {unit})' if unit else ''}")


def look_at_port(number: int, user: pwd.struct_passwd | None, processes: Processes) -> None:
    """Raise `Cause` unless the port is free."""
    fault = tried(user, listen_as_program, number)
    if fault == errno.EADDRINUSE:
        process = processes.describe(processes.listener(number))
        raise Cause(f"port {number} is taken by {process}: stop that one, or serve on another port "
                    f"(operations/docs/OPERATING.md, \"Installing\")")
    if fault in (errno.EACCES, errno.EPERM):
        raise Cause(f"the user {name_of(user)} may not listen on port {number}: take a port from 1024 on")
    if fault:
        raise Cause(f"port {number} can't be taken, {os.strerror(fault)}: look at the network of this machine "
                    "(ip address)")


def look_at_room(path: str, status: os.stat_result) -> None:
    """Raise `Cause` unless the file system has room for the unreserved bytes of the file."""
    lacking, free = formula.unreserved(status), formula.free_bytes(path)
    if free < min(lacking, COMMAND):
        raise Cause(f"the file system of {path} has room for {free:,} bytes, and the file still lacks {lacking:,}: "
                    f"make room, reserve it (fallocate --length {status.st_size} {path}), then restart the program")


def find_cause(arguments: argparse.Namespace, processes: Processes) -> tuple[str, os.stat_result]:
    """Check all causes in the order in which the program meets them; return the user's name and the file's status."""
    file, user = arguments.file, user_of(arguments.user)
    status = look_at_path(file)
    look_at_rights(file, user, processes)
    status = status or os.stat(file)
    look_at_lock(file, status, processes)
    if arguments.port is not None:
        look_at_port(arguments.port, user, processes)
    look_at_room(file, status)
    return name_of(user), status


def run(arguments: argparse.Namespace) -> int:
    """Print the cause, or that there is none; return the exit status."""
    file = arguments.file
    try:
        who, status = find_cause(arguments, Processes())
    except Cause as cause:
        output.result(str(cause), file=file, cause=str(cause))
        return Status.ENDED_EARLY
    except OSError as fault:
        raise Unusable(f"{file}: can't be looked at, {fault.strerror}: ask as root") from None
    port = "" if arguments.port is None else f" and listen on port {arguments.port}"
    lacking = formula.unreserved(status)
    room = f"; {lacking:,} bytes of it are not reserved (fallocate --length {status.st_size} {file})" if lacking else ""
    output.result(f"nothing is found in the way: the user {who} can open {file}{port}{room}", file=file,
                  not_reserved=lacking)
    return Status.DONE
