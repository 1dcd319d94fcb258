"""Test that `ropepeach why` names the cause of `Device`; without a cause the program starts."""
from __future__ import annotations

import os
import socket
import subprocess
import sys
import threading
from collections.abc import Mapping, Sequence
from pathlib import Path
from typing import Any
from unittest import mock

import pytest

from operations.tests.tools.holders import child, listening, locking
from operations.tests.tools.command_runs import Ran, run_command, status_of
from ropepeach.admin import why
from ropepeach.admin.processes import Processes, Unseen
from tests.disks import disks
from tests.served_source import free_port

NOBODY, SECONDS = "nobody", 30


def file_in(room: Path, name: str = "a.disk") -> str:
    """Make a file of a source; return its path."""
    disks.disk(room, "empty", name)
    return str(room / name)


def says(status: int, *phrases: str, words: Sequence[object], **how: Any) -> str:
    """Run the command, check its exit status and texts, and return its only line."""
    process = run_command("why", *map(str, words), **how)
    output = status_of(process, status, *phrases)
    assert output.count("\n") == 1, f"more than a line: {output!r}"
    return output


def starts(program: str, path: str | Path, port: int = 0) -> bool:
    """Return whether the program starts with this file and port; if not, it prints `Device`."""
    with subprocess.Popen([program, "serve", path, str(port), "1"], stdout=subprocess.PIPE,
                          stderr=subprocess.PIPE) as server:
        # (it prints that it listens, or ends, long before the timeout)
        assert server.stdout and server.stderr
        killer = threading.Timer(SECONDS, server.kill)
        killer.start()
        try:
            line = server.stdout.readline()
        finally:
            killer.cancel()
            server.kill()
        messages = server.stderr.read()
    assert (line.startswith(b"listening ") or messages == b"rs_source: Device\n")
    return bool(line)


def test_no_cause_is_named_where_the_program_starts(program: str, room: Path) -> None:
    """With a file and a free port the status is 0, the file stays unchanged, and the program starts."""
    path, port = file_in(room), free_port()
    before = os.stat(path).st_mtime_ns
    says(0, "nothing is found in the way", path, f"on port {port}", words=[path, port])
    says(0, "nothing is found in the way", words=[path])
    os.symlink(path, room / "link")
    says(0, "nothing is found in the way", words=[room / "link", 0])
    assert os.stat(path).st_mtime_ns == before, "the file was touched"
    assert starts(program, path, port), "the program does not start"


def test_a_missing_file_or_folder_is_named(program: str, room: Path) -> None:
    """A link to a missing file and an irregular file are named too."""
    file_in(room)
    os.symlink(room / "gone", room / "link")
    os.mkfifo(room / "pipe")
    rows = [(room / "none", f"there is no file {room}/none"),
            (room / "no" / "such" / "file", f"there is no folder {room}/no"),
            (room / "a.disk" / "b", f"there is no folder {room}/a.disk"),
            (room / "link", f"a link to {room}/gone, which is not there"),
            (room, "is a folder"), (room / "pipe", "is a named pipe"), (Path("/dev/null"), "is a device")]
    for path, phrase in rows:
        says(1, phrase, words=[path, 0])
        assert not starts(program, path), f"the program starts on {path}"
    says(1, "there is no file ./no-such-file", words=["./no-such-file"])


@pytest.mark.root
def test_a_missing_permission_of_a_user_is_named(room: Path) -> None:
    """The permission is for a file, a folder or a port."""
    room.chmod(0o755)
    inner = room / "inner"
    inner.mkdir(mode=0o755)
    path = file_in(inner)
    os.chmod(path, 0o644)
    as_nobody = ["--user", NOBODY]
    says(1, f"the user {NOBODY} may not read and write {path}", "-rw-r--r-- of root", words=[path, *as_nobody])
    os.chmod(path, 0o666)
    says(0, f"the user {NOBODY} can open", words=[path, free_port(), *as_nobody])
    inner.chmod(0o700)
    says(1, f"the user {NOBODY} may not pass the folder {inner}", "drwx------ of root", words=[path, *as_nobody])
    inner.chmod(0o755)
    limit = int(open("/proc/sys/net/ipv4/ip_unprivileged_port_start").read())
    if limit > 1:
        says(1, f"the user {NOBODY} may not listen on port {limit - 1}", words=[path, limit - 1, *as_nobody])
    says(1, "there is no user no-such-user", words=[path, "--user", "no-such-user"])
    os.chmod(path, 0o600)
    says(0, "the user root can open", words=[path, "--user", "root"])


@pytest.mark.root
@pytest.mark.needs("setpriv")
def test_an_unprivileged_user_gets_the_causes_that_it_may_see(room: Path) -> None:
    """The system hides root's processes from this user."""
    behind = ["setpriv", f"--reuid={NOBODY}", "--clear-groups", "--"]
    if run_command("why", "--help", behind=behind).returncode:
        pytest.skip(f"the user {NOBODY} can't run the command here")
    room.chmod(0o755)
    path, port = file_in(room), free_port()
    as_nobody = lambda status, *phrases, words: says(status, *phrases, words=words, behind=behind)
    as_nobody(1, f"the user {NOBODY} may not read and write {path}", f"if {NOBODY} runs the program, else ask as root",
              words=[path])
    os.chmod(path, 0o666)
    as_nobody(0, f"the user {NOBODY} can open {path} and listen on port {port}", words=[path, port])
    with child(*locking(path)) as holder:
        as_nobody(1, f"{path} is locked by process {holder.pid} (", words=[path])
    with child(*listening(port)):
        as_nobody(1, f"port {port} is taken by a process that can't be seen from here (root sees more",
                  words=[path, port])
    room.chmod(0o700)
    as_nobody(1, f"the user {NOBODY} may not pass the folder {room}", "else ask as root", words=[path])


def test_the_process_that_locks_the_file_is_named(program: str, room: Path) -> None:
    """The line names the owner of the lock, a process that inherited it, or a process that shares it, and no process
    that waits for it.
    """
    path = file_in(room)
    with child(*locking(path)) as holder, subprocess.Popen(["flock", "--timeout", str(SECONDS), path,
                                                            "true"]) as waiter:
        try:
            output = says(1, f"locked by process {holder.pid} (", words=[path, 0])
            assert f"process {waiter.pid}" not in output and not starts(program, path), output
        finally:
            waiter.kill()
    with child(*locking(path, "LOCK_SH")) as holder:
        says(1, f"locked by process {holder.pid} (", words=[path])
        assert not starts(program, path), "the program starts beside a shared lock"
    # The process that took the lock ends, and its child keeps it.
    gone, remaining = inherited(path)
    try:
        assert f" {gone} " in open("/proc/locks").read()
        assert not os.path.exists(f"/proc/{gone}")
        says(1, f"locked by process {remaining} (sleep 60)", words=[path])
    finally:
        os.kill(remaining, 9)
    with open(path) as _:
        says(0, "nothing is found in the way", words=[path])


def inherited(path: str) -> tuple[int, int]:
    """Return the ids of an ended process that took the lock, and of its child that keeps it."""
    words = (f"import fcntl, os, subprocess; f = open({path!r}, 'r+'); os.set_inheritable(f.fileno(), True); "
             "fcntl.flock(f, fcntl.LOCK_EX); "
             "print(os.getpid(), subprocess.Popen(['sleep', '60'], close_fds=False, stdout=subprocess.DEVNULL).pid)")
    done = subprocess.run([sys.executable, "-c", words], stdout=subprocess.PIPE, text=True, timeout=SECONDS)
    ended, heir = map(int, done.stdout.split())
    return ended, heir


def test_a_running_program_is_named(program: str, room: Path) -> None:
    """The program locks the file that it serves, and listens on the port."""
    path, other = file_in(room), file_in(room, "b.disk")
    # (the message has the first 100 characters of a command, so the program's path must be short)
    os.symlink(program, "rs_source")
    words = ["./rs_source", "serve", "a.disk", "0", "9"]
    with subprocess.Popen(words, stdout=subprocess.PIPE, text=True) as server:
        assert server.stdout
        try:
            port = int(server.stdout.readline().rpartition(":")[2])
            named = f"by process {server.pid} ({' '.join(words)})"
            says(1, f"locked {named}", "stop that one first", words=[path, port])
            says(1, f"port {port} is taken {named}", words=[other, port])
            assert not starts(program, path) and not starts(program, other, port), "the program starts a second time"
        finally:
            server.kill()
    says(0, "nothing is found in the way", words=[path, port])


def test_the_process_that_listens_on_the_port_is_named(program: str, room: Path) -> None:
    """The process listens on 127.0.0.1, any address or IPv6, or has bound the port; other addresses do not count."""
    path = file_in(room)
    for address, kind in (("127.0.0.1", "AF_INET"), ("0.0.0.0", "AF_INET"), ("::", "AF_INET6")):
        port = free_port()
        with child(*listening(port, address, kind)) as holder:
            says(1, f"port {port} is taken by process {holder.pid} (", words=[path, port])
            assert not starts(program, path, port), f"the program starts beside {address}"
    port = free_port()
    with child(*listening(port, more="")):
        says(1, f"port {port} is taken by a process that can't be seen", words=[path, port])
    with child(*listening(port, "127.0.0.2")), child(*listening(port, "::1", "AF_INET6")):
        says(0, "nothing is found", words=[path, port])
        assert starts(program, path, port), "the program does not start beside other addresses"
    over(port)
    says(0, "nothing is found", words=[path, port])


def over(port: int) -> None:
    """Leave a closed connection of an ended server, which the system keeps for a minute."""
    with socket.socket() as server:
        server.setsockopt(socket.SOL_SOCKET, socket.SO_REUSEADDR, 1)
        server.bind(("127.0.0.1", port))
        server.listen()
        with socket.create_connection(("127.0.0.1", port)) as client:
            server.accept()[0].close()
            client.recv(1)


def in_a_mount(room: Path, setting: str, *words: object) -> Ran:
    """Run the command after a shell mounts a file system at room/mount; skip the test where this is not allowed."""
    script = f'set -e; mount {setting} || exit 77; shift; "$@"'
    process = run_command("why", *map(str, words), behind=["unshare", "--mount", "sh", "-c", script, "sh", str(room)])
    if process.returncode == 77 or "unshare" in process.stderr:
        pytest.skip("nobody may mount here")
    return process


def test_a_read_only_file_system_is_named(room: Path) -> None:
    """The line has the command that remounts the file system."""
    folder = room / "mount"
    folder.mkdir()
    path = file_in(folder)
    process = in_a_mount(room, f"--bind {folder} {folder}; mount -o remount,bind,ro {folder}", path)
    status_of(process, 1, "the file system of", "is read-only", "remount,rw")


def test_a_full_file_system_is_named(room: Path) -> None:
    """A sparse file is on a file system without room for it."""
    folder = room / "mount"
    folder.mkdir()
    path = folder / "a.disk"
    made = (f"-t tmpfs -o size=256k none {folder}; cp {file_in(room)} {path}; truncate -s 1M {path}; "
            f"head -c 300k /dev/zero >{folder}/b 2>/dev/null || true")
    process = in_a_mount(room, made, path)
    status_of(process, 1, "has room for 0 bytes", "fallocate --length 1048576", "then restart")


def test_a_sparse_file_needs_room_for_the_longest_command(room: Path) -> None:
    """A file without holes needs no room."""
    path = file_in(room)
    there = os.stat(path)
    mib = 1 << 20
    rows = [(0, 0, False), (mib, mib - 4_096, True), (mib, mib, False), (100 * mib, 16 * mib, True),
            (100 * mib, 17 * mib, False), (-8, 0, False)]
    for lacking, free, is_cause in rows:
        fake = mock.Mock(st_size=there.st_size + lacking, st_blocks=there.st_size // 512)
        with mock.patch.object(os, "statvfs", lambda _: mock.Mock(f_bavail=free // 4_096, f_frsize=4_096)):
            try:
                why.look_at_room(path, fake)
                found = False
            except why.Cause:
                found = True
        assert found == is_cause, f"{lacking} bytes are lacking, {free} free: {found}"


class Made(Processes):
    """Tables of processes: lines of /proc/locks, and the open files of a process, or None if they are hidden."""

    def __init__(self, room: Path, locks: Sequence[str], opened: Mapping[int, list[Path] | None]) -> None:
        super().__init__(room)
        (room / "locks").write_text("\n".join(locks) + "\n")
        self.opened = opened

    def numbers(self) -> list[int]:
        """Return the ids of the processes."""
        return list(self.opened)

    def open_files(self, number: int) -> list[Path]:
        """Return the open files of a process."""
        found = self.opened.get(number, [])
        if found is None:
            raise Unseen
        return found


def test_the_holder_of_a_lock_is_found_in_the_table_of_locks(room: Path) -> None:
    """Lines may be stale, of other files, of other kinds, or of a process that hides its files."""
    path = room / "a.disk"
    file_in(room)
    facts = os.stat(path)
    device = f"{os.major(facts.st_dev):02x}:{os.minor(facts.st_dev):02x}"

    def line(number: int, kind: str = "FLOCK ", place: str = f"{device}:{facts.st_ino}", mark: str = "") -> str:
        return f"1: {mark}{kind} ADVISORY  WRITE {number} {place} 0 EOF"

    other = room / "b"
    other.write_text("")
    rows: list[tuple[str, list[str], dict[int, list[Path] | None], int | None]] = [
        ("no line", [], {}, None), ("the holder", [line(7)], {7: [path]}, 7),
        ("one that waits", [line(7, mark="-> ")], {7: [path]}, None),
        ("a lock of another kind", [line(7, "POSIX ")], {7: [path]}, None),
        ("another file", [line(7, place=f"{device}:1")], {7: [other]}, None),
        ("a line that is old, and an heir", [line(7)], {7: [other], 9: [path]}, 9),
        ("a line that is old, and nobody", [line(7)], {7: [other]}, 0),
        ("another device, of a file that is open", [line(7, place=f"00:01:{facts.st_ino}")], {7: [path]}, 7),
        ("another device, of another file", [line(7, place=f"00:01:{facts.st_ino}")], {7: [other]}, None),
        ("two lines, the first of them of another file", [line(5, place=f"00:01:{facts.st_ino}"), line(7)],
         {5: [other], 7: [path]}, 7),
    ]
    for what, locks, opened, number in rows:
        found = Made(room, locks, opened).locker(facts)
        assert found == number, what
    assert Made(room, [line(7)], {7: None}).locker(facts) == 7, "one that nobody may look into"
    assert Made(room, [line(7, place=f"00:01:{facts.st_ino}")], {7: None}).locker(facts) is None
    a_unit_is_named(room, path, facts, Made(room, [line(7)], {7: [path]}))


def a_unit_is_named(room: Path, path: Path, facts: os.stat_result, made: Made) -> None:
    """Check that the unit of process 7, which has the lock, is named."""
    (room / "7").mkdir()
    (room / "7" / "cgroup").write_text("0::/system.slice/ropepeach.service\n")
    (room / "7" / "cmdline").write_bytes(b"rs_source\0serve\0a.disk\0")
    assert (made.describe(7) == "process 7 (rs_source serve a.disk, of ropepeach.service)"
            and made.unit(7) == "ropepeach.service"), made.describe(7)
    try:
        why.look_at_lock(str(path), facts, made)
    except why.Cause as cause:
        assert "systemctl stop ropepeach.service" in str(cause), cause


@pytest.mark.parametrize("words", [[], [".", "65536"], [".", "-1"], [".", "http"], [".", "1", "2"]], ids=str)
def test_wrong_arguments_have_status_2(words: list[str]) -> None:
    """A port is a number from 0 to 65535."""
    assert run_command("why", *words).returncode == 2


@pytest.mark.root
@pytest.mark.needs("runuser")
def test_only_root_asks_for_another_user() -> None:
    """`--user` is refused."""
    process = run_command("why", "/", "--user", "root", behind=["runuser", "-u", NOBODY, "--"])
    # (this user may not be able to read the command)
    assert process.returncode in (2, 126), process.stderr
