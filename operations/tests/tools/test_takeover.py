"""Test that `ropepeach takeover` names a step that is not done, and after the last one opens the file, or a copy of it.

The store is simulated: commands `ceph` and `findmnt` at the front of PATH print the test's answers.
`operations/tests/replicas` runs the command against a real store.
"""
from __future__ import annotations

import datetime
import os
import re
import signal
import subprocess
from collections.abc import Sequence
from pathlib import Path
from typing import Any
from unittest import mock

import pytest

from operations.tests.tools.made_up_store import OTHER, MadeUp, group, session, until
from operations.tests.tools.command_runs import run_command, status_of
from ropepeach.cli import command


class Store(MadeUp):
    """A simulated store, and runs of the command on it."""

    def takes(self, program: str | Path, *words: str, status: int = 0, phrases: Sequence[str] = (), wait: str = "0",
              other: str = OTHER) -> str:
        """Run the command, and check its exit status and texts of its output."""
        self.write()
        with mock.patch.dict(os.environ, PATH=f"{self.bin}:{os.environ['PATH']}"):
            process = run_command("takeover", str(self.file), other, "--program", str(program),
                                  "--sockets", str(self.room / "run"), "--wait", wait, *words)
        return status_of(process, status, *phrases)


def holds_of(program: str, path: Path) -> str:
    """Return the program's response to `status` of a file."""
    process = subprocess.run([program, "run", path], input="status\n", capture_output=True, text=True, timeout=60)
    return process.stdout.strip()


def test_finished_steps_are_printed_and_nothing_is_changed(program: str, room: Path) -> None:
    """The command also prints the counts of the file."""
    store = Store(room)
    before = store.file.read_bytes()
    phrases = ["keeps no old bytes", f"{OTHER} is fenced until", "1 of them without a copy that was lost",
               holds_of(program, store.file)]
    output = store.takes(program, phrases=phrases)
    steps = [line.partition(":")[0] for line in output.splitlines()]
    assert steps == ["mount", "fence", "copies", "source", "every step is done"], output
    assert store.file.read_bytes() == before and not list(room.glob("a.disk.*")), "the file was changed, or copied"
    commands = (store.bin / "asked").read_text().splitlines()
    changing = [command for command in commands if re.search(" add|evict| rm| set", command)]
    assert not changing, f"the store was changed: {commands}"


def test_a_planned_takeover_needs_no_fence(program: str, room: Path) -> None:
    """OTHER ended cleanly; the store must be healthy."""
    store = Store(room)
    store.fence({})
    well = {"health": {"status": "HEALTH_OK", "checks": {}}, "mgrmap": {"available": True}}
    store.takes(program, "--planned", status=1,
                phrases=["the store says HEALTH_WARN (OSD_DOWN)", "wait until it is HEALTH_OK"])
    store.answers["status"] = well
    store.takes(program, "--planned", status=1, phrases=["the group 2.0 is active+undersized+degraded"])
    store.answers["groups"]["pg_stats"][0]["state"] = "active+clean+scrubbing+deep"
    store.takes(program, "--planned", phrases=[f"{OTHER} has ended, and has no session", "each with every copy"])
    store.fence({f"{OTHER}:0/77": until(hours=1)})
    store.takes(program, "--planned", status=1,
                phrases=[f"{OTHER} did not end in peace", f"{OTHER}:0/77", f"blocklist add {OTHER} 31536000"])
    store.fence({})
    store.answers["sessions"].append(session(OTHER, 8))
    store.takes(program, "--planned", status=1, phrases=[f"{OTHER} has a session yet", "client evict id=8"])


def test_a_missing_or_short_fence_is_refused(program: str, room: Path) -> None:
    """The fence is of a single mount or another address, or ends soon; or OTHER has a session."""
    store, add = Store(room), f"ceph osd blocklist add {OTHER} 31536000"
    rows = [("10.78.0.3:0/0", until(days=365), "is not fenced"), (f"{OTHER}:0/77", until(days=365), "is not fenced"),
            ("10.78.0.11:0/0", until(days=365), "is not fenced"), (f"{OTHER}:6801/0", until(days=365), "is not fenced"),
            (f"{OTHER}:0/0", until(hours=1), "it may wake up later"),
            (f"{OTHER}:0/0", until(hours=-1), "it may wake up later")]
    for address, end, phrase in rows:
        store.fence({address: end})
        store.takes(program, status=1, phrases=[phrase, add])
    store.fence({f"{OTHER}:0/0": until(days=2)})
    with store.changed("sessions", lambda sessions: sessions.append(session(OTHER, 8))):
        store.takes(program, status=1, phrases=[f"{OTHER} has a session yet", "ceph tell mds.fs:0 client evict id=8"])
    store.fence({"[fd00::1]:0/0": until(days=2)})
    store.takes(program, other="fd00::1", phrases=["fd00::1 is fenced until"])
    with store.changed("sessions", lambda sessions: sessions.append(session("[fd00::1]", 8))):
        store.takes(program, other="fd00::1", status=1, phrases=["fd00::1 has a session yet"])


def test_missing_copies_are_refused(program: str, room: Path) -> None:
    """A wrong group, pool, health or manager is refused too; other pools do not count."""
    store = Store(room)
    states = ["peering", "active+clean+inconsistent", "down", "stale+active+clean", "undersized+degraded+peered",
              "active+recovery_unfound+degraded"]
    for state in states:
        with store.changed("groups", lambda groups: groups["pg_stats"].append(group("3.7", state))):
            store.takes(program, status=1, phrases=[f"the group 3.7 is {state}", "not in step"])
    for pool in (0, 1):
        for name, value in (("size", 2), ("min_size", 1)):
            facts = {name: value}
            with store.changed("dump", lambda dump: dump["pools"][pool].update(facts)):
                store.takes(program, status=1, phrases=[f"has {name} {value}", f"{name} {value + 1}"])
    with store.changed("status", lambda status: status["health"].update(status="HEALTH_ERR")):
        store.takes(program, status=1, phrases=["HEALTH_ERR"])
    with store.changed("status", lambda status: status["mgrmap"].update(available=False)):
        store.takes(program, status=1, phrases=["no manager"])
    with store.changed("groups", lambda groups: {"pg_stats": [group("4.0")]}):
        store.takes(program, status=3, phrases=["no group of its pools"])


def test_a_wrong_mount_is_refused(program: str, room: Path) -> None:
    """The mount is of another file system, caches old bytes, reconnects or is fenced, or OTHER is this machine."""
    store = Store(room)
    for kind in ("fuse.glusterfs", "fuse.rbdfs", "nfs4", "ext4"):
        with store.changed("mount", lambda mounts: mounts["filesystems"][0].update(fstype=kind)):
            store.takes(program, status=1, phrases=[f"lies on {kind}", "no CephFS"])
    for name, value in (("client_force_lazyio", "true"), ("fuse_use_invalidate_cb", "false"),
                        ("client_reconnect_stale", "true")):
        with store.changed("config", lambda settings: settings.update({name: value})):
            store.takes(program, status=1, phrases=[f"{name} = {value}", "remount it"])
    with store.changed("daemon", lambda daemon: daemon.update(blocklisted=True)):
        store.takes(program, status=1, phrases=["is fenced itself"])
    with store.changed("daemon", lambda daemon: daemon["metadata"].update(mount_point="/elsewhere")):
        store.takes(program, status=3, phrases=["no socket in"])
    with store.changed("daemon", lambda daemon: daemon["inst"]["addr"].update(addr=f"{OTHER}:0")):
        store.takes(program, status=2, phrases=[f"{OTHER} is this machine"])


def test_options_of_a_kernel_mount_are_checked(program: str, room: Path) -> None:
    """The file system of a kernel mount is found by its name, or is the only one."""
    store = Store(room)
    store.answers["mount"]["filesystems"][0]["fstype"] = "ceph"
    store.takes(program, phrases=["by the kernel, of the file system fs"])
    for option in ("fsc", "recover_session=clean"):
        options = f"rw,{option},acl"
        with store.changed("mount", lambda mounts: mounts["filesystems"][0].update(options=options)):
            store.takes(program, status=1, phrases=[f"has {option}"])
    store.answers["systems"].append({"name": "b", "metadata_pool": "meta", "data_pools": []})
    store.takes(program, status=3, phrases=["the file systems fs, b"])
    store.answers["mount"]["filesystems"][0]["options"] = "rw,mds_namespace=fs"
    store.takes(program, phrases=["by the kernel, of the file system fs"])


def test_a_store_without_an_answer_is_reported_after_the_wait(program: str, room: Path) -> None:
    """A response within the wait is used."""
    store = Store(room)
    questions = [question for question in store.answers if question != "systems"]
    for name in questions:
        with store.changed(name, lambda _: None):
            store.answers[name] = None
            store.takes(program, status=3)
    store.write()
    (store.bin / "slow").touch()
    with mock.patch.object(store, "write", lambda: None):
        store.takes(program, status=3, phrases=["not yet"])
    begun = datetime.datetime.now()
    store.fence({})
    store.takes(program, status=1, phrases=["is not fenced"], wait="1.5")
    seconds = (datetime.datetime.now() - begun).total_seconds()
    assert 1.5 <= seconds < 50, f"a step was waited for {seconds} s"


def test_a_missing_ceph_command_has_status_3(room: Path) -> None:
    """The command `ceph` is not on PATH."""
    store = Store(room)
    store.write()
    (store.bin / "ceph").unlink()
    for tool in ("sh", "cat", "rm"):
        (store.bin / tool).symlink_to(f"/bin/{tool}")
    with mock.patch.dict(os.environ, PATH=f"{store.bin}:/bin-of-nothing"):
        process = run_command("takeover", str(store.file), OTHER, "--sockets", str(room / "run"), "--wait", "0")
    status_of(process, 3, "no socket in")


def test_a_wrong_file_or_program_is_reported(program: str, room: Path) -> None:
    """The file is missing, locked, damaged or no source; or the program is missing."""
    store = Store(room)
    locking = ["flock", str(store.file), "sh", "-c", "echo begun; exec sleep 60"]
    with subprocess.Popen(locking, stdout=subprocess.PIPE, text=True, start_new_session=True) as holder:
        try:
            assert holder.stdout and holder.stdout.readline() == "begun\n"
            store.takes(program, status=1, phrases=["does not open, rs_source: Device", "ropepeach why"])
        finally:
            os.killpg(holder.pid, signal.SIGKILL)
    store.takes(room / "none", status=3, phrases=["No such file", "--program"])
    whole = store.file.read_bytes()
    store.file.write_bytes(bytes(len(whole)))
    store.takes(program, status=1, phrases=["rs_source: NotASource", "restore a backup"])
    store.file.unlink()
    store.takes(program, status=3, phrases=["there is no such file"])


def test_a_copy_replaces_the_file_and_the_old_file_is_kept(program: str, room: Path) -> None:
    """The copy has the owner, the mode and the content of the file."""
    store = Store(room)
    before, holds = store.file.read_bytes(), holds_of(program, store.file)
    os.chmod(store.file, 0o640)
    number = store.file.stat().st_ino
    store.takes(program, "--copy", phrases=["the old file is", holds])
    old_files = list(room.glob("a.disk.before-*"))
    assert [(old.read_bytes(), old.stat().st_ino) for old in old_files] == [(before, number)]
    after = store.file.stat()
    assert after.st_ino != number
    assert (after.st_mode & 0o777, after.st_size) == (0o640, len(before))
    assert not list(room.glob("*.taken-over")) and holds_of(program, store.file) == holds, "what is left"
    (room / "a.disk.taken-over").touch()
    store.takes(program, "--copy", status=1, phrases=["is there, of an earlier copy"])
    with store.changed("status", lambda status: status["health"].update(status="HEALTH_ERR")):
        store.takes(program, "--copy", status=1)
    assert len(list(room.glob("a.disk.before-*"))) == 1, "a copy was made before the steps were done"


def test_a_dry_run_changes_nothing(program: str, room: Path) -> None:
    """A dry run names the file that a run would keep."""
    store = Store(room)
    before = {path.name: path.read_bytes() for path in room.glob("a.disk*")}
    output = store.takes(program, "--copy", "--dry-run",
                         phrases=["the old file would be", holds_of(program, store.file)])
    assert "start the program" not in output, output
    assert {path.name: path.read_bytes() for path in room.glob("a.disk*")} == before
    assert "a.disk" in before
    store.file.with_name("a.disk.taken-over").write_bytes(b"")
    store.takes(program, "--copy", "--dry-run", status=1, phrases=["is there, of an earlier copy"])


def test_a_copy_that_differs_is_not_used(program: str, room: Path) -> None:
    """The old file stays in its place."""
    store = Store(room)
    before = store.file.read_bytes()
    real = '*) exec "$REAL" "$@";; esac'
    for body, phrase in ((f'case $1 in copy) echo "rs_source: Full" >&2;; {real}', "Full"),
                         (f'case "$*" in copy*) cp "$2" "$3";; *taken-over) echo "resources 9";; {real}',
                          "holds resources 9")):
        wrong = room / "wrong"
        wrong.write_text(f"#!/bin/sh\nREAL={program}\n{body}\n")
        wrong.chmod(0o755)
        store.takes(wrong, "--copy", status=1, phrases=[phrase])
        (room / "a.disk.taken-over").unlink(missing_ok=True)
        assert store.file.read_bytes() == before and not list(room.glob("a.disk.before-*")), "the old file was moved"


# Changes of the copy during a takeover by root, in the folder of the program's user: `made` is the copy, `file` the
# file of the source.
SWAPS = {
    "a link": 'rm "$made"; ln -s "$victim" "$made"', "a hard link": 'rm "$made"; ln "$victim" "$made"',
    "a pipe": 'rm "$made"; mkfifo "$made"',
    "another's file": 'rm "$made"; cp "$file" "$made"; chown 65534 "$made"', "nothing": 'rm "$made"',
}


def swapping(room: Path, swap: str) -> Path:
    """Return a program that swaps the copy after making it."""
    path, copying = room / "swapping", f'file=$2 made=$3; cp "$file" "$made"; {swap}'
    path.write_text(
        f"#!/bin/sh\nvictim={room}/victim\ncase $1 in run) echo 'resources 0';; copy) {copying};; esac\n")
    path.chmod(0o755)
    return path


@pytest.mark.root
@pytest.mark.parametrize("swap", SWAPS.values(), ids=SWAPS)
def test_a_swapped_copy_gets_no_owner(swap: str, room: Path) -> None:
    """Root gives the program's user no other file, and the old file stays."""
    store, victim = Store(room), room / "victim"
    victim.write_bytes(b"root's")
    victim.chmod(0o600)
    os.chown(store.file, 65_534, 65_534)
    before = store.file.read_bytes()
    store.takes(swapping(room, swap), "--copy", status=1, phrases=["is not the copy that was made"])
    (room / "a.disk.taken-over").unlink(missing_ok=True)
    found = victim.stat()
    assert (found.st_uid, found.st_mode & 0o777, found.st_nlink, victim.read_bytes()) == (0, 0o600, 1, b"root's")
    assert store.file.read_bytes() == before
    assert not list(room.glob("a.disk.before-*"))


def test_a_link_is_not_copied(room: Path) -> None:
    """The path of the source is a link to a file."""
    store, real = Store(room), room / "real.disk"
    before = store.file.read_bytes()
    store.file.rename(real)
    store.file.symlink_to(real)
    places = store.places() | {"mount": store.places()["mount"].replace("/a.disk ", "/real.disk ")}
    with mock.patch.object(store, "places", lambda: places):
        store.takes(swapping(room, ":"), "--copy", status=1, phrases=["is a link, or no regular file"])
    assert real.read_bytes() == before and not list(room.glob("*.taken-over")), "a link was copied"


FORMS: list[Any] = [
    [], {}, [[]], "text", 7, {"pg_stats": [{}], "filesystems": [{}], "blocklist": {"a": "soon"}, "health": 1}]


def test_malformed_answers_of_a_store_are_one_line(room: Path) -> None:
    """The exit status is 1 to 3."""
    store = Store(room)
    words = [str(store.file), OTHER, "--sockets", str(room / "run"), "--wait", "0", "--program", "true"]
    for name in [question for question in store.answers if question != "systems"]:
        for answer in FORMS:
            with store.changed(name, lambda _: None):
                store.answers[name] = answer
                store.write()
                with mock.patch.dict(os.environ, PATH=f"{store.bin}:{os.environ['PATH']}"):
                    process = run_command("takeover", *words)
                assert process.returncode in (1, 2, 3), f"{name} {answer}"
                assert process.stderr.count("\n") == 1, f"{name} {answer}"


def test_wrong_arguments_have_status_2(program: str, room: Path) -> None:
    """A message names the error."""
    store = Store(room)
    store.takes(program, status=2, phrases=["--wait"], wait="-1")
    wrong: list[list[str]] = [[], [str(room)], [str(room), OTHER, "more"], [str(room), OTHER, "--wait", "soon"]]
    for words in wrong:
        process = run_command("takeover", *words)
        assert process.returncode == 2, f"{words}: status {process.returncode}"
    store.write()
    with mock.patch.dict(os.environ, PATH=f"{store.bin}:{os.environ['PATH']}"):
        process = run_command("takeover", str(store.file), "machine-a", "--sockets", str(room / "run"), "--wait", "0")
    status_of(process, 2, "machine-a is no address")
