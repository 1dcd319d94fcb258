"""The state of a CephFS: this machine's mount, the fence of another machine, and the copies
(operations/docs/REPLICAS.md).

It is queried by the command `ceph`, with the store's own configuration (CEPH_CONF and CEPH_ARGS of the environment).
"""
from __future__ import annotations

import datetime
import ipaddress
import json
import os
import pathlib
from typing import Any

from ropepeach.admin.programs import run_to_end
from ropepeach.faults import Fault, Misused, Unusable

# The limit of a command in seconds. A hanging server does not respond; the next command may reach another one.
QUERY_SECONDS = 30
FUSE, KERNEL = "fuse.ceph-fuse", "ceph"
# A mount that would show old bytes, or reconnect after fencing, has another value.
FUSE_SETTINGS = {
    "client_force_lazyio": ("false", "it shows bytes that another machine has replaced"),
    "fuse_use_invalidate_cb": ("true", "the kernel keeps pages that another machine has replaced"),
    "client_reconnect_stale": ("false", "a fenced mount comes back by itself"),
}
# The same of the kernel's mount.
KERNEL_OPTIONS = {"fsc": "pages are kept on this machine's disk",
                  "recover_session=clean": "a fenced mount comes back by itself"}
# A fence that ends sooner may end before the machine wakes up.
LASTING = datetime.timedelta(days=1)
# The copies of an active placement group that have all of it serve reads and writes. These words name its faults.
BAD_STATES = {"down", "incomplete", "stale", "inconsistent", "failed_repair", "recovery_unfound", "backfill_unfound",
              "snaptrim_error"}
COPIES, WRITTEN = 3, 2


class Refused(Fault):
    """A step that is not done."""


def output(*words: str) -> str:
    """Return the output of a command. Raise `Unusable` if it fails."""
    process = run_to_end(*words, seconds=QUERY_SECONDS, if_late="is a quorum of the monitors up?",
                         if_absent="install it (Debian: ceph-common, util-linux)")
    if process.returncode:
        raise Unusable(f"{' '.join(words)}: {(process.stderr or process.stdout).strip()[-300:] or 'it failed'}")
    return process.stdout


def value(*words: str) -> Any:
    """Return the value that a command prints as JSON, after other text."""
    text = output(*words)
    starts = [text.index(bracket) for bracket in "[{" if bracket in text]
    try:
        return json.JSONDecoder().raw_decode(text[min(starts):])[0]
    except (ValueError, RecursionError):
        raise Unusable(f"{' '.join(words)}: no JSON: {text[:100]!r}") from None


def ceph(*words: str) -> Any:
    """Return the output of a command of the store."""
    return value("ceph", "--connect-timeout", "30", "--format", "json", *words)


def host(address: str) -> str:
    """Return an address as the store writes it."""
    return f"[{address}]" if ":" in address else address


class CephFS:
    """The CephFS that holds a file."""

    def __init__(self, path: str, sockets: str) -> None:
        self.path, self.sockets = path, sockets
        answer = value("findmnt", "--json", "--target", os.path.realpath(path), "--output", "TARGET,FSTYPE,OPTIONS")
        mount = answer["filesystems"][0]
        self.place, self.kind, self.options = mount["target"], mount["fstype"], mount["options"].split(",")
        self.name = ""
        self.map: Any = {}
        if self.kind not in (FUSE, KERNEL):
            raise Refused(f"{path} lies on {self.kind} at {self.place}, which is no CephFS: another store cannot be "
                          "asked here what its copies hold")

    def look_at_mount(self, other: str) -> str:
        """Check that this machine's mount shows the current bytes of the store; return its line."""
        return self.look_at_kernel() if self.kind == KERNEL else self.look_at_fuse(other)

    def look_at_kernel(self) -> str:
        """Check that the kernel's mount shows the current bytes of the store; return its line."""
        for option, why in KERNEL_OPTIONS.items():
            if option in self.options:
                raise Refused(f"the mount {self.place} has {option}, so {why}: remount it without")
        names = [option.partition("=")[2] for option in self.options if option.startswith(("mds_namespace=", "fs="))]
        names = names or [system["name"] for system in ceph("fs", "ls")]
        if len(names) != 1:
            raise Unusable(f"the store has the file systems {', '.join(names)}: mount by name (fs=NAME)")
        self.name = names[0]
        return f"{self.place}, by the kernel, of the file system {self.name}"

    def look_at_fuse(self, other: str) -> str:
        """Check that the mount of ceph-fuse shows the current bytes of the store; return its line."""
        socket, status = self.socket()
        if status["inst"]["addr"]["addr"].rpartition(":")[0] == host(other):
            raise Misused(f"{other} is this machine: name the one that had the source")
        if status.get("blocklisted"):
            raise Refused(f"the mount {self.place} is fenced itself: umount it, lift this machine's fence "
                          "(ceph osd blocklist rm), and remount it")
        settings = value("ceph", "daemon", socket, "config", "show")
        for name, (wanted, why) in FUSE_SETTINGS.items():
            if str(settings.get(name, wanted)).lower() != wanted:
                raise Refused(f"the mount {self.place} has {name} = {settings[name]}, so {why}: "
                              f"set it to {wanted}, and remount it")
        self.name = status["fs_name"]
        return f"{self.place}, of the file system {self.name}, keeps no old bytes"

    def socket(self) -> tuple[str, Any]:
        """Return the socket of the mount, and its status."""
        paths = pathlib.Path(self.sockets).glob("*client.*.asok")
        for path in sorted(paths, key=lambda path: path.stat().st_mtime, reverse=True):
            try:
                status = value("ceph", "daemon", str(path), "status")
            except Unusable:
                # A killed mount leaves its socket; the newest is tried first.
                continue
            if status.get("metadata", {}).get("mount_point") == self.place:
                return str(path), status
        raise Unusable(f"no socket in {self.sockets} is of the mount {self.place}: name their folder "
                       f"(--sockets), or remount it")

    def look_at_fence(self, other: str, is_planned: bool) -> str:
        """Check that the other machine has no mount that can write; return its line."""
        try:
            ipaddress.ip_address(other)
        except ValueError:
            raise Misused(f"{other} is no address: give it as `ceph tell mds.{self.name}:0 session ls` shows "
                          f"it") from None
        self.map = ceph("osd", "dump")
        fences = {address: datetime.datetime.strptime(until, "%Y-%m-%dT%H:%M:%S.%f%z")
                  for address, until in self.map["blocklist"].items()}
        whole, lasting = fences.get(f"{host(other)}:0/0"), datetime.datetime.now(datetime.timezone.utc) + LASTING
        remedy = f"ceph osd blocklist add {other} 31536000"
        if not is_planned and not whole:
            raise Refused(f"{other} is not fenced: {remedy}")
        if whole and whole < lasting:
            raise Refused(f"the fence of {other} ends at {whole:%Y-%m-%dT%H:%M:%SZ}, and it may wake up later: "
                          f"{remedy}")
        if not whole and (single := [address for address in fences if address.startswith(f"{host(other)}:0/")]):
            raise Refused(f"{other} did not end in peace: its mount {single[0]} was thrown out, for a while only. "
                          f"Fence the whole: {remedy}")
        self.look_at_sessions(other)
        end = f"is fenced until {whole:%Y-%m-%dT%H:%M:%SZ}" if whole else "has ended"
        return f"{other} {end}, and has no session"

    def look_at_sessions(self, other: str) -> None:
        """Check that the other machine has no session."""
        for session in ceph("tell", f"mds.{self.name}:0", "session", "ls"):
            if session["entity"]["addr"]["addr"].rpartition(":")[0] == host(other):
                raise Refused(f"{other} has a session yet: umount there, or end it: "
                              f"ceph tell mds.{self.name}:0 client evict id={session['id']}")

    def look_at_copies(self, is_planned: bool) -> str:
        """Check that all copies that may serve reads hold the same bytes; return their line."""
        status = ceph("status")
        health, checks = status["health"]["status"], ", ".join(status["health"].get("checks", {})) or "no reason"
        if not status["mgrmap"].get("available"):
            raise Refused("the store has no manager, so what it says of its copies may be old: start one (ceph-mgr)")
        if health == "HEALTH_ERR" or is_planned and health != "HEALTH_OK":
            wanted = "HEALTH_OK" if is_planned else "better"
            raise Refused(f"the store says {health} ({checks}): look at `ceph health detail`, and wait until it is "
                          f"{wanted}")
        pools = self.look_at_pools()
        groups = [group for group in ceph("pg", "dump", "pgs_brief")["pg_stats"]
                  if int(group["pgid"].partition(".")[0]) in pools]
        for group in groups:
            words = set(group["state"].split("+"))
            if "active" not in words or words & BAD_STATES or is_planned and "clean" not in words:
                raise Refused(f"the group {group['pgid']} is {group['state']}: its copies are not in step; "
                              f"look at `ceph pg {group['pgid']} query`")
        if not groups:
            raise Unusable("the store tells no group of its pools")
        behind = sum("clean" not in group["state"].split("+") for group in groups)
        copies = f"{behind} of them without a copy that was lost" if behind else "each with every copy"
        return f"{health}, {len(groups)} groups are active, {copies}"

    def look_at_pools(self) -> set[int]:
        """Return the numbers of the file system's pools. They must have three copies, and settle a write on two."""
        pools = [pool for pool in self.map["pools"]
                 if self.name in pool["application_metadata"].get("cephfs", {}).values()]
        if not pools:
            raise Unusable(f"the store has no pools of a file system {self.name}")
        for pool in pools:
            for setting, least in (("size", COPIES), ("min_size", WRITTEN)):
                if pool[setting] < least:
                    raise Refused(f"the pool {pool['pool_name']} has {setting} {pool[setting]}, so what was "
                                  f"acknowledged may lie only on a lost copy: ceph osd pool set {pool['pool_name']} "
                                  f"{setting} {least}")
        return {pool["pool"] for pool in pools}
