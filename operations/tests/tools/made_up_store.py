"""Simulate a store: commands `ceph` and `findmnt` that print a test's answers (test_takeover.py)."""
from __future__ import annotations

import contextlib
import copy
import datetime
import json
import shutil
from collections.abc import Callable, Iterator, Mapping
from pathlib import Path
from typing import Any

from tests.disks import disks

OTHER, HERE = "10.78.0.1", "10.78.0.2"
# A command that prints the file named by its arguments, and fails without one.
ANSWERS = """#!/bin/sh
while [ $# -gt 0 ]; do case $1 in --connect-timeout|--format) shift 2;; *) break;; esac; done
echo "$*" >> "${0%/*}/asked"
if [ -e "${0%/*}/slow" ]; then rm "${0%/*}/slow"; echo "not yet" >&2; exit 1; fi
exec cat "${0%/*}/answers/${0##*/}-$*"
"""


def until(**more: float) -> str:
    """Return a moment that is this far ahead, in the form of the store."""
    return (
        datetime.datetime.now(datetime.timezone.utc) + datetime.timedelta(**more)).strftime("%Y-%m-%dT%H:%M:%S.%f+0000")


def session(address: str, number: int) -> dict[str, Any]:
    """Return a session of a client with an address, in the form of the store."""
    return {"id": number, "state": "open", "entity": {"addr": {"type": "v1", "addr": f"{address}:0", "nonce": 7}}}


def group(number: str, state: str = "active+clean") -> dict[str, Any]:
    """Return a group of copies, in the form of the store."""
    return {"pgid": number, "state": state, "up": [0, 1, 2], "acting": [0, 1, 2]}


class MadeUp:
    """The answers of a store, which a test changes. At first every step is done, and OTHER was lost."""

    def __init__(self, room: Path) -> None:
        self.room, self.bin = Path(room), Path(room, "bin")
        self.bin.mkdir()
        (self.room / "run").mkdir()
        self.socket = self.room / "run" / "ceph-client.admin.7.8.asok"
        self.socket.touch()
        self.file = self.room / "a.disk"
        disks.disk(room, "empty", "a.disk")
        # (the socket of a killed mount, and the socket of a copy's process)
        for name in ("ceph-client.admin.3.4.asok", "ceph-osd.1.5.6.asok"):
            (self.room / "run" / name).touch()
        pool = {"type": 1, "size": 3, "min_size": 2}
        self.answers: dict[str, Any] = {
            "mount": {"filesystems": [{"target": str(self.room), "fstype": "fuse.ceph-fuse",
                                       "options": "rw,nosuid,nodev"}]},
            "daemon": {"metadata": {"mount_point": str(self.room)}, "inst": {"addr": {"addr": f"{HERE}:0", "nonce": 9}},
                       "blocklisted": False, "fs_name": "fs"},
            "config": {"client_force_lazyio": "false", "fuse_use_invalidate_cb": "true",
                       "client_reconnect_stale": "false", "client_oc": "true"},
            "sessions": [session(HERE, 5), session("10.78.0.11", 6)],
            "status": {"health": {"status": "HEALTH_WARN", "checks": {"OSD_DOWN": {}}}, "mgrmap": {"available": True}},
            "systems": [{"name": "fs", "metadata_pool": "meta", "data_pools": ["data"]}],
            "dump": {"blocklist": {f"{OTHER}:0/0": until(days=365), "10.78.0.9:6801/22": until(hours=1)},
                     "pools": [{"pool": 2, "pool_name": "data", "application_metadata": {"cephfs": {"data": "fs"}},
                                **pool},
                               {"pool": 3, "pool_name": "meta", "application_metadata": {"cephfs": {"metadata": "fs"}},
                                **pool},
                               {"pool": 4, "pool_name": "other", "application_metadata": {"rbd": {}}, **pool,
                                "min_size": 1},
                               {"pool": 5, "pool_name": "b", "application_metadata": {"cephfs": {"data": "b"}}, **pool,
                                "size": 1}]},
            "groups": {"pg_ready": True,
                       "pg_stats": [group("2.0", "active+undersized+degraded"), group("3.1"), group("4.0", "down")]},
        }

    def places(self) -> dict[str, str]:
        """Return the file of every answer by its name."""
        target = f"--json --target {self.room.resolve()}/a.disk --output TARGET,FSTYPE,OPTIONS"
        return {"mount": f"findmnt-{target}", "daemon": f"ceph-daemon {self.socket} status",
                "config": f"ceph-daemon {self.socket} config show",
                "sessions": "ceph-tell mds.fs:0 session ls", "status": "ceph-status", "systems": "ceph-fs ls",
                "dump": "ceph-osd dump", "groups": "ceph-pg dump pgs_brief"}

    def write(self) -> None:
        """Write the commands, and a file per answer."""
        shutil.rmtree(self.bin)
        self.bin.mkdir()
        for name in ("ceph", "findmnt"):
            (self.bin / name).write_text(ANSWERS)
            (self.bin / name).chmod(0o755)
        for name, place in self.places().items():
            if self.answers[name] is not None:
                path = Path(f"{self.bin}/answers/{place}")
                path.parent.mkdir(parents=True, exist_ok=True)
                path.write_text(json.dumps(self.answers[name]))

    def fence(self, fences: Mapping[str, str]) -> None:
        """Set the store's list of fences."""
        self.answers["dump"]["blocklist"] = fences

    @contextlib.contextmanager
    def changed(self, name: str, change: Callable[[Any], Any]) -> Iterator[None]:
        """Change one answer in place, or replace it; restore it at the end."""
        before = copy.deepcopy(self.answers)
        self.answers[name] = change(self.answers[name]) or self.answers[name]
        yield
        self.answers = before
