"""Move a source on a CephFS of three machines from one to another as they die (operations/docs/REPLICAS.md).

The store is set up and every takeover is done as the page says, with `ropepeach takeover`. A round has a failure of one
kind (rounds.py), and compares all acknowledged commands to the byte. The long form has more rounds, the failures in
which another store lost commands (ways.py), and controls, all of which must lose (controls.py): without them a
comparison that misses losses would pass.

In the gate a store that is too slow on this machine is a skip; only a loss is a failure. The long form runs
REPLICA_ROUNDS rounds on LANES stores, all with different seeds.
"""
from __future__ import annotations

import contextlib
import os
import random
import re
import shutil
import signal
import subprocess
import tempfile
import threading
import time
from collections.abc import Iterator
from pathlib import Path
from typing import Any

import pytest

from operations.tests import PYTHON
from operations.tests.replicas import controls, rounds, times, ways
from operations.tests.replicas.ceph_store import CephFS
from operations.tests.replicas.gluster_store import GlusterFS
from operations.tests.replicas.machines import Late, Stuck, three
from operations.tests.replicas.rbd_fuse import RbdFuse
from operations.tests.replicas.relay import Relay
from operations.tests.replicas.wrong_states import WRONG, is_noticed

TOOLS = ["unshare", "nsenter", "setpriv", "timeout", "ip", "losetup", "mount", "findmnt", "mkfs.xfs",
         "ceph", "ceph-mon", "ceph-osd", "ceph-mds", "ceph-mgr", "ceph-fuse", "monmaptool"]
# The first commands of a machine.
TRIAL = "mount -t tmpfs none /run && ip link add v0 type veth peer name v1 && ip link add b0 type bridge"
# Required free bytes of disk and memory.
ROOM, MEMORY = 8 << 30, 2 << 30
# The kinds of failure in the gate, and the seconds for all its tests together.
SHORT, SHORT_SECONDS = (rounds.power, rounds.network), 240
ROUNDS, LANES, SEED = (int(os.environ.get(name, default)) for name, default in
                       (("REPLICA_ROUNDS", "200"), ("LANES", "1"), ("SEED", "1")))
# Seconds of a test of the long form, and of all rounds of a lane.
LONG, ALL_ROUNDS = 3_600, 36_000

pytestmark = [pytest.mark.root, pytest.mark.alone, pytest.mark.needs(*TOOLS), pytest.mark.timeout(LONG)]
one_store = pytest.mark.xdist_group("replicas-0")


def lacking() -> list[str]:
    """Return the requirements that this machine lacks."""
    missing = [path for path in ("/dev/loop-control", "/dev/fuse") if not Path(path).exists()]
    if subprocess.run([PYTHON, "-c", "import rados"], capture_output=True, timeout=60).returncode:
        missing.append("python3-rados")
    words = ["unshare", "--net", "--mount", "--pid", "--uts", "--fork", "--mount-proc", "sh", "-c", TRIAL]
    with contextlib.suppress(subprocess.TimeoutExpired):
        if missing or subprocess.run(words, capture_output=True, timeout=60).returncode:
            return missing or ["name spaces with mounts and networks"]
    free = int(re.findall(r"MemAvailable: *(\d+)", Path("/proc/meminfo").read_text())[0]) << 10
    missing += [] if free > MEMORY else [f"{MEMORY >> 30} GiB of memory free"]
    return missing + ([] if shutil.disk_usage(tempfile.gettempdir()).free > ROOM
                      else [f"{ROOM >> 30} GiB free in {tempfile.gettempdir()}"])


class Deadline:
    """The deadline of all tests of the gate."""

    def __init__(self, is_long: bool) -> None:
        self.end = None if is_long else time.monotonic() + SHORT_SECONDS

    @contextlib.contextmanager
    def kept(self) -> Iterator[None]:
        """Skip a step that ends after the deadline, or is stuck before it."""
        if self.end is None:
            yield
            return
        # (pytest-timeout has SIGALRM)
        main = threading.main_thread().ident
        assert main
        before = signal.signal(signal.SIGUSR1, late)
        timer = threading.Timer(max(0.0, self.end - time.monotonic()), signal.pthread_kill, (main, signal.SIGUSR1))
        try:
            timer.start()
            yield
        except (Late, Stuck) as fault:
            pytest.skip(f"the store is too slow here; nothing was lost until then: {fault}")
        finally:
            timer.cancel()
            signal.signal(signal.SIGUSR1, before)


def late(*_: object) -> None:
    """End a step of the gate."""
    raise Late(f"{SHORT_SECONDS} seconds are over")


@pytest.fixture(scope="session")
def deadline(request: pytest.FixtureRequest) -> Deadline:
    """Return the deadline of the gate, counted from the first test."""
    return Deadline(bool(request.config.getoption("--long")))


@pytest.fixture(scope="session")
def relay(program: str, deadline: Deadline) -> Iterator[Any]:
    """Make a CephFS of three machines, with a source on the first one."""
    if missing := lacking():
        pytest.skip(f"this machine has not {', '.join(missing)}")
    with tempfile.TemporaryDirectory(prefix="replicas-", ignore_cleanup_errors=True) as room:
        with three(room) as (switch, machines):
            store = CephFS(switch, machines, room)
            try:
                with deadline.kept():
                    store.make()
                    store.heal()
                    made = Relay(store, program, random.Random(SEED))
                    made.begin()
                yield made
            finally:
                store.close()


@one_store
@pytest.mark.parametrize("state", WRONG)
def test_the_comparison_notices_a_wrong_state(relay: Any, state: str) -> None:
    assert is_noticed(relay.source, relay.running, state)


@one_store
@pytest.mark.parametrize("kind", [kind if kind in SHORT else pytest.param(kind, marks=pytest.mark.long)
                                  for kind in rounds.KINDS], ids=lambda kind: str(kind.__name__))
def test_a_takeover_loses_no_acknowledged_command(relay: Any, deadline: Deadline, kind: Any) -> None:
    with deadline.kept():
        print(rounds.one_round(relay, kind))


def kinds_of(draw: random.Random, number: int) -> Iterator[Any]:
    """Yield kinds of failure, all of them equally often, in random order."""
    while number > 0:
        order = draw.sample(rounds.KINDS, len(rounds.KINDS))
        yield from order[:number]
        number -= len(order)


@pytest.mark.long
@pytest.mark.timeout(ALL_ROUNDS)
@pytest.mark.parametrize("lane", [pytest.param(lane, marks=pytest.mark.xdist_group(f"replicas-{lane}"))
                                  for lane in range(LANES)])
def test_rounds_of_all_kinds_lose_no_acknowledged_command(relay: Any, lane: int) -> None:
    """Every lane has its own store, on its own worker of xdist."""
    relay.draw.seed(SEED + lane)
    for number, kind in enumerate(kinds_of(random.Random(SEED + lane), ROUNDS // LANES + (lane < ROUNDS % LANES)), 1):
        _, text = rounds.one_round(relay, kind)
        print(f"round {number}, {kind.__name__}: {text}; {relay.source.acknowledged} acknowledged", flush=True)


@one_store
@pytest.mark.long
@pytest.mark.parametrize(("way", "number"), [(way, number) for number, way in enumerate(ways.WAYS)],
                         ids=lambda value: getattr(value, "__name__", str(value)))
def test_no_way_in_which_another_store_lost_loses_a_command(relay: Any, way: Any, number: int) -> None:
    relay.inode = int(relay.at.done("stat", "-c", "%i", relay.store.file(relay.at)))
    relay.feed(4)
    print(way(relay))


@one_store
@pytest.mark.long
def test_serve_answers_while_copies_are_gone(relay: Any) -> None:
    """Print the duration of a put on the store and on a disk, and the responses of `serve`."""
    times.puts(relay)
    times.served(relay)


@one_store
@pytest.mark.long
@pytest.mark.needs("rbd-fuse")
@pytest.mark.parametrize("control", [controls.rbd_fuse_with_its_cache, controls.a_writer_that_is_not_fenced],
                         ids=lambda control: str(control.__name__))
def test_a_control_on_an_image_of_ceph_loses(relay: Any, image: Any, control: Any) -> None:
    assert control(relay, image), "it was not seen to lose"


@pytest.fixture(scope="session")
def image(relay: Any) -> Any:
    """Return an image of Ceph that rbd-fuse mounts."""
    return RbdFuse(relay.store)


@pytest.fixture(scope="module")
def gluster() -> Iterator[Any]:
    """Make a GlusterFS of three machines."""
    with tempfile.TemporaryDirectory(prefix="replicas-", ignore_cleanup_errors=True) as room:
        with three(room, "600M") as (_, machines):
            store = GlusterFS(machines)
            store.make()
            yield machines, store


@pytest.mark.long
@pytest.mark.xdist_group("replicas-gluster")
@pytest.mark.needs("glusterd", "glusterfs", "gluster")
@pytest.mark.parametrize("control", [controls.gluster_at_a_handover, controls.gluster_with_two_writers],
                         ids=lambda control: str(control.__name__))
def test_a_control_on_glusterfs_loses(program: str, gluster: Any, control: Any) -> None:
    machines, store = gluster
    assert control(machines, store, program, random.Random(SEED)), "it was not seen to lose"
