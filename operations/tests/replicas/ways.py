"""Cause on CephFS the four failures in which default GlusterFS broke the promise.

After a failure the source on another machine is compared with all acknowledged commands, to the byte.
"""
import signal
import time

from operations.tests.replicas.acknowledged import RUNS, Program, opened
from operations.tests.replicas.machines import SECONDS, Ended, until
from operations.tests.replicas.relay import Feeding
from tests.program import Differs, compare

HANDOVERS, LATE, TIMES = 20, 12, 3


def copies_of(relay):
    """Return the numbers of the machines whose copies have the file's first object, the primary copy first."""
    file = relay.store.file(relay.at)
    name = f"{int(relay.at.done('stat', '-c', '%i', file)):x}.00000000"
    found = relay.store.asker.query("osd map", pool="data", object=name)
    return [number + 1 for number in found["acting"]]


def up(relay):
    """Return the number of copies that are up, by the monitors."""
    return len([copy for copy in (relay.store.asker.query("osd dump") or {"osds": []})["osds"] if copy["up"]])


def leave(relay):
    """Close the source, and unmount its store."""
    relay.running.close()
    relay.store.unmount(relay.at)


def take(relay, to):
    """Open the source on another machine, and compare it."""
    relay.mount(to)
    relay.running, relay.at = opened(to, relay.program, relay.store.file(to))[0], to
    relay.source.settle(relay.running)


def halted_and_dead(draw, first, others):
    """Draw the numbers of the one or two other copies that a write does not reach, and of the copy that dies."""
    halted = others if draw.random() < 0.5 else [draw.choice(others)]
    living = [number for number in (first, *others) if number not in halted]
    return halted, first if len(halted) == 2 else draw.choice(living)


def copies_that_differ(relay):
    """Let a write reach some of the copies, then kill its machine and one copy. B opens without that copy; it returns,
    another copy dies, and C opens.
    """
    here, (first, *others) = relay.at, copies_of(relay)
    by_number = {machine.number: machine for machine in relay.machines}
    halted, number_of_dead = halted_and_dead(relay.draw, first, others)
    dead = by_number[number_of_dead]
    there, third = [machine for machine in relay.machines if machine is not here]
    feeding, late = Feeding(relay.source, relay.running), relay.running
    feeding.start()
    time.sleep(relay.draw.random() * 0.3)
    for number in halted:
        by_number[number].send(signal.SIGSTOP, "^ceph-osd ")
    time.sleep(0.3)
    dead.kill("^ceph-osd ")
    # (the program may hang in a call until its mount is gone)
    here.send(signal.SIGKILL, RUNS)
    here.kill("^ceph-fuse ")
    for number in halted:
        by_number[number].send(signal.SIGCONT, "^ceph-osd ")
    feeding.over()
    late.drop()
    relay.store.unmount(here, is_lost=True)
    relay.store.fence(here, there)
    relay.open_on(there, here)
    relay.source.settle(relay.running)
    leave(relay)
    relay.store.start_missing(dead)
    until(lambda: up(relay) == 3, 60, "the copy that was dead is back")
    again = relay.draw.choice([machine for machine in relay.machines if machine is not dead])
    again.kill("^ceph-osd ")
    take(relay, third)
    relay.store.start_missing(again)
    relay.store.lift(here)
    relay.store.heal()
    leave(relay)
    take(relay, here)
    return (f"halted {halted}, dead {dead.number}, then {again.number}: {there.name}, "
            f"{third.name} and {here.name} show the same")


def an_old_copy_that_comes_back(relay):
    """Cut A's power, so that B takes over. A returns, B acknowledges at once and loses its power, and A opens again."""
    here = relay.at
    there = relay.draw.choice([machine for machine in relay.machines if machine is not here])
    late = relay.running
    here.die(by_power=True)
    late.drop()
    relay.store.fence(here, there)
    relay.open_on(there, here)
    relay.source.settle(relay.running)
    relay.feed(10)
    here.start()
    relay.store.start_missing(here)
    until(lambda: up(relay) == 3, 60, "the copy that was dead is back", 0.05)
    ails = relay.store.ails()
    relay.feed(LATE)
    late = relay.running
    there.die(by_power=True)
    late.drop()
    relay.store.lift(here)
    relay.store.fence(there, here)
    relay.open_on(here, there)
    relay.source.settle(relay.running)
    relay.clear(there)
    return f"when it was back, the store said: {ails or 'all is well'}"


def an_old_copy_alone(relay):
    """Kill two copies while the third has missed commands: no machine reads it, with `min_size` 2 or 1. Once another
    copy is back, all commands are there.
    """
    here, seconds = relay.at, []
    for least in (2, 1):
        relay.store.must("osd pool set", pool="data", var="min_size", val=str(least))
        old, *others = [machine for machine in relay.machines if machine is not here] + [here]
        old.kill("^ceph-osd ")
        time.sleep(1)
        relay.feed(LATE)
        leave(relay)
        for machine in others:
            machine.kill("^ceph-osd ")
        relay.store.start_missing(old)
        time.sleep(2)
        # (a read of the file's first object must time out)
        name = f"{relay.inode:x}.00000000"
        output = old.done("timeout", "-s", "KILL", 15, "rados", "--conf", relay.store.conf, "-p", "data", "get", name,
                          "/run/read", check=False)
        if old.done("sh", "-c", "stat -c %s /run/read 2>/dev/null || echo 0") != "0":
            raise Differs(f"an old copy alone was read: {output}")
        relay.store.start_missing(others[0])
        began = time.monotonic()
        take(relay, here)
        seconds.append(time.monotonic() - began)
        relay.store.start_missing(others[1])
        relay.store.heal()
    relay.store.must("osd pool set", pool="data", var="min_size", val="2")
    return f"with another one it was open after {', '.join(f'{duration:.1f}' for duration in seconds)} s"


def two_writers(relay):
    """Restart copies and fail the metadata server while A is open and at rest: B cannot open the file or take over."""
    here, there = relay.at, next(machine for machine in relay.machines if machine is not relay.at)
    relay.mount(there)
    refusals = 0
    for machine in relay.machines:
        machine.kill("^ceph-osd ")
        relay.store.start_missing(machine)
        relay.store.must("mds fail", role_or_gid="0")
        for _ in range(2):
            program = Program(there, relay.program, relay.store.file(there))
            try:
                raise Differs(f"B opened beside A: {program.ask('status', SECONDS)!r}")
            except Ended:
                compare("what B is answered", b"rs_source: Device\n", program.close())
                refusals += 1
            time.sleep(1)
        relay.store.heal()
    relay.takeover(there, here, status=1, wait=0)
    relay.takeover(there, here, "--planned", status=1, wait=0)
    relay.feed(3)
    relay.source.settle(relay.running)
    relay.store.unmount(there)
    return f"{refusals} openings and two takeovers were refused"


def old_bytes_at_a_handover(relay):
    """Close A and open B at once, and back, several times; both mounts stay."""
    here, there = relay.at, next(machine for machine in relay.machines if machine is not relay.at)
    relay.mount(there)
    waits = []
    for _ in range(HANDOVERS):
        relay.feed(relay.draw.randrange(2, 6))
        to = there if relay.at is here else here
        began = time.monotonic()
        relay.running.close()
        relay.running, relay.at = opened(to, relay.program, relay.store.file(to))[0], to
        waits.append(time.monotonic() - began)
        relay.source.settle(relay.running)
    relay.store.unmount(there if relay.at is here else here)
    return f"{HANDOVERS} handovers, the longest of {max(waits):.1f} s"


WAYS = [copies_that_differ] * TIMES + [an_old_copy_that_comes_back] * TIMES + [an_old_copy_alone, two_writers,
                                                                               old_bytes_at_a_handover]
