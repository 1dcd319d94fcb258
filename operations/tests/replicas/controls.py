"""Run stores and settings that lose acknowledged commands, which the comparisons must detect.

A control returns the loss, or "" if no attempt lost a command.
"""
import time

from operations.tests.replicas.acknowledged import Program, Source, formatted, opened
from operations.tests.replicas.machines import SECONDS, Ended
from operations.tests.replicas.relay import Feeding
from tests.program import Differs

TRIES = 20
# GlusterFS caches a file of this size for a second, even if another machine writes.
SMALL = 49_152


def lost(program, source):
    """Return the acknowledged commands that a program does not show, or ""."""
    try:
        source.settle(program)
    except Differs as fault:
        return str(fault)[:160]
    return ""


def rbd_fuse_with_its_cache(relay, image):
    """Fence A during commands, and open B. `rbd-fuse` reports success of a sync even if its flush failed."""
    here, there = relay.machines[:2]
    for number in range(TRIES):
        image.make(here, relay.program)
        source = Source(relay.draw)
        image.mount(here)
        program, _ = opened(here, relay.program, image.file(here))
        source.feed(program, 3)
        feeding = Feeding(source, program)
        feeding.start()
        time.sleep(relay.draw.random() * 0.2)
        image.fence(here, there)
        feeding.over()
        program.drop()
        image.unmount(here)
        image.mount(there)
        program, _ = opened(there, relay.program, image.file(there))
        found = lost(program, source)
        program.close()
        image.unmount(there)
        relay.store.lift(here)
        if found:
            return f"at try {number + 1}: {found}"
    return ""


def a_writer_that_is_not_fenced(relay, image):
    """Open B while A is open and at rest on `rbd-fuse`. Both acknowledge puts."""
    here, there = relay.machines[:2]
    image.make(here, relay.program)
    image.mount(here)
    first, source = opened(here, relay.program, image.file(here))[0], Source(relay.draw)
    source.feed(first, 3)
    image.mount(there)
    second = opened(there, relay.program, image.file(there))[0]
    source.feed(second, 2)
    answers = [first.ask(f"put a{number} 00 text/plain", SECONDS) for number in range(2)]
    first.drop()
    second.drop()
    for machine in (here, there):
        image.unmount(machine)
    if not all(answer.startswith(b"created") for answer in answers):
        return ""
    image.mount(there)
    program = opened(there, relay.program, image.file(there))[0]
    found = lost(program, source)
    program.drop()
    image.unmount(there)
    return found


def gluster_at_a_handover(machines, store, program, draw):
    """Close A, and open B at once, with a small source; both mounts stay."""
    source, (here, there, _) = Source(draw), machines
    here.done(program, "format", store.file(here), SMALL, "https://s.example.org", 100)
    time.sleep(2)
    for number in range(TRIES):
        running, _ = opened(here, program, store.file(here))
        source.small(running)
        # (the standby machine reads the file, as `ropepeach look` does while it is served)
        there.done("cat", store.file(there))
        source.small(running)
        running.close()
        try:
            running, _ = opened(there, program, store.file(there))
            found = lost(running, source)
            running.close()
        except Differs as fault:
            found = str(fault)[:160]
        if found:
            return f"at handover {number + 1}: {found}"
        here, there = there, here
    return ""


def gluster_with_two_writers(machines, store, program, draw):
    """Restart the processes of the copies in turn while the first machine has the source open and idle.

    Then open it on the second; both acknowledge puts.
    """
    source, (here, there, _) = Source(draw), machines
    here.done("rm", "-f", store.file(here))
    formatted(here, program, store.file(here))
    first = opened(here, program, store.file(here))[0]
    source.feed(first, 3)
    store.renew_copies(lambda: time.sleep(5))
    second = Program(there, program, store.file(there))
    try:
        if not second.ask("status", SECONDS).startswith(b"resources"):
            return ""
    except Ended:
        return ""
    source.feed(second, 2)
    answers = [first.ask(f"put a{number} 00 text/plain", SECONDS) for number in range(2)]
    first.drop()
    second.drop()
    if not all(answer.startswith(b"created") for answer in answers):
        return ""
    try:
        running, _ = opened(there, program, store.file(there))
        found = lost(running, source)
        running.drop()
    except Differs as fault:
        return str(fault)[:160]
    return found
