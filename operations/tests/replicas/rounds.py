"""Run rounds: the serving machine fails during commands, another machine takes over by the page's steps, and the source
returns later.

The functions below are the kinds of failure. The source is compared with the acknowledged commands, to the byte, after
both moves, and again after a surviving machine regains access to the store.
"""
import signal
import time

from operations.tests.replicas.acknowledged import RUNS
from operations.tests.replicas.relay import Feeding
from tests.program import Differs

# Seconds without a copy's process before the program is killed too.
WITHOUT_A_COPY = 2


def own_copy(here, there):
    """Kill the process of the copy on the serving machine."""
    here.kill("^ceph-osd ")


def other_copy(here, there):
    """Kill the process of the copy on the machine that takes over."""
    there.kill("^ceph-osd ")


def mount(here, there):
    """Kill the process of the mount."""
    here.kill("^ceph-fuse ")


def program(here, there):
    """Kill the program."""
    here.kill(RUNS)


def machine(here, there):
    """Kill the whole machine at once."""
    here.die()


def power(here, there):
    """Cut the machine's power: unsynced data on its disk is lost too."""
    here.die(by_power=True)


def network(here, there):
    """Disconnect the machine during a command. It runs on, and returns while another machine serves."""
    here.connect(False)


def network_at_rest(here, there):
    """Disconnect the machine while no command is in progress."""
    here.connect(False)


def hang(here, there):
    """Freeze the machine, which wakes up while another machine serves."""
    here.send(signal.SIGSTOP, ".")


KINDS = [own_copy, other_copy, mount, program, machine, power, network, network_at_rest, hang]
# Kinds after which the machine is alive while another one serves.
SURVIVORS = (network, network_at_rest, hang)
COPIES = (own_copy, other_copy)


def wake(kind, here):
    """Let the fenced machine continue."""
    if kind is hang:
        here.send(signal.SIGCONT, ".")
    else:
        here.connect(True)


def meet(relay, kind, there):
    """Cause the failure during commands. Return the running commands, and the time of the failure."""
    here, feeding = relay.at, Feeding(relay.source, relay.running)
    if kind is not network_at_rest:
        feeding.start()
    time.sleep(relay.draw.random())
    before = time.monotonic()
    kind(here, there)
    if kind in COPIES:
        count = relay.source.acknowledged
        time.sleep(WITHOUT_A_COPY)
        relay.goes_on.append(relay.source.acknowledged - count)
        before = time.monotonic()
        here.send(signal.SIGKILL, RUNS)
    if kind not in SURVIVORS:
        feeding.over()
    return feeding, before


def let_back(relay, kind, here, feeding, late, count):
    """Let a surviving machine return while another one serves: it acknowledges no command, and makes no change.

    `count` commands may have been acknowledged: the store's response to an applied command may reach the machine late.
    """
    wake(kind, here)
    if kind is not network_at_rest:
        feeding.over()
    heard = relay.source.heard if kind is not network_at_rest else b"-"
    answers = relay.intrude(late)
    if relay.source.acknowledged > count:
        raise Differs(f"{here.name} was fenced, and acknowledged a command afterwards")
    relay.source.pending = None
    relay.source.settle(relay.running)
    return f"; {here.name} is back, and answers {[heard, *answers]}"


def one_round(relay, kind):
    """Run a round. Return the seconds until the source was open again, and a line about the round."""
    relay.feed(relay.draw.randrange(4, 16))
    here, late = relay.at, relay.running
    there = relay.draw.choice([machine for machine in relay.machines if machine is not here])
    feeding, before = meet(relay, kind, there)
    relay.store.fence(here, there)
    fenced = time.monotonic() - before
    count, stood = relay.source.acknowledged, relay.source.stood
    steps = relay.open_on(there, here)
    seconds = time.monotonic() - before
    relay.source.settle(relay.running)
    text = f"{here.name} to {there.name}, fenced after {fenced:.1f} s, {steps}, open after {seconds:.1f} s"
    if kind in SURVIVORS:
        text += let_back(relay, kind, here, feeding, late, count + relay.source.stood - stood)
    late.drop()
    relay.feed(relay.draw.randrange(3, 9))
    healed = relay.clear(here)
    relay.go_back(here)
    return seconds, f"{text}; well after {healed:.1f} s, and back"
