"""Measure puts on the store and on a disk, and the responses of `serve` while copies are down."""
import contextlib
import random
import statistics
import subprocess
import time

from operations.tests import PYTHON
from operations.tests.replicas.acknowledged import Program, formatted
from operations.tests.replicas.machines import Ended, kill, until
from tests.program import Differs
from tests.threads import beside

PUTS, BODY, PORT = 150, 4_096, "8080"
# Seconds with a single copy, which answers no request, before a copy returns.
ALONE = 15
REQUEST = """import http.client, sys, time
began, connection = time.monotonic(), http.client.HTTPConnection("127.0.0.1", int(sys.argv[1]), timeout=170)
body = b"x" * 4096 if sys.argv[2] == "PUT" else None
connection.request(sys.argv[2], "/resource/served", body, {"Content-Type": "text/plain"})
print(connection.getresponse().status, round(time.monotonic() - began, 2))
"""


def median_put(machine, program, file):
    """Return the median milliseconds of puts of 4 KiB to a new source."""
    formatted(machine, program, file)
    running, body, seconds = Program(machine, program, file), random.Random(1).randbytes(BODY).hex(), []
    for number in range(PUTS):
        began = time.monotonic()
        answer = running.ask(f"put t{number % 24} {body} text/plain")
        seconds.append(time.monotonic() - began)
        if not answer.startswith((b"created", b"updated")):
            raise Differs(f"a put: {answer!r}")
    running.close()
    return 1_000 * statistics.median(seconds)


def puts(relay):
    """Measure puts on the machine's own disk and on the store, alternating three times."""
    here = relay.at
    local, remote = here.data / "timed.disk", relay.store.folder(here) / "timed.disk"
    for _ in range(3):
        print(f"a put of 4 KiB: {median_put(here, relay.program, local):.1f} ms on the machine's own XFS, "
              f"{median_put(here, relay.program, remote):.1f} ms on CephFS, median of {PUTS}", flush=True)
    here.done("rm", "-f", local, remote)


def timed_request(machine, method="PUT"):
    """Return the status of a request on a machine, and its seconds."""
    status, seconds = machine.done(PYTHON, "-c", REQUEST, PORT, method, seconds=180).split()
    return int(status), float(seconds)


def report(what, found):
    """Print responses with their seconds."""
    answers = ", ".join(f"{method} {status} after {seconds:.1f} s" for method, (status, seconds) in found)
    print(f"serve, {what}: {answers}", flush=True)


def alone(relay, here, others):
    """Kill both other copies; print the responses to a PUT and a GET once one copy is back."""
    for machine in others:
        machine.kill("^ceph-osd ")
    found = []

    def ask(method, delay):
        time.sleep(delay)
        found.append((method, timed_request(here, method)))

    with beside(lambda: ask("PUT", 0), lambda: ask("GET", 1)):
        time.sleep(2 + ALONE)
        before = list(found)
        relay.store.start_missing(others[0])
    print(f"serve, with one copy of three: {before or 'no answer'} within {ALONE} s", flush=True)
    report("and after another copy is back", found)


def served(relay):
    """Print the responses of a server on the store while one copy's process, one network, or two copies are down."""
    here, store = relay.at, relay.store
    others = [machine for machine in relay.machines if machine is not here]
    file = store.folder(here) / "served.disk"
    formatted(here, relay.program, file)
    server = here.started(relay.program, "serve", file, PORT, "1000", stdin=subprocess.DEVNULL, stdout=subprocess.PIPE)
    try:
        if not server.stdout.readline().startswith(b"listening"):
            raise Ended("the server does not listen")
        report("with all copies", [("PUT", timed_request(here)), ("GET", timed_request(here, "GET"))])
        others[0].kill("^ceph-osd ")
        report("a copy's process was killed", [("PUT", timed_request(here)), ("PUT", timed_request(here))])
        store.start_missing(others[0])
        store.heal()
        others[0].connect(False)
        report("another machine lost its network", [("PUT", timed_request(here)), ("PUT", timed_request(here))])
        others[0].connect(True)
        store.heal()
        alone(relay, here, others)
        store.start_missing(others[1])
        store.heal()
    finally:
        kill(server)
        with contextlib.suppress(subprocess.TimeoutExpired):
            server.wait(10)
        server.stdout.close()
    until(lambda: not here.processes(r"rs_source serve "), 60, "the end of the server")
    here.done("rm", "-f", file)
