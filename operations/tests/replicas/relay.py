"""Move a source between machines by the steps of operations/docs/REPLICAS.md, and record the acknowledged commands."""
import os
import signal
import subprocess
import sys
import threading
import time

from operations.tests import PYTHON
from operations.tests.replicas.acknowledged import RUNS, Source, formatted, opened
from operations.tests.replicas.machines import SECONDS, Ended, Stuck
from tests.program import TOOLS, Differs

# Seconds that the command waits for the store, and the timeout of the command.
WAIT, LATEST = 120, 300


class Feeding(threading.Thread):
    """Send commands until one is not acknowledged."""

    def __init__(self, source, program):
        super().__init__(daemon=True)
        self.source, self.program, self.fault = source, program, None

    def run(self):
        """Send commands until the program ends, and keep the difference if there is one."""
        try:
            self.source.feed(self.program, sys.maxsize, 150)
        except Differs as fault:
            self.fault = fault

    def over(self, seconds=160):
        """Wait for the end, and raise the difference if there is one."""
        self.join(seconds)
        if self.is_alive():
            raise Stuck(f"a command has no answer {seconds} s later")
        if self.fault:
            raise self.fault


class Relay:
    """The store, the machines, and the source on the serving machine."""

    def __init__(self, store, program, draw):
        self.store, self.machines, self.program, self.draw = store, store.machines, os.path.abspath(program), draw
        self.source, self.at, self.running, self.goes_on = Source(draw), self.machines[0], None, []

    def begin(self):
        """Make a source on the first machine, and open it."""
        self.store.mount(self.at)
        formatted(self.at, self.program, self.store.file(self.at))
        self.running = opened(self.at, self.program, self.store.file(self.at))[0]
        self.feed(3)

    def feed(self, count):
        """Send this many commands, all of which must be acknowledged."""
        if not self.source.feed(self.running, count):
            raise Stuck(f"refused on {self.at.name}, where nothing is wrong: {self.source.heard!r}")

    def takeover(self, to, other, *words, status=0, wait=WAIT):
        """Run `ropepeach takeover` on a machine, check its exit status, and return its output and messages.

        A wrong refusal raises Stuck, as the store may be slow. A wrong success raises Differs.
        """
        command = ["env", f"CEPH_CONF={self.store.conf}", PYTHON, TOOLS / "ropepeach-command", "takeover",
                   self.store.file(to), other.address]
        command += ["--program", self.program, "--wait", wait, *words]
        command = [*to.within(), "timeout", "-s", "KILL", LATEST, *command]
        process = subprocess.run(list(map(str, command)), capture_output=True, text=True, timeout=LATEST + 20)
        if process.returncode != status:
            fault = Differs if status else Stuck
            raise fault(f"takeover on {to.name} from {other.name}: status {process.returncode}, and not {status}: "
                        f"{process.stdout}{process.stderr}")
        return process.stdout + process.stderr

    def open_on(self, to, other, *words):
        """Mount, run the takeover and open the source on a machine. Return the seconds of the steps as a text."""
        began = time.monotonic()
        self.mount(to)
        mounted = time.monotonic()
        self.takeover(to, other, *words)
        looked = time.monotonic()
        self.running, self.at = opened(to, self.program, self.store.file(to))[0], to
        return f"the mount {mounted - began:.1f}, the steps {looked - mounted:.1f}"

    def mount(self, to, seconds=150):
        """Mount the store on a machine; retry for this many seconds."""
        end = time.monotonic() + seconds
        while True:
            try:
                return self.store.mount(to, seconds=60)
            except Stuck as stuck:
                self.store.unmount(to, is_lost=True)
                if time.monotonic() > end:
                    raise
                # (a fence requested while a monitor was down may return after it was lifted)
                if "blocklisted" in str(stuck):
                    print(f"{to.name} is fenced once more: {self.store.fences(to)}", flush=True)
                    self.store.lift(to)

    def go_back(self, to):
        """Move the source as planned: close it here, and open it there."""
        here = self.at
        self.running.close()
        self.store.unmount(here)
        self.open_on(to, here, "--planned")
        self.source.settle(self.running)

    def intrude(self, program):
        """Send puts to a fenced program, and check that it acknowledges no put. Return the responses."""
        answers = []
        for _ in range(2):
            try:
                answers.append(program.ask("put intruder 00 text/plain", SECONDS))
            except (Ended, Stuck) as fault:
                answers.append(str(fault).encode())
            if answers[-1].startswith((b"created", b"updated")):
                raise Differs("a machine that was fenced acknowledged a put")
        return answers

    def clear(self, machine):
        """End all processes of the source on a fenced machine, and return the machine to the store."""
        if machine.is_live:
            machine.send(signal.SIGKILL, RUNS)
            self.store.unmount(machine, is_lost=True)
            machine.kill(RUNS)
            machine.connect(True)
        else:
            machine.start()
        for other in self.machines:
            self.store.start_missing(other)
        self.store.lift(machine)
        return self.store.heal()
