"""Run three machines on one kernel, with separate networks, mounts, processes and names, and an XFS on a loop device.

A machine dies as a whole with its first process, and all machines die with the process that made them. One kernel
cannot simulate two clocks, two disks below, or a real power cut. `drop_pages` is the closest to a power cut: the
machine's file system forgets unsynced writes.
"""
import contextlib
import fcntl
import os
import re
import select
import signal
import struct
import subprocess
import time
from pathlib import Path

NETWORK = "10.78.0"
# The first process of a machine: it mounts, reports this, and reaps processes below it.
FIRST = """
set -e
mount --make-rprivate /
hostname "$1"
mount -t tmpfs tmpfs /run
mkdir -p /run/ceph /run/gluster /run/lock /var/lib/glusterd "$3"
mount -o loop,noatime "$2" "$3"
echo ready
trap '' TERM INT
while :; do sleep 3600 & wait $!; done
"""
# XFS_IOC_GOINGDOWN of linux/fs/xfs, with XFS_FSOP_GOING_FLAGS_NOLOGFLUSH: no more writes reach the device.
GOING_DOWN, AT_ONCE = 0x8004587D, 2
DYING = ["setpriv", "--pdeathsig", "KILL"]
SECONDS = 60


class Stuck(Exception):
    """A step that failed or took too long."""


class Late(Exception):
    """The time for all tests is over. No step waits after it."""


class Ended(Exception):
    """A program that ended instead of a response."""


def done(words, seconds=SECONDS, check=True):
    """Return the output of a command; kill it after a timeout."""
    try:
        process = subprocess.run(list(map(str, words)), stdin=subprocess.DEVNULL, stdout=subprocess.PIPE,
                                 stderr=subprocess.STDOUT, timeout=seconds + 10)
    except subprocess.TimeoutExpired as late:
        raise Stuck(f"{' '.join(map(str, words))}: no end within {seconds + 10} s: {late.output}") from None
    output = process.stdout.decode(errors="replace").strip()
    if check and process.returncode:
        raise Stuck(f"{' '.join(map(str, words))}: status {process.returncode}: {output[-500:]}")
    return output


def kill(process):
    """Kill a process that was started on a machine, and its child, which entered the machine's processes."""
    with contextlib.suppress(OSError):
        for number in Path(f"/proc/{process.pid}/task/{process.pid}/children").read_text().split():
            os.kill(int(number), signal.SIGKILL)
    process.kill()


def is_over(number):
    """Return whether a process and its threads have ended: until then it holds its files, without a command line."""
    try:
        state = Path(f"/proc/{number}/stat").read_text().rpartition(") ")[2][0]
        return state in "ZX" and len(os.listdir(f"/proc/{number}/task")) == 1
    except OSError:
        return True


def until(is_so, seconds, what, pause=0.1):
    """Wait until a condition is true; return its value and the seconds."""
    started = time.monotonic()
    while not (found := is_so()):
        if time.monotonic() - started > seconds:
            raise Stuck(f"{what}: not within {seconds} s")
        time.sleep(pause)
    return found, time.monotonic() - started


class Switch:
    """The network between the machines, with a namespace for requests to the store."""

    def __init__(self):
        self.process = subprocess.Popen([*DYING, "unshare", "--net", "--uts", "sh", "-c",
                                         "hostname m0; exec sleep infinity"], start_new_session=True)
        ours = os.readlink("/proc/self/ns/net")
        until(lambda: os.readlink(f"/proc/{self.process.pid}/ns/net") != ours, SECONDS, "the network")
        for words in ("set lo up", "add br0 type bridge", "set br0 up"):
            self.done("ip", "link", *words.split())
        self.done("ip", "address", "add", f"{NETWORK}.100/24", "dev", "br0")

    def within(self):
        """Return the words that run a command in its network."""
        return ["nsenter", "-t", str(self.process.pid), "-n", "-u"]

    def done(self, *words, seconds=SECONDS, check=True):
        """Run a command in its network; return its output."""
        return done([*self.within(), "timeout", "-s", "KILL", seconds, *words], seconds, check)

    def started(self, *words, **how):
        """Start a process outside the machines, which ends with this one."""
        return subprocess.Popen([*DYING, *self.within(), *map(str, words)], start_new_session=True, **how)

    def close(self):
        """Remove the network."""
        self.process.kill()
        self.process.wait()


class Machine:
    """A machine of this number, 1 to 3. Its disk survives its death."""

    def __init__(self, number, switch, room, size="8G"):
        self.number, self.switch, self.address, self.name = number, switch, f"{NETWORK}.{number}", f"m{number}"
        self.room = Path(room, self.name)
        self.data, self.disk, self.process = self.room / "data", self.room / "disk.img", None
        self.room.mkdir()
        done(["truncate", "-s", size, self.disk])
        done(["mkfs.xfs", "-q", self.disk])

    def start(self):
        """Start the machine, and join it to the network."""
        words = [*DYING, "unshare", "--net", "--mount", "--pid", "--uts", "--fork", "--kill-child", "--mount-proc"]
        words += ["sh", "-c", FIRST, "sh", self.name, str(self.disk), str(self.data)]
        self.process = subprocess.Popen(words, start_new_session=True, stdin=subprocess.DEVNULL, stdout=subprocess.PIPE,
                                        stderr=subprocess.STDOUT)
        is_told, _, _ = select.select([self.process.stdout], [], [], SECONDS)
        line = self.process.stdout.readline() if is_told else b"nothing"
        if line != b"ready\n":
            raise Stuck(f"{self.name} did not start: {line!r}")
        self.first = int(Path(f"/proc/{self.process.pid}/task/{self.process.pid}/children").read_text().split()[0])
        link, switch = f"v{self.number}", self.switch
        switch.done("ip", "link", "delete", link, check=False)
        # (the network card keeps its address over starts, as a real one does)
        card = ["name", "eth0", "address", f"02:00:00:00:00:0{self.number}", "netns", self.first]
        switch.done("ip", "link", "add", link, "type", "veth", "peer", *card)
        switch.done("ip", "link", "set", link, "master", "br0", "up")
        for words in ("link set lo up", f"address add {self.address}/24 dev eth0", "link set eth0 up"):
            self.done("ip", *words.split())

    @property
    def is_live(self):
        """Return whether the machine runs."""
        return self.process is not None

    def within(self):
        """Return the words that run a command in the machine."""
        return ["nsenter", "-t", str(self.first), "-n", "-m", "-p", "-u"]

    def done(self, *words, seconds=SECONDS, check=True):
        """Return the output of a command on this machine."""
        return done([*self.within(), "timeout", "-s", "KILL", seconds, *words], seconds, check)

    def started(self, *words, **how):
        """Start a process on the machine, which ends with it."""
        return subprocess.Popen([*DYING, *self.within(), *map(str, words)], start_new_session=True, **how)

    def processes(self, pattern):
        """Return the ids of this machine's processes with this command line."""
        ours, found = os.readlink(f"/proc/{self.first}/ns/pid"), []
        for path in Path("/proc").iterdir():
            with contextlib.suppress(OSError):
                if path.name.isdigit() and os.readlink(path / "ns/pid") == ours:
                    words = (path / "cmdline").read_bytes().replace(b"\0", b" ").decode(errors="replace")
                    found += [int(path.name)] if int(path.name) != self.first and re.search(pattern, words) else []
        return found

    def send(self, sign, pattern):
        """Send processes a signal; return their ids."""
        found = self.processes(pattern)
        for number in found:
            with contextlib.suppress(ProcessLookupError):
                os.kill(number, sign)
        return found

    def kill(self, pattern):
        """Kill processes, and wait until they have ended."""
        found = self.send(signal.SIGKILL, pattern)
        until(lambda: all(map(is_over, found)) and not self.processes(pattern), SECONDS,
              f"the end of {pattern} on {self.name}", 0.02)

    def connect(self, is_up):
        """Connect the machine to the network, or disconnect it."""
        self.switch.done("ip", "link", "set", f"v{self.number}", "up" if is_up else "down")

    def drop_pages(self):
        """Shut the machine's file system down without more writes, as in a power cut."""
        number = os.open(f"/proc/{self.first}/root{self.data}", os.O_RDONLY)
        try:
            fcntl.ioctl(number, GOING_DOWN, struct.pack("I", AT_ONCE))
        finally:
            os.close(number)

    def die(self, by_power=False):
        """Kill the whole machine at once; by power, also drop the writes that are not on its disk."""
        if not self.is_live:
            return
        if by_power:
            self.drop_pages()
            self.connect(False)
        with contextlib.suppress(ProcessLookupError):
            os.kill(self.first, signal.SIGKILL)
        try:
            self.process.wait(SECONDS)
        except subprocess.TimeoutExpired:
            self.process.kill()
            self.process.wait(SECONDS)
        self.process.stdout.close()
        self.process = None
        attached = ["losetup", "--list", "--noheadings", "--output", "BACK-FILE"]
        until(lambda: str(self.disk) not in done(attached), SECONDS, f"the disk of {self.name} is free")


@contextlib.contextmanager
def three(room, size="8G"):
    """Yield a switch and three started machines; remove all of them at the end."""
    switch, machines = Switch(), []
    try:
        for number in (1, 2, 3):
            machines.append(Machine(number, switch, room, size))
            machines[-1].start()
        yield switch, machines
    finally:
        for machine in machines:
            with contextlib.suppress(Stuck, OSError, subprocess.SubprocessError):
                machine.die()
        switch.close()
