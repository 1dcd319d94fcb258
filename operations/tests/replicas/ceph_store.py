"""Run a CephFS over three machines as in operations/docs/REPLICAS.md, and take the steps of this page.

Every machine has a monitor, a copy (OSD) and a metadata server. The manager, which collects statistics and makes no
decision, runs outside the machines.
"""
import json
import select
import subprocess
import uuid
from pathlib import Path

from operations.tests import PYTHON
from operations.tests.replicas.machines import SECONDS, Stuck, done, until

# The settings of operations/docs/REPLICAS.md.
PAGE = {
    "osd_pool_default_size": 3,
    "osd_pool_default_min_size": 2,
    "osd_heartbeat_interval": 2,
    "osd_heartbeat_grace": 6,
    "mon_osd_min_down_reporters": 1,
    "mon_lease": 2,
    "mon_election_timeout": 2,
    "mds_beacon_interval": 2,
    "mds_beacon_grace": 8,
    # (if a machine dies with its monitor, this grace applies: 60 s by default)
    "mds_beacon_mon_down_grace": 8,
    "mds_reconnect_timeout": 10,
}
# Settings for a small cluster, without the warnings about its size.
SMALL = {
    "auth_cluster_required": "none",
    "auth_service_required": "none",
    "auth_client_required": "none",
    "auth_allow_insecure_global_id_reclaim": "false",
    "osd_pool_default_pg_autoscale_mode": "off",
    "osd_pool_default_pg_num": 8,
    "osd_objectstore": "bluestore",
    "bluestore_block_size": 2 << 30,
    "bluestore_block_create": "true",
    "bluestore_cache_autotune": "false",
    "bluestore_cache_size": 64 << 20,
    "osd_memory_target": 900 << 20,
    "mds_cache_memory_limit": 128 << 20,
    "mon_data_avail_warn": 2,
    "mon_data_avail_crit": 1,
    "mon_max_pg_per_osd": 500,
    "mon_clock_drift_allowed": 1,
    "mgr_stats_period": 1,
    "rados_mon_op_timeout": 30,
    "crash_dir": "/nowhere",
}
# A script that sends commands to the monitors: one line of JSON in, one line out. Starting `ceph` takes half a second
# of a processor. Debian's Python, which has the module of Ceph, runs the script.
ASKER = """
import json, sys, rados
with rados.Rados(conffile=sys.argv[1], name="client.admin") as cluster:
    print("ready", flush=True)
    for line in sys.stdin:
        status, text, words = cluster.mon_command(line.strip(), b"")
        print(json.dumps([status, text.decode(errors="replace"), words]), flush=True)
"""
FOLDER, NAME = "mnt", "source.disk"
A_YEAR = 31_536_000
# Timeouts in seconds. A request to a metadata server that hangs is retried, as another server may replace it.
TOLD_WITHIN, EVICTED_WITHIN = 15, 180


class Asker:
    """Ask the monitors by a process in the switch's network."""

    def __init__(self, switch, conf):
        self.words = [PYTHON, "-c", ASKER, conf]
        self.switch, self.process = switch, None

    def start(self):
        """Start the process that asks the monitors."""
        self.process = self.switch.started(*self.words, stdin=subprocess.PIPE, stdout=subprocess.PIPE,
                                           stderr=subprocess.DEVNULL, bufsize=0)
        if self.line(SECONDS) != b"ready\n":
            raise Stuck("the monitors do not answer")

    def line(self, seconds):
        """Return a line of its output, or "" after a timeout."""
        is_told, _, _ = select.select([self.process.stdout], [], [], seconds)
        return self.process.stdout.readline() if is_told else b""

    def close(self):
        """End the process, if there is one."""
        if self.process:
            self.process.kill()
            self.process.wait()
            self.process.stdin.close()
            self.process.stdout.close()
            self.process = None

    def query(self, prefix, **words):
        """Return the response of the monitors as a value, or None after half a minute."""
        try:
            if not self.process:
                self.start()
            self.process.stdin.write(json.dumps({"prefix": prefix, "format": "json", **words}).encode() + b"\n")
            status, text, _ = json.loads(self.line(45))
        except (ValueError, OSError, Stuck):
            self.close()
            return None
        # (a line follows the list of fences)
        return None if status else json.JSONDecoder().raw_decode(text.strip() or "null")[0]


class CephFS:
    """The file system, over running machines."""

    def __init__(self, switch, machines, room, settings=None):
        self.switch, self.machines, self.room = switch, machines, Path(room)
        self.conf, self.fsid, self.manager = self.room / "ceph.conf", str(uuid.uuid4()), None
        self.settings = {**SMALL, **PAGE, **(settings or {})}
        self.asker, self.heard = Asker(switch, self.conf), None

    def configure(self):
        """Write the settings of all daemons and clients."""
        addresses = ",".join(machine.address for machine in self.machines)
        places = {"fsid": self.fsid, "mon_host": addresses,
                  "mon_initial_members": ",".join(machine.name for machine in self.machines),
                  "public_network": "10.78.0.0/24", "run_dir": "/run/ceph",
                  "admin_socket": "/run/ceph/$cluster-$name.$pid.$cctid.asok",
                  "log_file": f"{self.room}/$host/$name.log", "mon_cluster_log_file": f"{self.room}/$host/cluster.log",
                  "mon_data": f"{self.room}/$host/data/mon", "osd_data": f"{self.room}/$host/data/osd",
                  "mds_data": f"{self.room}/$host/data/mds",
                  "mgr_data": f"{self.room}/m0/mgr", "keyring": f"{self.room}/keyring"}
        self.conf.write_text("[global]\n"
                             + "".join(f"{key} = {value}\n" for key, value in {**places, **self.settings}.items()))
        (self.room / "keyring").touch()
        (self.room / "m0" / "mgr").mkdir(parents=True, exist_ok=True)

    def daemon(self, machine, *words, **how):
        """Run a program of Ceph on a machine; daemons continue in the background."""
        return machine.done(words[0], "--conf", self.conf, *words[1:], **how)

    def start_monitor(self, machine):
        """Start the monitor of a machine."""
        self.daemon(machine, "ceph-mon", "-i", machine.name, "--public-addr", machine.address)

    def start_copy(self, machine):
        """Start the process of the copy of a machine."""
        self.daemon(machine, "ceph-osd", "-i", machine.number - 1)

    def start_metadata(self, machine):
        """Start the metadata server of a machine."""
        self.daemon(machine, "ceph-mds", "-i", machine.name)

    def start_missing(self, machine):
        """Start the daemons that do not run on a machine."""
        for name, start in (("mon", self.start_monitor), ("osd", self.start_copy), ("mds", self.start_metadata)):
            if not machine.processes(f"^ceph-{name} "):
                start(machine)

    def make(self):
        """Make the cluster and its file system."""
        self.configure()
        monitors = [words for machine in self.machines
                    for words in ("--addv", machine.name, f"[v2:{machine.address}:3300,v1:{machine.address}:6789]")]
        done(["monmaptool", "--create", "--clobber", "--fsid", self.fsid, *monitors, self.room / "monmap"])
        for machine in self.machines:
            self.daemon(machine, "ceph-mon", "--mkfs", "-i", machine.name, "--monmap", self.room / "monmap")
            self.start_monitor(machine)
        until(lambda: len((self.asker.query("quorum_status") or {"quorum": []})["quorum"]) == 3, 90,
              "three monitors agree")
        self.manager = self.switch.started("ceph-mgr", "--conf", self.conf, "-i", "x", "-f", stdout=subprocess.DEVNULL,
                                           stderr=subprocess.DEVNULL)
        for machine in self.machines:
            self.make_copy(machine)
        for machine in self.machines:
            (machine.data / "mds").mkdir(exist_ok=True)
            machine.done("mkdir", "-p", machine.data / "mds")
            self.start_metadata(machine)
        for pool in ("data", "meta"):
            self.must("osd pool create", pool=pool, pg_num=8)
        self.must("fs new", fs_name="fs", metadata="meta", data="data")

    def must(self, prefix, **words):
        """Send the monitors a command that must succeed; callers wait for its effect."""
        self.asker.query(prefix, **words)

    def make_copy(self, machine):
        """Make the copy of a machine, and start its process."""
        number, name = machine.number - 1, str(uuid.uuid4())
        self.must("osd new", uuid=name, id=str(number))
        machine.done("mkdir", "-p", machine.data / "osd")
        self.daemon(machine, "ceph-osd", "-i", number, "--mkfs", "--osd-uuid", name, seconds=120)
        self.start_copy(machine)

    def close(self):
        """End the processes outside the machines."""
        self.asker.close()
        if self.manager:
            self.manager.kill()
            self.manager.wait()

    def status(self):
        """Return the status of the cluster, or {} if the monitors do not answer."""
        return self.asker.query("status") or {}

    def ails(self):
        """Return the reason why the cluster is not healthy, or ""."""
        status = self.status()
        if not status:
            return "no answer"
        states = {state["state_name"]: state["count"] for state in status["pgmap"].get("pgs_by_state", [])}
        counts = len(status["quorum"]), status["osdmap"]["num_up_osds"], status["fsmap"].get("up:standby", 0)
        is_clean = states and all(set(state.split("+")) <= {"active", "clean", "scrubbing", "deep"} for state in states)
        if counts == (3, 3, 2) and is_clean and status["health"]["status"] == "HEALTH_OK":
            return ""
        return (f"monitors, copies and servers that stand by {counts}, groups {states}, "
                f"{list(status['health']['checks'])}")

    def heal(self, seconds=180):
        """Wait until the cluster is healthy; return the seconds."""
        try:
            return until(lambda: not self.ails(), seconds, "HEALTH_OK", 0.3)[1]
        except Stuck as stuck:
            raise Stuck(f"{stuck}: {self.ails()}") from None

    # The steps of the page.
    def folder(self, machine):
        """Return the mount point of a machine."""
        return machine.room / FOLDER

    def file(self, machine):
        """Return the file of the source on a machine."""
        return self.folder(machine) / NAME

    def mount(self, machine, *more, seconds=100):
        """Mount the file system on a machine."""
        machine.done("mkdir", "-p", self.folder(machine))
        output = self.daemon(machine, "ceph-fuse", *more, self.folder(machine), seconds=seconds)
        if machine.done("stat", "-f", "-c", "%T", self.folder(machine)) != "fuseblk":
            raise Stuck(f"no file system on {machine.name}: {output}")

    def unmount(self, machine, is_lost=False):
        """Unmount the file system; `is_lost` kills the process of the mount."""
        if is_lost:
            machine.kill("^ceph-fuse ")
            machine.done("umount", "--lazy", self.folder(machine), check=False)
            return
        machine.done("umount", self.folder(machine))
        until(lambda: not machine.processes("^ceph-fuse "), SECONDS, f"the end of the mount on {machine.name}")

    def end_sessions(self, machine, by):
        """End the sessions of a machine's mounts. Return whether the metadata server answered all requests."""
        try:
            output = self.command(by, "tell", "mds.fs:0", "session", "ls", seconds=TOLD_WITHIN)
            for session in json.loads(output[output.index("["):]):
                if session["entity"]["addr"]["addr"].startswith(machine.address + ":"):
                    self.command(by, "tell", "mds.fs:0", "client", "evict", f"id={session['id']}", seconds=TOLD_WITHIN)
            return True
        except (Stuck, ValueError) as fault:
            self.heard = fault
            return False

    def command(self, by, *words, seconds=SECONDS):
        """Run the command `ceph` on a machine; return its standard output."""
        quiet = ["sh", "-c", 'exec "$@" 2>/dev/null', "sh", "ceph", "--conf", self.conf, "--connect-timeout", 30,
                 "--format", "json", *words]
        return by.done(*quiet, seconds=seconds)

    def fence(self, machine, by):
        """Fence a machine's mounts from another machine: no copy accepts its writes, and its sessions end."""
        self.command(by, "osd", "blocklist", "add", machine.address, A_YEAR)
        try:
            until(lambda: self.end_sessions(machine, by), EVICTED_WITHIN, f"the end of the sessions of {machine.name}",
                  0.5)
        except Stuck as stuck:
            raise Stuck(f"{stuck}: {self.heard}; {self.ails()}") from None

    def fences(self, machine):
        """Return the fences of a machine's mounts with their ends, or None if the monitors do not answer."""
        found = (self.asker.query("osd dump") or {}).get("blocklist")
        # (a mount has port 0; a fenced metadata server has another port)
        return None if found is None else {address: end for address, end in found.items()
                                           if address.startswith(f"{machine.address}:0/")}

    def lift(self, machine):
        """Remove the fences of a machine's mounts; its old processes must have ended."""
        def is_lifted():
            fences = self.fences(machine)
            for address in fences or {}:
                self.must("osd blocklist", blocklistop="rm", addr=address)
            return fences == {}

        until(is_lifted, SECONDS, f"the fence of {machine.name} is lifted", 0.2)
