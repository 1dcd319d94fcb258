"""Run a GlusterFS volume over three machines, all with a copy, with default options: a control, which must lose."""
import re
import signal

from operations.tests.replicas.machines import SECONDS, Stuck, until

VOLUME, NAME = "rp", "source.disk"
# The service's own folders are the machine's.
FOLDERS = """
set -e
for it in lib log; do mkdir -p "$1/$it"; done
mkdir -p "$1/copy" "$2" /var/log/glusterfs
mount --bind "$1/lib" /var/lib/glusterd
mount --bind "$1/log" /var/log/glusterfs
"""


class GlusterFS:
    """The volume, over running machines."""

    def __init__(self, machines):
        self.machines = machines

    def folder(self, machine):
        """Return the mount point of a machine."""
        return machine.room / "gluster"

    def file(self, machine):
        """Return the file of the source on a machine."""
        return self.folder(machine) / NAME

    def command(self, *words, seconds=SECONDS):
        """Run a command of the store on the first machine."""
        return self.machines[0].done("gluster", "--mode=script", *words, seconds=seconds)

    def make(self):
        """Make the volume, and mount it on all machines."""
        for machine in self.machines:
            machine.done("sh", "-c", FOLDERS, "sh", machine.data, self.folder(machine))
            machine.done("glusterd")
        for machine in self.machines[1:]:
            self.command("peer", "probe", machine.address)
        until(lambda: self.command("pool", "list").count("Connected") == 3, SECONDS, "three peers", 0.5)
        self.command("volume", "create", VOLUME, "replica", 3,
                     *(f"{machine.address}:{machine.data}/copy/{VOLUME}" for machine in self.machines))
        self.command("volume", "start", VOLUME)
        for machine in self.machines:
            self.mount(machine)

    def mount(self, machine):
        """Mount the volume on a machine."""
        machine.done("glusterfs", "--process-name", "fuse", f"--volfile-server={machine.address}",
                     f"--volfile-id={VOLUME}", self.folder(machine))
        if machine.done("stat", "-f", "-c", "%T", self.folder(machine)) != "fuseblk":
            raise Stuck(f"no volume on {machine.name}")

    def copies(self):
        """Return the number of copies with a healthy process."""
        is_well = r"<path>/[^<]*</path>\s*<peerid>[^<]*</peerid>\s*<status>1</status>"
        return len(re.findall(is_well, self.command("--xml", "volume", "status", VOLUME)))

    def renew_copies(self, each):
        """Kill and restart the processes of the copies in turn, with a pause in seconds between."""
        for machine in self.machines:
            machine.send(signal.SIGKILL, r"^\S*glusterfsd ")
            each()
            self.command("volume", "start", VOLUME, "force")
            until(lambda: self.copies() == 3, SECONDS, "three copies", 0.5)
            each()
