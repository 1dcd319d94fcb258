"""Mount an image of Ceph as a file by `rbd-fuse`, with its cache: a control, which must lose commands."""
import contextlib

from operations.tests.replicas.acknowledged import BASE, LIMIT, SIZE
from operations.tests.replicas.machines import SECONDS, Stuck, until

POOL, IMAGE = "rp", "source"


class RbdFuse:
    """The image, over a running cluster."""

    def __init__(self, store):
        self.store, self.conf = store, store.room / "rbd.conf"
        self.conf.write_text(store.conf.read_text() + "rbd_cache = true\nrbd_cache_policy = writeback\n")
        store.must("osd pool create", pool=POOL, pg_num=8)
        store.must("osd pool application enable", pool=POOL, app="rbd")
        store.heal()

    def make(self, machine, program):
        """Make a new source in a new image."""
        local = machine.room / "image.disk"
        machine.done("rm", "-f", local)
        machine.done(program, "format", local, SIZE, BASE, LIMIT)
        machine.done("rbd", "--conf", self.conf, "rm", f"{POOL}/{IMAGE}", check=False)
        machine.done("rbd", "--conf", self.conf, "import", "--dest-pool", POOL, local, IMAGE)

    def folder(self, machine):
        """Return the mount point of a machine."""
        return machine.room / "rbd"

    def file(self, machine):
        """Return the file of the source on a machine."""
        return self.folder(machine) / IMAGE

    def mount(self, machine):
        """Mount the image on a machine."""
        machine.done("mkdir", "-p", self.folder(machine))
        machine.done("rbd-fuse", "-c", self.conf, "-p", POOL, self.folder(machine))
        until(lambda: machine.done("stat", "-c", "%s", self.file(machine), check=False) == str(SIZE), SECONDS,
              "the image is a file", 0.2)

    def unmount(self, machine):
        """Unmount the image from a machine, even if its process hangs."""
        with contextlib.suppress(Stuck):
            machine.kill("^rbd-fuse ")
        machine.done("umount", "--lazy", self.folder(machine), check=False)

    def fence(self, machine, by):
        """Fence the whole address, as for CephFS."""
        self.store.command(by, "osd", "blocklist", "add", machine.address, 3_600)
