"""A device whose writes are logged, and the file system on it: a FUSE file system with one file (device.c), and a loop
device over that file.

All of it ends with this process: the mounts are in their own mount namespace, the FUSE server dies with its parent, and
the system detaches the loop device when it is closed. If a system call takes too long, the server is killed, after
which every call on the device fails.
"""
import contextlib
import ctypes
import fcntl
import os
import signal
import struct
import subprocess
import threading
import time
from collections.abc import Iterable, Iterator
from pathlib import Path

SOURCE = Path(__file__).with_name("device.c")
# The longest mount, run of the program or other step, in seconds.
SECONDS = 60
# System calls that Python lacks: numbers from <linux/loop.h>, <linux/fs.h>, <linux/btrfs.h> and <sys/prctl.h>.
FREE_LOOP, CONFIGURE, DROP_CACHE, FORGET, DIES_WITH_PARENT = 0x4C82, 0x4C0A, 0x1261, 0x50009405, 1
AUTOMATIC, DIRECT = 4, 16
# Commands that repair a torn superblock from another superblock, and their exit statuses after a repair. btrfs has
# none: its other superblocks are older than the last fsync.
REPAIRS = {"ext4": (["e2fsck", "-f", "-y"], (0, 1))}
# The offsets of the numbers in the control file (device.c).
FAIL_WRITE, FAIL_FLUSH, FAIL_READ, LOSE_WRITE, HOLD = range(5)
EACH = 1 << 40
LIBRARY = ctypes.CDLL(None, use_errno=True)


class Unready(Exception):
    """The device or a file system on it is not available."""


class Unmounted(Exception):
    """The system refuses to mount the file system."""


def dies_with_parent() -> None:
    """Let the system kill this process when its parent ends."""
    LIBRARY.prctl(DIES_WITH_PARENT, signal.SIGKILL)


def compiled(room: Path) -> Path:
    """Build the FUSE server from device.c; return its path."""
    program = Path(room, "device")
    flags = subprocess.run(["pkg-config", "--cflags", "--libs",
                            "fuse3"], capture_output=True, text=True, check=True).stdout.split()
    subprocess.run(["cc", "-O2", "-o", program, SOURCE, *flags, "-pthread"], check=True)
    return program


def mount(source: str | Path, folder: Path, kind: str, options: str = "") -> None:
    """Mount a file system, or raise OSError."""
    if LIBRARY.mount(os.fsencode(source), os.fsencode(folder), kind.encode(), 0, options.encode()):
        number = ctypes.get_errno()
        raise OSError(number, os.strerror(number))


def unmount(folder: Path) -> None:
    """Unmount a file system once it is unused."""
    until = time.monotonic() + SECONDS
    while LIBRARY.umount2(os.fsencode(folder), 0):
        number = ctypes.get_errno()
        if number != 16 or time.monotonic() > until:
            raise OSError(number, os.strerror(number))
        time.sleep(0.01)


class Device:
    """A device over the bytes of a file, which never change, and the log of its writes."""

    def __init__(self, program: Path, room: Path, bytes_: str, sector: int = 512) -> None:
        self.room, self.below, self.top = Path(room), Path(room, "below"), Path(room, "top")
        self.log, self.control = self.room / "log", self.room / "control"
        for folder in (self.below, self.top):
            folder.mkdir(exist_ok=True)
        self.log.write_bytes(b"")
        self.control.write_bytes(bytes(64))
        words: list[str | Path] = [program, self.below, bytes_, self.log, self.control]
        self.server = subprocess.Popen(words, stdout=subprocess.PIPE, stderr=subprocess.DEVNULL,
                                       preexec_fn=dies_with_parent)
        assert self.server.stdout
        if self.server.stdout.readline() != b"ready\n":
            raise Unready("the server of the file does not start")
        self.until: float | None = None
        self.is_open = True
        threading.Thread(target=self.watch, daemon=True).start()
        self.file = os.open(self.below / "device", os.O_RDWR)
        self.path, self.loop = attached(self.file, sector)

    def watch(self) -> None:
        """Kill the server if a step takes too long."""
        while self.is_open:
            time.sleep(0.5)
            until = self.until
            if until and time.monotonic() > until:
                self.server.kill()

    @contextlib.contextmanager
    def patience(self) -> Iterator[None]:
        """Limit the time of a step; kill the server afterwards."""
        self.until = time.monotonic() + SECONDS
        try:
            yield
        finally:
            self.until = None
        if self.server.poll() is not None:
            is_late = self.server.returncode == -signal.SIGKILL
            raise Unready(f"a step took more than {SECONDS} seconds"
                          if is_late else f"the server of the file ended with {self.server.returncode}")

    def close(self) -> None:
        """End the device, and the server of its file."""
        self.is_open = False
        os.close(self.loop)
        os.close(self.file)
        self.server.kill()
        self.server.wait()
        LIBRARY.umount2(os.fsencode(self.below), 2)

    def order(self, **numbers: int) -> None:
        """Write numbers into the control file."""
        with open(self.control, "r+b", buffering=0) as file:
            for name, number in numbers.items():
                os.pwrite(file.fileno(), struct.pack("Q", number), 8 * globals()[name])

    def remaining(self, name: str) -> int:
        """Return the present value of a counter in the control file."""
        number: int = struct.unpack_from("Q", self.control.read_bytes(), 8 * globals()[name])[0]
        return number

    def place(self) -> int:
        """Return the length of the log."""
        return os.stat(self.log).st_size

    def begin(self, pieces: Iterable[tuple[int, bytes]]) -> None:
        """Drop all writes, write these pieces to the file, and empty the log."""
        fcntl.ioctl(self.loop, DROP_CACHE, 0)
        (self.below / "reset").write_bytes(b"x")
        for at, data in pieces:
            os.pwrite(self.file, data, at)
        fcntl.ioctl(self.loop, DROP_CACHE, 0)
        os.truncate(self.log, 0)

    @contextlib.contextmanager
    def mounted(self, kind: str, options: str) -> Iterator[Path]:
        """Mount the file system on the device."""
        with self.patience():
            if kind == "btrfs":
                forget()
            os.close(os.open(self.path, os.O_RDONLY | os.O_EXCL))
            fcntl.ioctl(self.loop, DROP_CACHE, 0)
            try:
                mount(self.path, self.top, kind, options)
            except OSError as fault:
                raise Unmounted(str(fault)) from None
        try:
            yield self.top
        finally:
            with self.patience():
                unmount(self.top)

    def is_repaired(self, kind: str) -> bool:
        """Run the repair of a file system; return whether it repaired something."""
        if kind not in REPAIRS:
            return False
        words, done = REPAIRS[kind]
        with self.patience():
            finished = subprocess.run([*words, self.path], stdin=subprocess.DEVNULL, capture_output=True,
                                      timeout=SECONDS)
            fcntl.ioctl(self.loop, DROP_CACHE, 0)
        return finished.returncode in done


def attached(file: int, sector: int) -> tuple[str, int]:
    """Attach a loop device, which the system detaches when it is closed; return its path and descriptor."""
    settings = struct.pack("II232s64x", file, sector, struct.pack("52xI", AUTOMATIC | DIRECT))
    for _ in range(100):
        with open("/dev/loop-control", "rb") as control:
            path = f"/dev/loop{fcntl.ioctl(control, FREE_LOOP)}"
        device = os.open(path, os.O_RDWR)
        try:
            fcntl.ioctl(device, CONFIGURE, settings)
            return path, device
        except OSError:
            os.close(device)
            time.sleep(0.05)
    raise Unready("no loop device can be had")


def forget() -> None:
    """Let the system forget unmounted btrfs devices."""
    with contextlib.suppress(OSError), open("/dev/btrfs-control", "rb") as control:
        fcntl.ioctl(control, FORGET, bytearray(4096))
