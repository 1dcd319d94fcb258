"""Measure parts of a test: seconds, shares of processors and disk, memory, bytes on disk."""
from __future__ import annotations

import contextlib
import os
import pathlib
import time
from collections.abc import Callable, Iterator

from operations.tests.collection.host import Host
from operations.tests.collection.processes import children_of, used_by


def processors() -> tuple[float, float]:
    """Return the used and the elapsed seconds of all processors since boot."""
    words = [int(word) for word in pathlib.Path("/proc/stat").read_text().split("\n", 1)[0].split()[1:]]
    idle = words[3] + words[4]
    return (sum(words[:8]) - idle) / os.sysconf("SC_CLK_TCK"), sum(words[:8]) / os.sysconf("SC_CLK_TCK")


def device_of(path: str | pathlib.Path) -> str:
    """Return the name of the device of a path, or "" unless there is exactly one."""
    number = os.stat(path).st_dev
    place = pathlib.Path(f"/sys/dev/block/{os.major(number)}:{os.minor(number)}")
    return os.path.basename(os.path.realpath(place)) if place.exists() else ""


def disk_of(device: str) -> tuple[float, int]:
    """Return the busy seconds of a device, and the bytes written to it, since boot."""
    for words in map(str.split, pathlib.Path("/proc/diskstats").read_text().splitlines()):
        if device and words[2] == device:
            return int(words[12]) / 1000, int(words[9]) * 512
    return 0.0, 0


def size_of(path: str | pathlib.Path) -> int:
    """Return the bytes on disk of a file, or of all files of a folder."""
    if not os.path.isdir(path):
        return 512 * os.stat(path).st_blocks if os.path.exists(path) else 0
    return sum(512 * os.lstat(os.path.join(above, name)).st_blocks for above, folders, files in os.walk(path)
               for name in [*folders, *files])


class Meter:
    """Measure parts of the work on a host, and print a line per part."""

    def __init__(self, name: str, folder: str | pathlib.Path, host: Host) -> None:
        self.name, self.device, self.host = name, device_of(folder), host
        self.seconds: dict[str, float] = {}

    @contextlib.contextmanager
    def part(self, what: str, count: int = 0) -> Iterator[Callable[[], float]]:
        """Measure a part of the work on this many resources. Yield a function that later returns its seconds."""
        used, passed = processors()
        ours, started, (busy, written) = self.used(), time.monotonic(), disk_of(self.device)
        yield lambda: self.seconds[what]
        self.seconds[what] = seconds = max(time.monotonic() - started, 0.001)
        now, then = processors()
        at_work, bytes_written = (after - before for after, before in zip(disk_of(self.device), (busy, written)))
        tools, sources, nginx = (after - before for after, before in zip(self.used(), ours))
        rate = f", {count / seconds:,.0f} resources a second" if count else ""
        disk = (f", the disk {100 * at_work / seconds:.0f} of 100, {bytes_written / 1e6:,.0f} MB written"
                if self.device else "")
        busy_share = 100 * (now - used) / max(then - passed, 0.001)
        print(f"{self.name}: {what}: {seconds:.1f} s{rate}; of a processor {tools:.1f} s the tools, "
              f"{sources:.1f} s the sources, {nginx:.1f} s nginx; "
              f"at work: all processors {busy_share:.0f} of 100{disk}", flush=True)

    def used(self) -> tuple[float, float, float]:
        """Return the processor seconds of this process and its tools, of the sources, and of nginx."""
        times, host = os.times(), self.host
        sources = host.ended + sum(used_by(server.process.pid) for server in host.sources.values() if server.process)
        nginx = sum(used_by(number) for number in [host.nginx.pid, *children_of(host.nginx.pid)]) if host.nginx else 0.0
        return times.user + times.system + times.children_user + times.children_system - host.ended, sources, nginx
