"""Fixtures of the tests of the program."""

import ctypes
import os
import subprocess
import time
from collections.abc import Iterator

import pytest

LIBC = ctypes.CDLL(None, use_errno=True)
# The flag CLONE_NEWNS of <sched.h>.
OF_MOUNTS = 0x0002_0000
SECONDS = 10
# The makers of file systems.
os.environ["PATH"] += ":/usr/sbin:/sbin"


def left(namespace: int) -> bool:
    """Return to a mount namespace, once no thread of the test runs any more; return whether that succeeded."""
    until = time.monotonic() + SECONDS
    while LIBC.setns(namespace, OF_MOUNTS):
        if time.monotonic() > until:
            return False
        time.sleep(0.05)
    return True


@pytest.fixture
def own_mounts() -> Iterator[None]:
    """Run the test in its own mount namespace; its mounts disappear with it."""
    folder, namespace = os.getcwd(), os.open("/proc/self/ns/mnt", os.O_RDONLY)
    try:
        if LIBC.unshare(OF_MOUNTS):
            pytest.skip(f"there is no right to mount: {os.strerror(ctypes.get_errno())}")
        try:
            subprocess.run(["mount", "--make-rprivate", "/"], check=True)
            yield
        finally:
            assert left(namespace), "a thread of the test still runs"
            os.chdir(folder)
    finally:
        os.close(namespace)
