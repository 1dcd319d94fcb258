"""The needs of all tests: the program and its settings, a clock that does not move, and the report of a difference."""
import os
import pathlib
import shutil
import socket
import subprocess
import tempfile

ROOT = pathlib.Path(__file__).resolve().parent.parent
# The program that is tested: the proved one, or that which the environment names.
PROGRAM = pathlib.Path(os.environ.get("PROGRAM") or "crates/rs_source/out/rs_source")
PROGRAM = PROGRAM if PROGRAM.is_absolute() else ROOT / PROGRAM
# The folder of the installed commands.
TOOLS = ROOT / "operations"
# A source in memory, of 64 KiB and an item limit of 2.
MEMORY = ["mem", "65536", "http://127.0.0.1:8080", "2"]
# 2000-02-29T00:00:00.000Z
CLOCK = 951_782_400_000
# No answer is waited for longer than this.
SECONDS = 120
# A clock of the C library that never advances. `cc` builds it into a temporary folder.
STILL_CLOCK = f"""
#include <time.h>
int clock_gettime(clockid_t id, struct timespec *t) {{
    t->tv_sec = {CLOCK // 1000};
    t->tv_nsec = {CLOCK % 1000} * 1000000L;
    return 0;
}}
"""
# Where files lie in memory, if this many bytes are free there.
IN_MEMORY, ROOM = "/dev/shm", 100_000_000


class Differs(AssertionError):
    """A value differs from the expected one."""


def compare(what: str, wanted: bytes, found: bytes) -> None:
    """Raise Differs with the first byte that differs."""
    if wanted == found:
        return
    at = next((i for i, (a, b) in enumerate(zip(wanted, found)) if a != b), min(len(wanted), len(found)))
    line = wanted[:at].count(b"\n") + 1
    raise Differs(f"{what}: byte {at + 1}, line {line}: wanted {wanted[at:at + 60]!r}, found {found[at:at + 60]!r}")


def ask(port: int, sent: bytes) -> bytes:
    """Return the answer of a connection to these bytes, which end by a shutdown of its writing side."""
    with socket.create_connection(("127.0.0.1", port), timeout=SECONDS) as connection:
        connection.sendall(sent)
        connection.shutdown(socket.SHUT_WR)
        found = b""
        while piece := connection.recv(65536):
            found += piece
    return found


def interposed(room: str | pathlib.Path, name: str, text: str) -> dict[str, str]:
    """Return the environment in which a C library of this text replaces calls of the system's."""
    source, library = (pathlib.Path(room, name + end) for end in [".c", ".so"])
    if not library.exists():
        source.write_text(text)
        subprocess.run(["cc", "-O1", "-shared", "-fPIC", "-o", str(library), str(source)], check=True)
    return {**os.environ, "LD_PRELOAD": str(library)}


def room_in_memory(prefix: str) -> tempfile.TemporaryDirectory[str]:
    """Return a temporary folder in memory, if there is room for one."""
    is_there = os.access(IN_MEMORY, os.W_OK) and shutil.disk_usage(IN_MEMORY).free > ROOM
    return tempfile.TemporaryDirectory(prefix=prefix, dir=IN_MEMORY if is_there else None)
