"""Test the scripts `until-it-listens` and `closed` of the units."""
import contextlib
import os
import pathlib
import subprocess
import sys
import threading

from operations.tests.system.install_looks import INSTALL
from operations.tests.system.install_shared import SECONDS, answering, told_by
from tests.program import TOOLS
from tests.served_source import free_port
from tests.system.edge_runs import connected

LISTENER = ("import socket, sys, time; time.sleep(0.5); "
            "listener = socket.create_server(('127.0.0.1', int(sys.argv[1]))); time.sleep(60)")


def waited(port: int, process: int) -> int:
    """Return the exit status of `until-it-listens`."""
    words = ["sh", str(INSTALL / "until-it-listens"), str(port), str(process)]
    try:
        return subprocess.run(words, timeout=SECONDS).returncode
    except subprocess.TimeoutExpired as late:
        raise AssertionError(f"it does not end within {SECONDS} seconds") from late


def test_a_unit_is_up_once_its_port_listens() -> None:
    """`until-it-listens` fails once the process of the unit has ended."""
    port = free_port()
    with subprocess.Popen([sys.executable, "-c", LISTENER, str(port)]) as listener:
        try:
            assert waited(port, listener.pid) == 0
            with contextlib.closing(connected(port)):
                pass
            with subprocess.Popen(["sleep", "0.5"]) as ending:
                threading.Thread(target=ending.wait).start()
                assert waited(free_port(), ending.pid) == 1
        finally:
            listener.kill()


def closed(file: pathlib.Path, port: int) -> tuple[str, int]:
    """Return the output of `closed`, and its exit status."""
    return told_by(sys.executable, INSTALL / "closed", file, str(port), env=os.environ | {"PYTHONPATH": str(TOOLS)})


def test_closed_ends_with_status_75_for_a_closed_source_only(room: pathlib.Path) -> None:
    """For other faults `closed` prints a line and exits 0."""
    file = room / "a.disk"
    file.write_bytes(bytes(8192))
    with answering(503, b"Closed\n") as server:
        output, status = closed(file, server.port)
        assert status == 75 and output.startswith("<4>the source answers Closed")
        output, status = closed(room / "none", server.port)
        assert status == 0 and "is not there" in output
    for code, body in ((200, b"<urlset/>"), (503, b"NoMemory\n"), (500, b"Closed\n"), (404, b"")):
        with answering(code, body) as server:
            assert closed(file, server.port) == ("", 0), f"{code} {body!r}"
    output, status = closed(file, free_port())
    assert status == 0 and output.startswith("<4>the source does not answer")
