"""Test a machine with untrusted users, and the limits of its units."""
from __future__ import annotations

import contextlib
from collections.abc import Iterator
from pathlib import Path

from operations.tests.machine.machine import HTTPS, ON_MACHINE, Machine, end
from operations.tests.machine.page import commands

pytestmark = ON_MACHINE

SITE = "/etc/nginx/sites-available/ropepeach"
TARGET = "http://127.0.0.1:8080/resource/of-nobody"
TRUSTING = ["--cacert", "/etc/ssl/certs/source.example.org.pem"]
# A connection that sends no bytes, and a program that answers instead of the source; both print their process id.
SILENT = """import os, socket, time
connection = socket.create_connection(('127.0.0.1', 8080), 5)
print(os.getpid(), flush=True)
time.sleep(300)
"""
FAKE = """import contextlib, os, socket
listener = socket.create_server(('127.0.0.1', 8080))
print(os.getpid(), flush=True)
while True:
    client = listener.accept()[0]
    with contextlib.suppress(OSError):
        client.sendall(b'HTTP/1.1 200 OK\\r\\nContent-Length: 4\\r\\nConnection: close\\r\\n\\r\\nfake')
"""
# Exit statuses of curl: connection refused, and timeout.
REFUSED, LATE = 7, 28
LIMITS = {"ropepeach": ("16", "1073741824"), "ropepeach-mirror@copy": ("128", "2147483648"),
          "ropepeach-publish": ("16", "1073741824")}


def curl(machine: Machine, user: str, *words: str) -> tuple[int, str]:
    """Run curl as a user; return its exit status and its output."""
    process = machine.run("runuser", "-u", user, "--", "curl", "-sS", "--max-time", "5", *words)
    return process.returncode, process.stdout


def status(machine: Machine, user: str, *words: str) -> str:
    """Return the status of the response to a request of a user."""
    return curl(machine, user, "-o", "/dev/null", "-w", "%{http_code}", *words)[1][-3:]


def put(machine: Machine, user: str, target: str, *words: str) -> str:
    """Return the status of the response to a put by a user."""
    return status(machine, user, "-X", "PUT", "--data-binary", "x", *words, target)


@contextlib.contextmanager
def begun(machine: Machine, user: str, script: str) -> Iterator[bool]:
    """Run a Python script as a user; return whether it prints its process id."""
    run = machine.begun("runuser", "-u", user, "--", "python3", "-c", script)
    assert run.stdout
    number = run.stdout.readline().strip()
    try:
        yield number.isdigit()
    finally:
        if number:
            machine.shell(f"kill -KILL {number}")
        end(run)


def test_guard_keeps_other_users_from_the_port(machine: Machine) -> None:
    """The drop-in of the page keeps other users from the port; without it any user can put, and hang the port."""
    assert put(machine, "nobody", TARGET) == "201"
    assert put(machine, "nobody", f"{HTTPS}/resource/of-nobody", *TRUSTING) == "204"
    with begun(machine, "nobody", SILENT) as is_in:
        assert is_in
        assert curl(machine, "root", "http://127.0.0.1:8080/capabilitylist.xml")[0] == LATE
    site = Path(f"{machine.root}{SITE}")
    before = site.read_text()
    try:
        machine.shell(commands("Other users of the machine", "guard.conf"))
        kept_out(machine)
        units_reach_it(machine)
        nobody_answers_in_its_place(machine)
        it_starts_with_its_rules_only(machine)
    finally:
        site.write_text(before)
        machine.shell("rm -f /etc/systemd/system/ropepeach*.service.d/guard.conf; systemctl daemon-reload\n"
                      "nft flush ruleset; systemctl reload nginx; systemctl reset-failed; systemctl restart ropepeach")


def kept_out(machine: Machine) -> None:
    """Check that a user can neither read nor write at the port, nor write through the site."""
    requests: list[list[str]] = [["-X", "DELETE"], ["-X", "PUT", "-d", "x"], []]
    for words in requests:
        assert curl(machine, "nobody", *words, TARGET)[0] == REFUSED, f"a user, {words}"
    with begun(machine, "nobody", SILENT) as is_in:
        assert not is_in
        for user in ("root", "www-data", "ropepeach"):
            assert status(machine, user, TARGET) == "200", f"{user} reads"
    # (nginx reloads a moment after the signal)
    machine.until(lambda: put(machine, "nobody", f"{HTTPS}/resource/of-nobody", *TRUSTING) == "403", "nobody is near")
    assert status(machine, "nobody", *TRUSTING, f"{HTTPS}/resource/of-nobody") == "200"


def units_reach_it(machine: Machine) -> None:
    """Check that the units that send requests reach the source."""
    cursor = machine.cursor()
    machine.output("systemctl", "start", "ropepeach-publish")
    assert "published " in machine.journal("ropepeach-publish", cursor)
    machine.output("systemctl", "start", "ropepeach-health")
    assert machine.journal("ropepeach-health", cursor) == ""


def nobody_answers_in_its_place(machine: Machine) -> None:
    """Check that no byte reaches nginx from a user's program that listens on the port of a stopped source."""
    machine.output("systemctl", "stop", "ropepeach")
    with begun(machine, "nobody", FAKE) as is_in:
        assert is_in
        assert told_of(curl(machine, "root", TARGET)) == (LATE, False)
        through = curl(machine, "nobody", *TRUSTING, f"{HTTPS}/resource/of-nobody")
        assert told_of(through) == (LATE, False)
    machine.output("systemctl", "start", "ropepeach")


def told_of(found: tuple[int, str]) -> tuple[int, bool]:
    """Return curl's exit status, and whether the fake source answered."""
    return found[0], "fake" in found[1]


def it_starts_with_its_rules_only(machine: Machine) -> None:
    """Check that the source does not start if its firewall rules cannot be loaded."""
    machine.shell("systemctl stop ropepeach; mv /usr/sbin/nft /usr/sbin/nft.away")
    try:
        assert machine.run("systemctl", "start", "ropepeach").returncode == 1
    finally:
        machine.shell("systemctl stop ropepeach; mv /usr/sbin/nft.away /usr/sbin/nft\n"
                      "systemctl reset-failed; systemctl start ropepeach")


def test_systemd_knows_the_limits_of_the_units(machine: Machine) -> None:
    for unit, wanted in LIMITS.items():
        assert (machine.shows(unit, "TasksMax"), machine.shows(unit, "MemoryMax")) == wanted, unit
    assert machine.shows("ropepeach-mirror@copy", "TimeoutStartUSec") == "1d"
