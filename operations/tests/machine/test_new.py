"""Test `ropepeach new`, `backup`, `restore` and `remove` on a machine with the packages."""
from __future__ import annotations

import time
from pathlib import Path

from operations.tests.machine.machine import ON_MACHINE, Machine

pytestmark = ON_MACHINE

HOST = "papers.example.org"
BASE, FILE, BACKUP = f"https://{HOST}", "/var/lib/ropepeach/papers.disk", "/root/papers.disk"
CERTIFICATE = f"/etc/ssl/certs/{HOST}.pem"
# Seconds from the packages to the first response.
LIMIT = 120


def certify(machine: Machine) -> None:
    """Make a self-signed certificate of the host at the paths of `ropepeach new`."""
    words = f"-x509 -newkey rsa:2048 -nodes -days 2 -subj /CN={HOST} -addext subjectAltName=DNS:{HOST}"
    machine.shell(f"openssl req {words} -keyout /etc/ssl/private/{HOST}.key -out {CERTIFICATE} 2>&1")
    with open(machine.root / "etc/hosts", "a", encoding="utf-8") as hosts:
        hosts.write(f"127.0.0.1 {HOST}\n")


def curl(machine: Machine, path: str, *words: str) -> str:
    """Return the response of the source through its site, over TLS."""
    return machine.output("curl", "-fsS", "--cacert", CERTIFICATE, *words, BASE + path)


def test_new_makes_a_source_behind_tls(machine: Machine) -> None:
    """The units run, all bytes of the file are reserved, and a second run makes no change."""
    certify(machine)
    started = time.monotonic()
    machine.output("ropepeach", "new", "papers", "--base", BASE, "--size", "4MiB", "--near", "127.0.0.0/8")
    machine.until(lambda: f"{BASE}/" in machine.run("curl", "-fsS", "--cacert", CERTIFICATE,
                                                    f"{BASE}/.well-known/resourcesync").stdout,
                  "the site answers")
    seconds = time.monotonic() - started
    assert seconds <= LIMIT
    units = ("ropepeach@papers.service", "ropepeach-health@papers.timer", "ropepeach-verify@papers.timer")
    assert [machine.shows(unit, "ActiveState") for unit in units] == ["active"] * 3
    status = Path(f"{machine.root}{FILE}").stat()
    assert status.st_blocks * 512 >= status.st_size == 4 << 20
    process = machine.shows("ropepeach@papers", "MainPID")
    machine.output("ropepeach", "new", "papers", "--base", BASE)
    assert machine.shows("ropepeach@papers", "MainPID") == process


def test_a_backup_is_made_and_restored(machine: Machine) -> None:
    """A backup runs while the source is served; a restore drops later puts, and keeps the old file."""
    curl(machine, "/resource/kept", "-X", "PUT", "--data-binary", "before")
    assert "verified 1" in machine.output("ropepeach", "backup", "papers", BACKUP)
    curl(machine, "/resource/later", "-X", "PUT", "--data-binary", "behind")
    assert "the old file is" in machine.output("ropepeach", "restore", "papers", BACKUP)
    assert curl(machine, "/resource/kept") == "before"
    assert machine.run("curl", "-fsS", "--cacert", CERTIFICATE, f"{BASE}/resource/later").returncode == 22
    assert "/resource/later" not in curl(machine, "/changelist.xml")
    assert len(list(Path(f"{machine.root}{FILE}").parent.glob("papers.disk.before-*"))) == 1


def test_a_removed_source_keeps_its_file(machine: Machine) -> None:
    """The units of a removed source stop, and nginx serves the other sources."""
    assert FILE in machine.output("ropepeach", "remove", "papers")
    assert machine.shows("ropepeach@papers", "ActiveState") == "inactive"
    assert machine.failed() == []
    machine.until(lambda: machine.run("curl", "-fsS", "--cacert", CERTIFICATE, f"{BASE}/capabilitylist.xml").returncode,
                  "the site is gone")
    machine.output("curl", "-fsS", "http://127.0.0.1:8080/capabilitylist.xml")
    assert Path(f"{machine.root}{FILE}").is_file()
    machine.shell(f"rm {FILE} {FILE}.before-* /etc/ropepeach/papers.env /etc/nginx/sites-available/ropepeach-papers")
