"""Test a machine with the packages: installation, serving, kills, verification."""
from __future__ import annotations

import os
import random
import time
from collections.abc import Iterator
from pathlib import Path

from operations.tests.machine.machine import DISK, HTTPS, ON_MACHINE, Machine, disk_of, drop_in, end
from operations.tests.machine.page import commands
from operations.tests.machine.puts import Puts
from tests.reading import disk_reader
from tests.reading.disk_formats import BLOCK

pytestmark = ON_MACHINE

# The number of kills, and the seconds after which a busy machine stops them.
KILLS, KILLING = 20, float(os.environ.get("KILLING", "80"))
# A program that starts a second late, as on a slow disk.
SLOW = "[Service]\nExecStart=\nExecStart=/bin/sh -c 'sleep 1; exec /usr/bin/rs_source serve $FILE $PORT 1000000000'\n"
# A program that occupies the source's port.
TAKER = ("import os, socket, time; taken = socket.create_server(('127.0.0.1', 8080)); print(os.getpid(), flush=True); "
         "time.sleep(300)")


def test_apt_installs_the_packages(installed: Machine) -> None:
    """apt makes the user and its folder, and starts no unit."""
    assert installed.shows("ropepeach", "ActiveState") == "inactive"
    assert installed.output("stat", "--format=%a %U %G", "/var/lib/ropepeach") == "700 ropepeach ropepeach\n"
    assert "rs_source.8.gz" in installed.output("ls", "/usr/share/man/man8")
    assert installed.failed() == []


def test_the_commands_of_the_page_serve_two_sources(machine: Machine) -> None:
    machine.output("curl", "-fsS", "http://127.0.0.1:8080/capabilitylist.xml")
    assert "https://second.example.org/" in machine.output("curl", "-fsS", "http://127.0.0.1:8081/capabilitylist.xml")
    journal = machine.journal("ropepeach")
    assert "nothing is found in the way" in journal
    assert "listening 127.0.0.1:8080" in journal


def test_the_unit_is_up_when_its_port_listens(machine: Machine) -> None:
    """`systemctl restart` returns after a slow start, when the port listens."""
    drop_in(machine, "ropepeach.service", SLOW)
    machine.output("systemctl", "restart", "ropepeach")
    machine.output("curl", "-fsS", "http://127.0.0.1:8080/capabilitylist.xml")
    drop_in(machine, "ropepeach.service", "")
    machine.output("systemctl", "restart", "ropepeach")


def certified(machine: Machine) -> None:
    """Make a self-signed certificate at the paths in the site."""
    words = ("-x509 -newkey rsa:2048 -nodes -days 2 -subj /CN=source.example.org "
             "-addext subjectAltName=DNS:source.example.org")
    machine.shell(f"openssl req {words} -keyout /etc/ssl/private/source.example.org.key "
                  "-out /etc/ssl/certs/source.example.org.pem 2>&1")


def test_nginx_serves_a_source_with_tls(machine: Machine) -> None:
    """The page's commands set up TLS, gzip, the link, robots.txt and a page at /; the publish and mirror units run."""
    certified(machine)
    *page, ask = commands("By hand", "sites-enabled").replace("editor ", "test -w ").splitlines()
    index = Path(machine.root, "usr/share/ropepeach/site/index.html")
    if not index.exists():
        index.parent.mkdir(exist_ok=True)
        index.write_text("a page\n")
    machine.shell("\n".join(["systemctl start nginx", *page]))
    # (nginx reloads a moment after the signal; curl and mirror need the path of a self-signed certificate)
    trusting = ["env", "CURL_CA_BUNDLE=/etc/ssl/certs/source.example.org.pem", *ask.split()]
    machine.until(lambda: "capability=\"description\"" in machine.run(*trusting).stdout, "the site answers")

    def curl(*words: str) -> str:
        return machine.output("curl", "-fsS", "--cacert", "/etc/ssl/certs/source.example.org.pem", *words)

    curl("-X", "PUT", "--data-binary", "hello, mirror", f"{HTTPS}/resource/greeting")
    assert curl(f"{HTTPS}/") == index.read_text()
    assert curl(f"{HTTPS}/robots.txt") == f"User-agent: *\nDisallow:\nSitemap: {HTTPS}/resourcelist.xml\n"
    heads = curl("-D", "-", "-o", "/dev/null", "-H", "Accept-Encoding: gzip", f"{HTTPS}/changelist.xml").lower()
    assert "content-encoding: gzip" in heads
    assert 'link: </capabilitylist.xml>; rel="resourcesync"' in heads
    machine.output("systemctl", "start", "ropepeach-publish")
    assert "published 1 " in machine.journal("ropepeach-publish")
    settings = f"SOURCE={HTTPS}\nSSL_CERT_FILE=/etc/ssl/certs/source.example.org.pem\n"
    Path(machine.root, "etc/ropepeach/mirror-copy.env").write_text(settings)
    machine.output("systemctl", "start", "ropepeach-mirror@copy")
    assert machine.output("cat", "/var/lib/ropepeach-mirror/copy/greeting") == "hello, mirror"


def rounds() -> Iterator[int]:
    """Yield the numbers of the kills until the time is over."""
    end = time.monotonic() + KILLING
    for number in range(1, KILLS + 1):
        if time.monotonic() < end:
            yield number


def test_a_killed_program_loses_no_answered_put(machine: Machine) -> None:
    """systemd restarts the program after a kill during puts, 20 times."""
    puts, draws = Puts(machine, "program"), random.Random(59)
    puts.start()
    for _ in rounds():
        puts.wait_for(draws.randrange(1, 12))
        before = machine.shows("ropepeach", "MainPID")
        machine.shell(f"kill -KILL {before}")
        machine.until(lambda: machine.shows("ropepeach", "MainPID") not in (before, "0"), "another process serves")
    puts.wait_for(1)
    puts.stop()
    puts.look()


def test_a_killed_machine_loses_no_answered_put(machine: Machine) -> None:
    """The machine is killed during puts, boots, and serves the source again, 20 times."""
    puts, draws = Puts(machine, "machine"), random.Random(60)
    for _ in rounds():
        puts.start()
        puts.wait_for(draws.randrange(1, 30))
        machine.kill()
        puts.stop()
        machine.boot()
        machine.until(lambda: machine.is_active("ropepeach"), "the source is served")
        puts.look()


def test_the_verification_names_a_damaged_body(machine: Machine) -> None:
    """The timer's unit stops the server, verifies, and starts it again; `systemctl --failed` lists the unit."""
    machine.output("curl", "-fsS", "-X", "PUT", "--data-binary", "the body", "http://127.0.0.1:8080/resource/more.txt")
    assert machine.shows("ropepeach-verify.timer", "Unit") == "ropepeach-verify.service"
    before = machine.shows("ropepeach", "MainPID")
    machine.output("systemctl", "start", "ropepeach-verify")
    machine.until(lambda: machine.is_active("ropepeach"), "the server is started again")
    assert machine.shows("ropepeach", "MainPID") != before
    assert "\nverified " in machine.journal("ropepeach-verify")
    machine.output("systemctl", "stop", "ropepeach")
    disk = disk_of(machine)
    items = [item for page in disk_reader.source_of(disk.read_bytes()).catalogue for item in page.items]
    at = next(item.first for item in items if item.name == b"more.txt") * BLOCK
    with open(disk, "r+b") as file:
        file.seek(at)
        file.write(b"T")
    assert machine.run("systemctl", "start", "ropepeach-verify").returncode == 1
    machine.until(lambda: machine.is_active("ropepeach"), "the server is started again")
    assert "damaged more.txt" in machine.journal("ropepeach-verify")
    assert machine.failed() == ["ropepeach-verify.service"]
    machine.output("curl", "-fsS", "-X", "PUT", "--data-binary", "the body", "http://127.0.0.1:8080/resource/more.txt")
    machine.output("systemctl", "start", "ropepeach-verify")
    assert machine.failed() == []
    assert "trigger source" not in machine.output("journalctl", "--boot", "--no-pager")


def test_the_journal_names_the_program_that_has_the_port(machine: Machine) -> None:
    """The journal names the program, and the source starts by itself once the port is free."""
    machine.output("systemctl", "stop", "ropepeach")
    taker = machine.begun("python3", "-c", TAKER)
    assert taker.stdout
    number = taker.stdout.readline().strip()
    cursor = machine.cursor()
    machine.run("systemctl", "start", "ropepeach")
    machine.until(lambda: "rs_source: Device" in machine.journal("ropepeach", cursor), "the program says why")
    assert "port 8080 is taken by" in machine.journal("ropepeach", cursor)
    assert "python3 -c import os" in machine.run("ropepeach", "why", DISK, "8080").stdout
    machine.shell(f"kill {number}")
    end(taker)
    machine.until(lambda: machine.is_active("ropepeach"), "the source comes up")


def test_the_journal_names_a_missing_file(machine: Machine) -> None:
    """The source makes no file, and starts by itself once its file is back."""
    machine.output("systemctl", "stop", "ropepeach")
    machine.output("mv", DISK, f"{DISK}.away")
    cursor = machine.cursor()
    machine.run("systemctl", "start", "ropepeach")
    machine.until(lambda: "rs_source: Device" in machine.journal("ropepeach", cursor), "the program says why")
    assert f"there is no file {DISK}" in machine.journal("ropepeach", cursor)
    assert not disk_of(machine).exists()
    machine.output("mv", f"{DISK}.away", DISK)
    machine.until(lambda: machine.is_active("ropepeach"), "the source comes up")
