"""Test an operator's tasks of the second month, on a machine with the packages."""
from __future__ import annotations

import re
from pathlib import Path

from operations.tests.machine.machine import DISK, ON_MACHINE, Machine
from tests.reading import disk_formats, disk_reader

pytestmark = ON_MACHINE

SECOND, SECOND_DISK, FOLDER = "http://127.0.0.1:8081", "/var/lib/ropepeach/second.disk", "/srv/papers"
HOST = "second.example.org"
CERTIFICATE, KEY = f"/etc/ssl/certs/{HOST}.pem", f"/etc/ssl/private/{HOST}.key"
AUTHORITY, ALICE = "/etc/ssl/certs/authority.pem", "/root/alice.pem"
# The folder of a source that its unit must not write, and the longest name of a resource.
ELSEWHERE, LONGEST = "/srv/else", 240
COLLECTION = """address = "https://archive.example.org"
[source.second]
address = "http://127.0.0.1:8081"
base = "https://archive.example.org/second"
file = "/var/lib/ropepeach/second.disk"
[source.gone]
address = "http://127.0.0.1:8999"
base = "https://archive.example.org/gone"
file = "/var/lib/ropepeach/gone.disk"
"""


def test_two_sources_share_one_nginx(machine: Machine) -> None:
    """The page's command adds the second site; the timers of both sources are active."""
    certify(machine)
    machine.shell(f"ln -sf ../sites-available/second /etc/nginx/sites-enabled/; echo '127.0.0.1 {HOST}' >> /etc/hosts; "
                  "nginx -t 2>&1")
    machine.output("systemctl", "reload", "nginx")
    machine.until(lambda: f"https://{HOST}/" in site(machine, "/capabilitylist.xml"), "the second site answers")
    trusting = ("--cacert", "/etc/ssl/certs/source.example.org.pem")
    first = machine.output("curl", "-fsS", *trusting, "https://source.example.org/capabilitylist.xml")
    assert "https://source.example.org/" in first
    timers = [f"ropepeach-{what}{name}.timer" for what in ("health", "verify") for name in ("", "@second")]
    assert [machine.shows(timer, "ActiveState") for timer in timers] == ["active"] * 4


def certify(machine: Machine) -> None:
    """Make a certificate for the second site, a certificate authority, and alice's certificate from it."""
    machine.shell(f"openssl req -x509 -newkey rsa:2048 -nodes -days 2 -subj /CN={HOST} "
                  f"-addext subjectAltName=DNS:{HOST} "
                  f"-keyout {KEY} -out {CERTIFICATE} 2>&1\n"
                  "openssl req -x509 -newkey rsa:2048 -nodes -days 2 -subj /CN=authority -keyout /root/authority.key "
                  f"-out {AUTHORITY} 2>&1\n"
                  "openssl req -newkey rsa:2048 -nodes -subj '/O=A Library/CN=alice' -keyout /root/alice.key "
                  "-out /root/alice.csr 2>&1\n"
                  f"openssl x509 -req -in /root/alice.csr -CA {AUTHORITY} -CAkey /root/authority.key -set_serial 7 "
                  f"-days 2 -out {ALICE} 2>&1\n"
                  f"cat /root/alice.key >> {ALICE}")


def site(machine: Machine, path: str, *words: str) -> str:
    """Return the response of the second site, or ""."""
    return machine.run("curl", "-fsS", "--cacert", CERTIFICATE, *words, f"https://{HOST}{path}").stdout


def test_units_fill_and_publish_changes_only(machine: Machine) -> None:
    """`ropepeach-fill` leaves out a file with too long a name, and sends no file twice."""
    folder = Path(f"{machine.root}{FOLDER}")
    folder.mkdir(parents=True)
    for number in range(30):
        (folder / f"{number:02}.txt").write_text(f"{number}\n" * 50)
    (folder / ("x" * (LONGEST + 1))).write_text("its name is too long\n")
    machine.shell(f"touch -d '1 hour ago' {FOLDER}/*")
    settings = f"FOLDER={FOLDER}\nSOURCE={SECOND}\nOPTIONS=--skip-unlawful --no-publish --yes\n"
    Path(machine.root, "etc/ropepeach/fill-second.env").write_text(settings)
    for wanted in ("30 put", "0 put"):
        cursor = machine.cursor()
        machine.output("systemctl", "start", "ropepeach-fill@second")
        assert wanted in machine.journal("ropepeach-fill@second", cursor)
    assert "30 the same, 1 left out" in machine.journal("ropepeach-fill@second", cursor)
    for wanted in ("published 1 ", "nothing changed since the publication of "):
        cursor = machine.cursor()
        machine.output("systemctl", "start", "ropepeach-publish@second")
        assert wanted in machine.journal("ropepeach-publish@second", cursor)
    assert published(machine) == "1"
    for name in ("fill", "publish"):
        assert machine.shows(f"ropepeach-{name}@second.timer", "Unit") == f"ropepeach-{name}@second.service"


def published(machine: Machine) -> str:
    """Return the number of publications of the second source."""
    return str(re.findall(r"publications: (\d+|none)", machine.output("ropepeach", "look", SECOND_DISK))[0])


def test_the_log_of_changes_has_the_subject_of_each_certificate(machine: Machine) -> None:
    """A client with a certificate can change names with its prefix; `look --log` prints every attempt."""
    words = f"--name second --port 8081 --near none --depositors {AUTHORITY} --may 'CN=alice,O=A Library' papers/"
    machine.shell(f"ropepeach site https://{HOST} {words} > /etc/nginx/sites-available/second; nginx -t 2>&1; "
                  "systemctl reload nginx")

    def status(path: str, *more: str) -> str:
        words = ("curl", "-s", "--cacert", CERTIFICATE, "-o", "/dev/null", "-w", "%{http_code}", "-X", "PUT", "-d", "x")
        return machine.run(*words, *more, f"https://{HOST}{path}").stdout

    # (nginx reloads a moment after the signal, and its old processes may answer for another moment)
    machine.until(lambda: all(status("/resource/probe") == "403" for _ in range(5)), "nobody is near")
    assert status("/resource/papers/1") == "403"
    assert status("/resource/papers/1", "--cert", ALICE) == "201"
    assert status("/resource/other", "--cert", ALICE) == "403"
    log = machine.output("ropepeach", "look", "--log", "/var/log/nginx/ropepeach-second.changes.log")
    assert '127.0.0.1 "CN=alice,O=A Library" PUT papers/1 201' in log
    assert '"CN=alice,O=A Library" PUT other 403' in log
    assert "127.0.0.1 - PUT papers/1 403" in log
    first = machine.output("ropepeach", "look", "--log", "/var/log/nginx/ropepeach-source.changes.log")
    assert "PUT greeting 201" in first


def test_fill_repairs_a_damaged_body(machine: Machine) -> None:
    """A failed verification makes health CRITICAL, with the name; after `fill --repair` the next one succeeds."""
    machine.output("systemctl", "stop", "ropepeach@second")
    disk = Path(f"{machine.root}{SECOND_DISK}")
    items = [item for page in disk_reader.source_of(disk.read_bytes()).catalogue for item in page.items]
    with open(disk, "r+b") as file:
        file.seek(next(item.first for item in items if item.name == b"07.txt") * disk_formats.BLOCK)
        file.write(b"T")
    assert machine.run("systemctl", "start", "ropepeach-verify@second").returncode == 1
    machine.until(lambda: machine.is_active("ropepeach@second"), "the server is started again")
    health = machine.run("ropepeach", "health", "--file", SECOND_DISK, SECOND)
    assert health.returncode == 2
    assert "CRITICAL" in health.stdout
    assert "damaged 07.txt" in health.stdout
    filled = machine.output("ropepeach", "fill", "--repair", "--skip-unlawful", FOLDER, SECOND)
    assert "damaged 07.txt: put again" in filled
    assert "1 put" in filled
    machine.output("systemctl", "start", "ropepeach-verify@second")
    machine.until(lambda: machine.is_active("ropepeach@second"), "the server is started again")
    assert "OK" in machine.output("ropepeach", "health", "--file", SECOND_DISK, SECOND)


def test_one_unit_has_the_health_of_a_collection(machine: Machine) -> None:
    """The unit fails while one source does not answer, and its journal has a line per source."""
    file = Path(machine.root, "etc/ropepeach/both.toml")
    file.write_text(COLLECTION)
    machine.shell("sed -i 's/--patience 60/--patience 1/' /usr/lib/systemd/system/ropepeach-collection@.service; "
                  "systemctl daemon-reload")
    cursor = machine.cursor()
    assert machine.run("systemctl", "start", "ropepeach-collection@both").returncode == 1
    journal = machine.journal("ropepeach-collection@both", cursor)
    assert f"OK: {SECOND}: " in journal
    assert "CRITICAL: http://127.0.0.1:8999: " in journal
    file.write_text(COLLECTION.partition("[source.gone]")[0])
    machine.output("systemctl", "start", "ropepeach-collection@both")
    assert [unit for unit in machine.failed() if "collection" in unit] == []


def test_restore_reserves_each_byte_of_the_file(machine: Machine) -> None:
    """`look`, `why` and `health` report the bytes of a sparse copy that are not reserved."""
    machine.shell("systemctl stop ropepeach; cd /var/lib/ropepeach; cp --sparse=always source.disk copy.disk; "
                  "chown ropepeach: copy.disk; "
                  "systemctl start ropepeach")
    lacking = machine.output("ropepeach", "look", "/var/lib/ropepeach/copy.disk")
    assert "not reserved: " in lacking
    assert "bytes of it are not reserved" in machine.output("ropepeach", "why", "/var/lib/ropepeach/copy.disk")
    machine.output("ropepeach", "restore", "source", "/var/lib/ropepeach/copy.disk")
    health = machine.run("ropepeach", "health", "--file", "/var/lib/ropepeach/copy.disk", "http://127.0.0.1:8080")
    assert "bytes of the file not reserved" in health.stdout
    status = Path(f"{machine.root}{DISK}").stat()
    assert status.st_blocks * 512 >= status.st_size
    assert "not reserved" not in machine.output("ropepeach", "look", DISK)
    machine.shell("rm /var/lib/ropepeach/copy.disk /var/lib/ropepeach/source.disk.before-*")


def test_the_journal_says_how_to_allow_another_folder(machine: Machine) -> None:
    """A source with FILE outside its folder does not start; the journal names ReadWritePaths= and the command."""
    machine.shell(f"install -d -o ropepeach -g ropepeach {ELSEWHERE}\n"
                  f"runuser -u ropepeach -- rs_source format {ELSEWHERE}/a.disk 4194304 https://else.example.org 100\n"
                  f"printf 'FILE={ELSEWHERE}/a.disk\\nPORT=8083\\n' > /etc/ropepeach/else.env")
    cursor = machine.cursor()
    machine.run("systemctl", "start", "ropepeach@else")
    machine.until(lambda: "rs_source: Device" in machine.journal("ropepeach@else", cursor), "the program says why")
    remedy = f"systemctl edit ropepeach@else.service, and write the lines [Service] and ReadWritePaths={ELSEWHERE}"
    assert remedy in machine.journal("ropepeach@else", cursor)
    machine.shell("systemctl stop ropepeach@else; systemctl reset-failed 'ropepeach@else*' || true; "
                  "rm /etc/ropepeach/else.env")


def test_messages_of_mirror_new_and_fill_name_the_remedy(machine: Machine) -> None:
    """`mirror` names the host of a list's entries, and a full folder, and counts bytes; `fill -q` prints the usage."""
    listed = machine.run("ropepeach", "mirror", f"{SECOND}/resourcelist.xml", "/root/listed")
    assert listed.returncode == 1
    assert f"30 of other hosts; --host {HOST} allows the first host" in listed.stdout
    machine.shell("mkdir -p /root/few; mount -t tmpfs -o size=4M,nr_inodes=12 tmpfs /root/few")
    full = machine.run("env", f"SSL_CERT_FILE={CERTIFICATE}", "ropepeach", "mirror", f"https://{HOST}", "/root/few/m")
    machine.shell("umount /root/few")
    assert full.returncode == 3
    assert "/root/few/m: No space left on device" in full.stdout
    slash = machine.run("ropepeach", "new", "slash", "--base", "https://slash.example.org/")
    assert slash.returncode == 2
    assert "an address ends without a slash, as https://slash.example.org" in slash.stdout
    usage = machine.run("ropepeach", "fill", "-q")
    assert "ropepeach fill: error: " in usage.stdout
    command = f"env SSL_CERT_FILE={CERTIFICATE} ropepeach mirror https://{HOST} /root/m"
    bar = machine.output("script", "--quiet", "--return", "--command", command, "/dev/null")
    assert re.search(r"fetching +\d+% .* \d\d:\d\d left, [\d,]+ of [\d,]+, [\d.]+[kM]?B/s", bar)
