"""Test a machine with a full file system, copies of a source, and a wrong clock."""
from __future__ import annotations

import re
import shutil
from pathlib import Path

import pytest

from operations.tests.machine.machine import ON_MACHINE, Machine, drop_in
from operations.tests.machine.page import commands
from operations.tests.machine.puts import Puts
from tests.program import interposed

pytestmark = ON_MACHINE

# A timer that does not wait for a minute.
SOON = "[Timer]\nOnActiveSec=\nOnUnitInactiveSec=\nOnActiveSec=1s\nOnUnitInactiveSec=1s\nAccuracySec=100ms\n"
# The restarts that ropepeach-heal@.service allows in an hour.
HEALS = 3
# A library that makes the clock wrong by OFFSET seconds.
CLOCK = r"""
#define _GNU_SOURCE
#include <stdlib.h>
#include <sys/syscall.h>
#include <time.h>
#include <unistd.h>
int clock_gettime(clockid_t id, struct timespec *t) {
    int it = syscall(SYS_clock_gettime, id, t);
    if (id == CLOCK_REALTIME) t->tv_sec += atol(getenv("OFFSET"));
    return it;
}
"""
YEAR = 31_556_952
FULL, PORT = "/var/lib/ropepeach/small", 8082


def status_of(machine: Machine, port: int, path: str = "/capabilitylist.xml") -> tuple[str, str]:
    """Return the status and the beginning of a response to curl."""
    output = machine.run("curl", "-s", "--max-time", "20", "-w", " %{http_code}",
                         f"http://127.0.0.1:{port}{path}").stdout
    return output.rpartition(" ")[2], output[:40]


def put_until_it_fails(machine: Machine) -> int:
    """Put bodies of 200,000 bytes into the small source until it refuses one; return the number of accepted ones."""
    Path(machine.root, "root/large").write_bytes(bytes(200_000))
    for number in range(100):
        word = ["curl", "-s", "-o", "/dev/null", "-w", "%{http_code}", "-T", "/root/large",
                f"http://127.0.0.1:{PORT}/resource/{number}"]
        if machine.run(*word).stdout != "201":
            return number
    raise AssertionError("the file system does not fill up")


def check_failed_health(machine: Machine) -> None:
    """Check that a failed health check restarts no source."""
    # (wait for the end of the earlier restart)
    machine.until(lambda: "ropepeach@small" not in machine.output("systemctl", "list-jobs"), "no restart is at work")
    machine.until(lambda: machine.is_active("ropepeach@small"), "the source is served")
    before, cursor = machine.shows("ropepeach@small", "MainPID"), machine.cursor()
    drop_in(machine, "ropepeach-health@small.service", "[Service]\nExecStart=\nExecStart=/bin/false\n")
    try:
        machine.run("systemctl", "start", "ropepeach-health@small")
        machine.until(lambda: "Finished ropepeach-heal@small" in machine.journal("ropepeach-heal@small", cursor),
                      "the unit that heals has run")
    finally:
        drop_in(machine, "ropepeach-health@small.service", "")
    assert machine.shows("ropepeach@small", "MainPID") == before


def test_a_source_is_restarted_once_a_full_file_system_has_room(machine: Machine) -> None:
    """The source is closed until then, and the journal says why. The timer restarts it at most three times an hour."""
    machine.shell(f"systemctl stop ropepeach@small; umount {FULL} 2> /dev/null || true")
    machine.shell(f"install -d -o ropepeach -g ropepeach {FULL}; mount -t tmpfs "
                  f"-o size=2M,mode=700,uid=ropepeach,gid=ropepeach tmpfs {FULL}")
    machine.shell(f"runuser -u ropepeach -- rs_source format {FULL}/a.disk $((8 << 20)) https://small.example.org 100\n"
                  f"printf 'FILE={FULL}/a.disk\nPORT={PORT}\n' > /etc/ropepeach/small.env; "
                  "systemctl start ropepeach@small")
    answered = put_until_it_fails(machine)
    assert status_of(machine, PORT) == ("503", "Closed\n 503")
    drop_in(machine, "ropepeach-health@small.timer", SOON)
    machine.output("systemctl", "start", "ropepeach-health@small.timer")
    machine.until(lambda: "a restart does not help yet" in machine.journal("ropepeach-health@small"),
                  "the journal says why")
    assert status_of(machine, PORT)[0] == "503"
    machine.output("mount", "-o", "remount,size=40M", FULL)
    machine.until(lambda: status_of(machine, PORT)[0] == "200", "the source is healed")
    assert "and there is room: the program is restarted" in machine.journal("ropepeach-health@small")
    for number in range(answered):
        size = machine.shell(f"curl -fsS http://127.0.0.1:{PORT}/resource/{number} | wc -c")
        assert size.strip() == "200000", f"the put {number}"
    machine.until(lambda: "ropepeach-health@small.service" not in machine.failed(), "the source is well again")
    more = [machine.run("systemctl", "start", "ropepeach-heal@small").returncode for _ in range(HEALS)]
    assert more[-1] == 1
    machine.output("systemctl", "stop", "ropepeach-health@small.timer")
    assert machine.shows("ropepeach-heal@small", "Result") == "start-limit-hit"
    machine.output("systemctl", "reset-failed", "ropepeach-heal@small")
    check_failed_health(machine)
    machine.output("systemctl", "stop", "ropepeach@small")


@pytest.mark.parametrize("words", ["systemctl freeze", "kill -STOP"])
def test_a_copy_by_the_commands_of_the_page_opens(machine: Machine, words: str) -> None:
    """The page's commands stop the program during puts; the copy has every answered put."""
    machine.output("cp", "/usr/bin/rs_source", "/root/rs_source")
    puts = Puts(machine, f"copied-{words.split()[0]}")
    puts.start()
    puts.wait_for(20)
    answered = len(puts.answered)
    process = machine.run("bash", "-c", f"cd /var/lib/ropepeach; {commands('Backing up', words)}")
    if process.returncode == 0:
        puts.wait_for(1)
    puts.stop()
    if "does not support free" in process.stdout or "not supported" in process.stdout.lower():
        pytest.skip(f"this kernel does not offer it to systemd: {process.stdout}")
    assert process.returncode == 0, process.stdout
    check_copy(machine, puts, answered)
    puts.look()


def check_copy(machine: Machine, puts: Puts, answered: int) -> None:
    """Check that a copy opens, passes verification, and has the puts that were answered before."""
    output = machine.shell("cd /var/lib/ropepeach; echo verify | /root/rs_source run copy.disk")
    assert "verified " in output
    assert "damaged" not in output
    machine.shell("printf 'FILE=/var/lib/ropepeach/copy.disk\nPORT=8083\n' > /etc/ropepeach/copy.env; chown ropepeach: "
                  "/var/lib/ropepeach/copy.disk")
    machine.output("systemctl", "start", "ropepeach@copy")
    port, port_before, puts.port, puts.answered = puts.port, puts.answered, 8083, puts.answered[:answered]
    try:
        puts.look()
    finally:
        puts.port, puts.answered = port, port_before
    machine.output("systemctl", "stop", "ropepeach@copy")


def put_at(machine: Machine, offset: int) -> str:
    """Put with the program's clock wrong by an offset; return the moment of this put."""
    change = f"[Service]\nEnvironment=LD_PRELOAD=/usr/local/lib/clock.so OFFSET={offset}\n" if offset else ""
    drop_in(machine, "ropepeach.service", change)
    machine.output("systemctl", "restart", "ropepeach")
    machine.output("curl", "-fsS", "-X", "PUT", "--data-binary", str(offset), "http://127.0.0.1:8080/resource/clock")
    text = machine.output("curl", "-fsS", "http://127.0.0.1:8080/changelist.xml")
    if "<sitemapindex" in text:
        last = re.findall(r"<loc>https://source\.example\.org(/changelist/\d+\.xml)</loc>", text)[-1]
        text = machine.output("curl", "-fsS", f"http://127.0.0.1:8080{last}")
    return str(re.findall(r'datetime="(\S+?)"', text)[-1])


def test_moments_only_rise_with_a_wrong_clock(machine: Machine) -> None:
    """Moments rise with a clock 3 years slow, then 100 years fast, then right; `ropepeach health` reports the clock."""
    library = interposed(machine.root / "root", "clock", CLOCK)["LD_PRELOAD"]
    shutil.copy(library, machine.root / "usr/local/lib/clock.so")
    right = put_at(machine, 0)
    back = put_at(machine, -3 * YEAR)
    assert right < back and back[:16] == right[:16]
    ahead, after = put_at(machine, 100 * YEAR), put_at(machine, 0)
    assert ahead[:4] == str(int(right[:4]) + 100)
    assert ahead < after and after[:10] == ahead[:10]
    health = machine.run("ropepeach", "health", "http://127.0.0.1:8080")
    assert "seconds in the future: a clock is or was wrong" in health.stdout
