"""Test an upgrade of the packages, and their removal."""
from __future__ import annotations

import shutil

from operations.tests.machine.machine import ON_MACHINE, Machine, Packages, disk_of
from operations.tests.machine.puts import Puts

pytestmark = ON_MACHINE


def test_an_upgrade_keeps_the_source_and_its_settings(machine: Machine, packages: Packages) -> None:
    """An upgrade restarts the running sources, and starts no other."""
    settings = machine.root / "etc/ropepeach/source.env"
    settings.write_text(settings.read_text() + "# changed\n")
    puts = Puts(machine, "upgraded")
    puts.start()
    puts.wait_for(10)
    puts.stop()
    before, second = machine.shows("ropepeach", "MainPID"), machine.shows("ropepeach@second", "MainPID")
    names = " ".join(f"./{deb.name}" for deb in packages.later)
    for deb in packages.later:
        shutil.copy(deb, machine.root / "root")
    machine.shell(f"cd /root; apt-get install -q -y {names}", seconds=120)
    machine.until(lambda: machine.is_active("ropepeach"), "the source runs")
    assert machine.shows("ropepeach", "MainPID") != before
    assert machine.shows("ropepeach@second", "MainPID") != second
    assert machine.shows("ropepeach@small", "ActiveState") == "inactive"
    assert "# changed" in settings.read_text()
    puts.look()


def test_a_removal_leaves_the_file(machine: Machine) -> None:
    """The source is served without the tools too; `apt remove` stops it, and a purge prints the path of its file."""
    machine.output("apt-get", "remove", "-q", "-y", "ropepeach-tools", seconds=120)
    machine.output("systemctl", "restart", "ropepeach")
    machine.output("curl", "-fsS", "http://127.0.0.1:8080/capabilitylist.xml")
    before = disk_of(machine).read_bytes()
    machine.output("apt-get", "remove", "-q", "-y", "ropepeach", seconds=120)
    assert machine.run("bash", "-c", "cat /proc/[0-9]*/comm | grep -x rs_source").stdout == ""
    output = machine.output("apt-get", "purge", "-q", "-y", "ropepeach", "ropepeach-tools", seconds=120)
    assert "/var/lib/ropepeach stays" in output
    assert disk_of(machine).read_bytes() == before
    # (drop-ins of these checks, and the page that they wrote)
    ours = "-path '*/ropepeach*.d/*' -o -name 'ropepeach*.d' -o -path '/usr/share/ropepeach*'"
    remaining = machine.run("bash", "-c", f"find /usr /etc/systemd -name '*ropepeach*' -not \\( {ours} \\)").stdout
    assert remaining == ""
