"""Check that the tests of the machine catch wrong units, made by drop-ins."""
from __future__ import annotations

import subprocess
from collections.abc import Callable

import pytest

from operations.tests.machine.machine import ON_MACHINE, Machine, drop_in
from operations.tests.machine.test_door import (
    test_guard_keeps_other_users_from_the_port as guard, test_systemd_knows_the_limits_of_the_units as limits,
)
from operations.tests.machine.test_edge import (
    test_a_source_is_restarted_once_a_full_file_system_has_room as full_file_system,
)
from operations.tests.machine.test_machine import (
    test_the_unit_is_up_when_its_port_listens as up, test_the_verification_names_a_damaged_body as damaged,
)

pytestmark = ON_MACHINE

WAITING, GUARD = "/usr/lib/ropepeach/until-it-listens", "/usr/lib/ropepeach/guard"
SOURCE, MIRROR, HEAL = "ropepeach.service", "ropepeach-mirror@copy.service", "ropepeach-heal@small.service"
# A test, a unit, and the settings that the drop-in adds.
WRONG: dict[str, tuple[Callable[[Machine], None], str, str]] = {
    "a unit waits for no port": (up, SOURCE, "ExecStartPost=\n"),
    "a unit waits for another port": (
        up, SOURCE, f"ExecStartPost=\nExecStartPost={WAITING} 22 $MAINPID\nTimeoutStartSec=3\n"),
    "the server stays stopped": (damaged, "ropepeach-again.service", "ExecStart=\nExecStart=/bin/true\n"),
    "a failed verification succeeds": (damaged, "ropepeach-verify.service", "SuccessExitStatus=1\n"),
    "no guard": (guard, SOURCE, "ExecStartPre=\n"),
    "a guard of another user": (guard, SOURCE, f"ExecStartPre=\nExecStartPre=+{GUARD} 8080 nobody ropepeach\n"),
    "a guard of one user more": (
        guard, SOURCE, f"ExecStartPre=\nExecStartPre=+{GUARD} 8080 www-data ropepeach nobody\n"),
    "a guard that may fail": (guard, SOURCE, f"ExecStartPre=\nExecStartPre=-+{GUARD} 8080 www-data ropepeach\n"),
    "a publication of another user": (guard, "ropepeach-publish.service", "User=nobody\n"),
    "a mirror of any time": (limits, MIRROR, "TimeoutStartSec=infinity\n"),
    "a mirror of any memory": (limits, MIRROR, "MemoryMax=infinity\n"),
    "no restart": (full_file_system, HEAL, "ExecStart=\nExecStart=/bin/true\n"),
    "a restart of a running source only": (
        full_file_system, HEAL, "ExecStart=\nExecStart=/usr/bin/systemctl try-restart ropepeach@small\n"),
}
# The timeout for a wrong unit in seconds.
PATIENCE = 4
FAULTS = (AssertionError, OSError, ValueError, LookupError, subprocess.SubprocessError)


@pytest.mark.parametrize(("test", "unit", "settings"), WRONG.values(), ids=WRONG)
def test_a_wrong_unit_is_noticed(machine: Machine, monkeypatch: pytest.MonkeyPatch, test: Callable[[Machine], None],
                                 unit: str, settings: str) -> None:
    drop_in(machine, unit, f"[Service]\n{settings}", "wrong")
    monkeypatch.setattr(machine, "patience", PATIENCE)
    try:
        with pytest.raises(FAULTS):
            test(machine)
    finally:
        monkeypatch.undo()
        for name in ("wrong", "changed"):
            drop_in(machine, unit, "", name)
        drop_in(machine, "ropepeach-health@small.timer", "")
        machine.shell("systemctl stop ropepeach-health@small.timer ropepeach@small; systemctl reset-failed; "
                      "systemctl start ropepeach")
