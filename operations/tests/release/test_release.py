"""Test `make release` without its large artifacts."""
from __future__ import annotations

import os
import shutil
import subprocess
import time
from collections.abc import Callable
from dataclasses import replace
from pathlib import Path
from unittest import mock

import pytest

from operations.package import rules, stamp
from operations.package.program_facts import MACHINES, Machine, Unfit, libc_version
from operations.release import artifacts, gathered
from operations.release.gathered import Part
from operations.tests.release import made_up
from operations.tests.release.made_up import MadeUp
from rust import __main__ as writing
from gate.tested import line_of
from tests import verdict

MOMENT, SKIP, OTHER_SKIP = 1767225600, line_of("page", "no browser"), line_of("b", "no root")
# Faults of a repository, and texts of the refusal.
FAULTS: dict[str, tuple[Callable[[MadeUp], object], str]] = {
    "no repository": (lambda made: shutil.rmtree(made.root / ".git"), "there is no git repository here"),
    "a changed file": (lambda made: (made.root / "VERSION").write_text("0.1.0 \n"),
                       "VERSION is not as the commit has it"),
    "a new file": (lambda made: (made.root / "new").write_text(""), "new is not as the commit has it"),
    "no verdict": (lambda made: verdict.drop(made.root), "there is no out/verdict.json: make test"),
    "no JSON": (lambda made: (made.root / verdict.PLACE).write_text("{"), "out/verdict.json is no verdict"),
    "another commit": (made_up.another_commit, "the gate ran on another commit"),
    "a gate with changes": (lambda made: made.write_verdict(changes=("a.py",)), "a.py was not as it has it"),
    "a red gate": (lambda made: made.write_verdict(failed=("a",), line="2 passed, 1 failed"),
                   "the gate did not pass: 2 passed, 1"),
    "an empty gate": (lambda made: made.write_verdict(passed=0, line="0 passed, 0 failed"),
                      "the gate did not pass: 0 passed"),
    "a skip": (lambda made: made.write_verdict(skipped=(SKIP,)), f"the gate skipped 1, the first is: {SKIP}"),
    "a tag elsewhere": (made_up.tag_elsewhere, "the tag v0.1.0 is on another commit"),
    "no stamp": (lambda made: (made.root / "out/rs_source.stamp").unlink(), "has no stamp"),
    "no program": (lambda made: made.program.unlink(), "there is no program yet"),
    "another program": (lambda made: made.program.write_bytes(b"another\n"), "is not the program that its stamp is of"),
    "a stamp of another commit": (lambda made: made.write_stamp(commit="d" * 40), "was built of dddddddddddd, not of"),
    "a stamp with changes": (lambda made: made.write_stamp(has_changes=True), "with changes, not of"),
    "another prover": (lambda made: made.write_stamp(kit="kit-2 logic abc"), "was proved by kit-2 logic abc"),
    "no section": (lambda made: made_up.changelog(made, "# Changelog\n"), "has 0 sections of 0.1.0"),
    "two sections": (lambda made: made_up.changelog(made, made_up.CHANGELOG * 2), "has 2 sections of 0.1.0"),
    "an empty section": (lambda made: made_up.changelog(made, "## [0.1.0]\n\n## [0.0.9]\n- b\n"),
                         "says nothing of 0.1.0"),
    "the section of 0.1.00": (lambda made: made_up.changelog(made, "## [0.1.00]\n- a\n"), "has 0 sections of 0.1.0"),
}


def fault_of(call: Callable[[], object]) -> str:
    """Return the message of Unfit, or ""."""
    try:
        call()
    except Unfit as why:
        return str(why)
    return ""


@pytest.mark.parametrize(("spoil", "line"), FAULTS.values(), ids=FAULTS)
def test_an_unfit_release_is_refused(room: Path, spoil: Callable[[MadeUp], object], line: str) -> None:
    """A release is refused for another program, and for a commit or state that the gate has not passed."""
    made = MadeUp(room / "wrong")
    assert fault_of(made.read) == ""
    spoil(made)
    fault = fault_of(made.read)
    assert line in fault and "\n" not in fault


def test_with_skips_allows_skips_and_proved_names_them(room: Path) -> None:
    """`--with-skips` allows skips, and PROVED names them. A red gate is still refused."""
    made = MadeUp(room / "skipped")
    made.write_verdict(skipped=(SKIP, OTHER_SKIP), line="3 passed, 0 failed, 2 skipped")
    assert fault_of(lambda: made.read(with_skips=True)) == ""
    text = artifacts.proved_text(made.read(with_skips=True), "p" * 64, "rustc 1.0")
    for line in ("3 passed, 0 failed, 2 skipped", f"It did not try:\n  {SKIP}\n", f"It did not try:\n  {OTHER_SKIP}\n"):
        assert line in text
    made.write_verdict(skipped=(SKIP,), failed=("a",))
    assert fault_of(lambda: made.read(with_skips=True))


def test_a_tag_on_the_same_commit_is_allowed(room: Path) -> None:
    made = MadeUp(room / "tagged")
    made_up.git(made.root, "tag", "v0.1.0")
    assert fault_of(made.read) == ""


def test_proved_and_changes_describe_the_release(room: Path) -> None:
    """PROVED has the commit, the prover, the gate's line, both digests, and the artifacts that are not proved."""
    made = MadeUp(room / "texts")
    found = made.read()
    text = artifacts.proved_text(found, "p" * 64, "rustc 1.0")
    proved, _, plain = text.partition("NOT proved")
    for words in (made.first, made_up.KIT, "3 passed, 0 failed\n", found.stamp.sha256, "p" * 64,
                  "ropepeach_0.1.0_amd64.deb"):
        assert words in proved
    for words in ("rustc 1.0", "ropepeach-plain_0.1.0_arm64.deb", "linux-amd64", "linux-arm64",
                  "ropepeach-plain-0.1.0.tar.gz"):
        assert words in plain and words not in proved
    assert "did not try" not in text
    assert found.changes == "# Ropepeach 0.1.0, 2026-01-01\n\n### Added\n- A first thing.\n"


def parts(text: str = "one") -> list[Part]:
    """Return two parts that are quick to make."""
    def write(to: Path) -> None:
        (to / "a.deb").write_text(text)
        (to / "left out").write_text("of no release")

    def build(to: Path) -> None:
        (to / "program").write_bytes(b"\x7fELF")

    return [Part(("a.deb",), write), Part(("program",), build, ("program",))]


def facts(folder: Path) -> dict[str, tuple[bytes, int, int]]:
    """Return the bytes, the mode and the time of a folder's files."""
    return {path.name: (path.read_bytes(), path.stat().st_mode & 0o7777,
                        int(path.stat().st_mtime)) for path in folder.iterdir()}


def test_two_gatherings_are_the_same(room: Path) -> None:
    """Another folder, day or mask changes no byte, mode or time; SHA256SUMS has all files."""
    found = []
    for number, (mask, ahead) in enumerate(((0o022, 0), (0o077, 90_000), (0o000, 0))):
        to, before, now = room / f"made{number}" / ("x" * number or ".") / "release", os.umask(mask), time.time()
        try:
            with mock.patch.object(time, "time", lambda: now + ahead):
                gathered.gather(parts(), to, MOMENT)
        finally:
            os.umask(before)
        found.append((facts(to), to.stat().st_mode & 0o7777, int(to.stat().st_mtime)))
        checked = subprocess.run(["sha256sum", "--check", "--strict", "SHA256SUMS"], cwd=to, capture_output=True,
                                 text=True)
        assert checked.returncode == 0 and checked.stdout == "a.deb: OK\nprogram: OK\n"
    assert found[0] == found[1] == found[2]
    modes = {name: oct(mode) for name, (_, mode, _) in found[0][0].items()}
    assert modes == {"a.deb": "0o644", "program": "0o755", "SHA256SUMS": "0o644"}
    assert found[0][1:] == (0o755, MOMENT)


def test_a_release_is_replaced_whole_or_not_at_all(room: Path) -> None:
    """A missing artifact, a link, or an artifact made twice leaves the folder unchanged."""
    to = room / "whole" / "release"
    gathered.gather(parts("before"), to, MOMENT)
    (to / "old").write_text("of an earlier release")
    before = facts(to)
    link = Part(("b",), lambda folder: (folder / "b").symlink_to("/etc/passwd"))
    for wrong in (Part(("b",), lambda folder: None), Part(("b",), lambda folder: (folder / "b").mkdir()), link,
                  Part(("a.deb",), lambda folder: None if (folder / "a.deb").write_text("again") else None)):
        assert fault_of(lambda: gathered.gather([*parts(), wrong], to, MOMENT)), f"{wrong.names} passes"
        assert facts(to) == before and [path.name for path in to.parent.iterdir()] == ["release"]
    gathered.gather(parts("after"), to, MOMENT)
    assert set(facts(to)) == {"a.deb", "program", "SHA256SUMS"} and facts(to)["a.deb"][0] == b"after"


def test_the_plain_tarball_has_the_same_bytes(room: Path) -> None:
    """The plain tarball is the same with another mask, other times and another folder of the sources."""
    found = []
    for number, mask in enumerate((0o022, 0o077)):
        folder, before = room / f"tarball{number}" / "sources", os.umask(mask)
        try:
            (folder / "src").mkdir(parents=True)
            for name in ("b", "a", "src/main.rs")[:: 1 - 2 * number]:
                (folder / name).write_text(name)
            os.utime(folder / "a", (number * 1000, number * 1000))
            writing.packed(folder, room / f"{number}.tar.gz")
        finally:
            os.umask(before)
        found.append((room / f"{number}.tar.gz").read_bytes())
    assert found[0] == found[1]


def test_each_artifact_has_one_maker(room: Path) -> None:
    made = artifacts.Release(MadeUp(room / "parts").read(), room, None, room).parts()
    names = [name for part in made for name in part.names]
    right = ["CHANGES.md", "PROVED", "ropepeach-0.1.0-image-amd64.tar", "ropepeach-plain-0.1.0.tar.gz",
             "ropepeach-plain_0.1.0_arm64.deb", "ropepeach-tools_0.1.0_all.deb", "ropepeach_0.1.0.dsc",
             "ropepeach_0.1.0.tar.xz",
             "ropepeach_0.1.0_amd64.deb", "rs_source-plain-0.1.0-linux-amd64", "rs_source-plain-0.1.0-linux-arm64"]
    assert sorted(names) == right
    programs = sorted(name for part in made for name in part.programs)
    assert programs == right[-2:]


@pytest.fixture
def stamped(room: Path) -> Path:
    """Return a program with a stamp of a prover."""
    program = room / "rs_source"
    shutil.copyfile("/bin/true", program)
    stamp.Stamp(stamp.digest(program), "c" * 40, False, MOMENT, made_up.KIT).write(program)
    return program


@pytest.mark.parametrize(("kit", "is_plain", "is_right"), [
    (made_up.KIT, False, True), (made_up.KIT, True, False), ("rustc 1.0", True, True), ("rustc 1.0", False, False),
    ("none: a test", False, True)])
def test_plain_and_proved_programs_do_not_swap_packages(stamped: Path, kit: str, is_plain: bool,
                                                        is_right: bool) -> None:
    replace(stamp.read(stamped), kit=kit).write(stamped)
    fault = fault_of(lambda: rules.read_stamp(stamped, is_plain))
    assert fault == "" if is_right else "goes into another package" in fault


@pytest.mark.parametrize("machine", MACHINES.values(), ids=lambda machine: str(machine.name))
def test_no_program_is_packed_for_another_machine(stamped: Path, machine: Machine) -> None:
    assert bool(fault_of(lambda: libc_version(stamped, machine))) == (machine.name != platform_machine())
    content = bytearray(stamped.read_bytes())
    content[18:20] = (243).to_bytes(2, "little")  # (RISC-V by the ELF header only)
    stamped.write_bytes(content)
    assert "is for RISC-V" in fault_of(lambda: libc_version(stamped, machine))


def test_an_unknown_machine_has_no_package(monkeypatch: pytest.MonkeyPatch) -> None:
    monkeypatch.setenv("DEB_HOST_ARCH", "riscv64")
    assert "there is no package for riscv64" in fault_of(rules.machine)


def platform_machine() -> str:
    """Return Debian's name of this machine's architecture."""
    return {"x86_64": "amd64", "aarch64": "arm64"}.get(os.uname().machine, "")
