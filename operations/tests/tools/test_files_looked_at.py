"""Test that `ropepeach look`, `why` and `health` report unreserved bytes, the last verification and several sources."""
from __future__ import annotations

import contextlib
import os
import shlex
import subprocess
import time
from collections.abc import Callable
from pathlib import Path
from unittest import mock

import pytest

from operations.tests.tools.lists_server import always, documents_of, serving
from operations.tests.tools.command_runs import json_of, lines_of, run_command, status_of
from ropepeach.admin import why
from ropepeach.admin.processes import Processes
from ropepeach.disk import formula
from ropepeach.health import command as health_command
from ropepeach.health import source as health_source
from tests.program import ROOT
from tests.reading import disk_formats, disk_reader
from tests.reading.crash_model import State
from tests.served_source import free_port

BASE, SIZE, SECONDS = "https://source.example.org", 1_048_576, 60


def source_in(folder: Path, program: str, name: str = "a.disk") -> str:
    """Make a fully reserved file of a source with two resources; return its path."""
    subprocess.run([program, "format", name, str(SIZE), BASE, "2"], cwd=folder, check=True,
                   capture_output=True, timeout=SECONDS)
    path = folder / name
    subprocess.run([program, "run", name], cwd=folder, input=b"put a 6161 a/b\nput b 62 a/b\n", check=True,
                   capture_output=True, timeout=SECONDS)
    subprocess.run(["fallocate", "--length", str(SIZE), path], check=True, timeout=SECONDS)
    return str(path)


def sparse_copy(folder: Path, path: str) -> tuple[str, int]:
    """Copy a file without reserving its room; return the path and the number of unreserved bytes."""
    copy = str(folder / "copy.disk")
    subprocess.run(["cp", "--sparse=always", path, copy], check=True, timeout=SECONDS)
    lacking = SIZE - 512 * os.stat(copy).st_blocks
    assert lacking > 500_000, f"the copy lacks {lacking} bytes"
    return copy, lacking


def test_unreserved_bytes_of_a_file_are_reported(program: str, room: Path) -> None:
    """The commands report the unreserved bytes of a sparse copy, until `fallocate` reserves them."""
    path = source_in(room, program)
    copy, lacking = sparse_copy(room, path)
    words = f"{lacking:,} bytes"
    with serving(documents_of(State(BASE, 2))) as server:
        for file, is_whole in ((path, True), (copy, False)):
            runs = {"look": run_command("look", file), "why": run_command("why", file),
                    "health": run_command("health", server.url, "--file", file)}
            for name, run in runs.items():
                assert (f"{words} " not in run.stdout and "not reserved" not in run.stdout) == is_whole
                assert run.returncode == 0, f"{name} {file}: {run.returncode} {run.stderr!r}"
            for name in ("look", "why"):
                assert is_whole or f"fallocate --length {SIZE} {file}" in runs[name].stdout, runs
            assert f"unreserved={0 if is_whole else lacking}B" in runs["health"].stdout, runs["health"].stdout
        assert json_of("look", copy, "--json")["not_reserved"] == lacking, "look --json"
        assert json_of("why", copy, "--json")["not_reserved"] == lacking, "why --json"
    subprocess.run(["fallocate", "--length", str(SIZE), copy], check=True, timeout=SECONDS)
    assert "not reserved" not in run_command("look", copy).stdout, "after fallocate"


def test_procedures_of_the_documentation_reserve_room(program: str, room: Path) -> None:
    """The copies and the longer file of operations/docs/OPERATING.md are fully reserved."""
    page = (ROOT / "operations/docs/OPERATING.md").read_text()
    source_in(room, program, "source.disk")
    size, larger = SIZE, 2 * SIZE
    reserving = [line for line in map(str.strip, page.splitlines()) if "fallocate --length" in line
                 and line.startswith(("cp ", "runuser", "truncate", "fallocate"))]
    assert len(reserving) >= 3, reserving
    for words in ("cp --sparse=always source.disk copy.disk && fallocate --length $(stat --format=%s "
                  "copy.disk) copy.disk",
                  f"fallocate --length {larger} source.disk",
                  f"{shlex.quote(program)} copy source.disk larger.disk {2 * larger}"
                  f" && fallocate --length {2 * larger} larger.disk"):
        subprocess.run(["sh", "-ec", words], cwd=room, check=True, capture_output=True, timeout=SECONDS)
    for name, length in (("copy.disk", size), ("source.disk", larger), ("larger.disk", 2 * larger)):
        status = os.stat(room / name)
        assert (status.st_size, formula.unreserved(status)) == (length, 0), f"{name}: {status}"
        assert lines_of(run_command("look", str(room / name)))[0].startswith(str(room / name)), name


def verify(path: str, program: str) -> int:
    """Run the script of the unit ropepeach-verify."""
    script = (ROOT / "operations/install/verify").read_text().replace("/usr/local/bin/rs_source", shlex.quote(program))
    return subprocess.run(["sh", "-c", script, "verify", path], capture_output=True,
                          timeout=SECONDS).returncode


def damage(path: str) -> None:
    """Invert a byte of the body of `a`."""
    data = bytearray(Path(path).read_bytes())
    data[disk_reader.source_of(bytes(data)).catalogue[0].items[0].first * disk_formats.BLOCK] ^= 1
    Path(path).write_bytes(bytes(data))


def test_a_failed_verification_is_critical(program: str, room: Path) -> None:
    """The line names damaged resources. Health is good again after a successful verification."""
    path = source_in(room, program)
    with serving(documents_of(State(BASE, 2))) as server:
        words = ["health", server.url, "--file", path]
        status_of(run_command(*words), 0, "last verification never")
        status_of(run_command(*words, "--verification-age", "0.000001"), 1, "no verification within ")
        assert verify(path, program) == 0, "a sound source"
        status_of(run_command(*words, "--verification-age", "8"), 0, "last verification", "second",
                  "verification_age=")
        old = time.time() - 9 * 86_400
        os.utime(path + ".verified", (old, old))
        status_of(run_command(*words, "--verification-age", "8"), 1, "no verification within 192 hours",
                  "last verification 9 days ago")
        damage(path)
        assert verify(path, program) == 1, "a damaged body"
        metrics = room / "metrics.prom"
        output = status_of(run_command(*words, "--prometheus", str(metrics)), 2, "CRITICAL: ",
                           "the last verification failed, damaged a (", "fill --repair")
        assert output.count("\n") == 1
        assert 'ropepeach_verified{source="' in metrics.read_text() and "} 0\n" in metrics.read_text()
        subprocess.run([program, "run", path], input=b"put a 6161 a/b\n", check=True, capture_output=True,
                       timeout=SECONDS)
        status_of(run_command(*words), 2, "the last verification failed, damaged a")
        assert verify(path, program) == 0, "repaired"
        status_of(run_command(*words), 0, "OK: ")
        with subprocess.Popen([program, "serve", path, "0", "1"], stdout=subprocess.PIPE) as serving_process:
            assert serving_process.stdout
            serving_process.stdout.readline()
            assert verify(path, program) == 1, "beside a server"
            serving_process.kill()
        status_of(run_command(*words), 2, "it did not end: rs_source: Device")


# Any bytes, a link, a pipe and a folder instead of a record, and a text of the line.
RECORDS: dict[str, tuple[Callable[[Path], object], str]] = {
    "no bytes": (Path.touch, "it was stopped"),
    "escapes": (lambda record: record.write_bytes(b"\x1b[2J|\n| a=1"), "it did not end: "),
    "no end": (lambda record: record.write_bytes(b"verified 3"), "it did not end"),
    "many lines": (lambda record: record.write_bytes(b"damaged a\n" * 90_000), "damaged a, a, a, a, a and "),
    "a title": (lambda record: record.write_bytes(b"damaged \x1b]0;x\x07\n"), "damaged ?]0;x?"),
    "a link": (lambda record: record.symlink_to("/etc/passwd"), "can't be looked at: Too many levels"),
    "a pipe": (os.mkfifo, "is no regular file"), "a folder": (Path.mkdir, "can't be looked at"),
}


@pytest.mark.parametrize("make, phrase", RECORDS.values(), ids=RECORDS)
def test_a_damaged_verification_record_is_one_printable_line(
        make: Callable[[Path], object], phrase: str, program: str, room: Path) -> None:
    """Health is a warning or critical."""
    path = source_in(room, program)
    make(Path(path + ".verified"))
    with serving(documents_of(State(BASE, 2))) as server:
        run = run_command("health", server.url, "--file", path)
    assert phrase in run.stdout and run.returncode in (1, 2), run
    assert run.stdout.count("\n") == 1 and run.stdout.count("|") == 1 and "\x1b" not in run.stdout, run


@pytest.mark.parametrize("file", ["/none", "none\x1b[2J", "a.disk/x"])
def test_a_missing_file_of_a_source_is_a_warning(file: str, program: str, room: Path) -> None:
    """The line has the reason why the file cannot be read."""
    source_in(room, program)
    with serving(documents_of(State(BASE, 2))) as server:
        status_of(run_command("health", server.url, "--file", file), 1, "can't be looked at: ")


def test_a_file_system_without_room_for_a_sparse_file_is_a_warning(program: str, room: Path) -> None:
    """The file system has less free space than the file has unreserved bytes."""
    copy, lacking = sparse_copy(room, source_in(room, program))
    for free, is_trouble in ((lacking - 4_096 - lacking % 4_096, True), (lacking + 8_192, False)):
        finding = health_source.SourceHealth(health_source.Subject("http://127.0.0.1:1", copy))
        system = mock.Mock(f_blocks=1 << 40, f_bfree=1 << 40, f_bavail=free // 4_096, f_frsize=4_096)
        with mock.patch.object(os, "statvfs", lambda _: system):
            finding.look()
        words = [trouble.words for trouble in health_command.troubles_of_file(finding)]
        assert bool(words) == is_trouble, f"{free} bytes are free: {words}"


def description_of(addresses: list[str]) -> str:
    """Return a Source Description of the sources at these addresses."""
    described = "".join(f'<url><loc>{address}/capabilitylist.xml</loc><rs:md '
                        f'capability="capabilitylist"/></url>' for address in addresses)
    return ('<urlset xmlns="http://www.sitemaps.org/schemas/sitemap/0.9" '
            'xmlns:rs="http://www.openarchives.org/rs/terms/">'
            f'<rs:md capability="description"/>{described}</urlset>')


def test_several_sources_have_a_line_each(program: str, room: Path) -> None:
    """The file of a collection or a Source Description names the sources; the worst status counts."""
    files = [source_in(room, program, f"{name}.disk") for name in ("s1", "s2")]
    with contextlib.ExitStack() as stack:
        states = [State(f"https://whole.example.org/s{number}", 2) for number in (1, 2)]
        servers = [stack.enter_context(serving(documents_of(state))) for state in states]
        settings = room / "collection.toml"

        def write(*addresses: str) -> None:
            text = 'address = "https://whole.example.org"\n'
            for number, address in enumerate(addresses, 1):
                base, file = f"https://whole.example.org/s{number}", files[number - 1]
                text += f'[source.s{number}]\naddress = "{address}"\nbase = "{base}"\nfile = "{file}"\n'
            settings.write_text(text)

        write(*(server.url for server in servers))
        output = status_of(run_command("health", str(settings)), 0)
        assert [line.split(": ")[:2] for line in output.splitlines()] == [["OK", server.url] for server in servers]
        assert output.count("last verification never") == 2, output
        damage(files[1])
        verify(files[1], program)
        metrics = room / "metrics.prom"
        output = status_of(run_command("health", str(settings), "--prometheus", str(metrics)), 2, "damaged a")
        assert [line.split(": ")[0] for line in output.splitlines()] == ["OK", "CRITICAL"], output
        text = metrics.read_text()
        assert text.count("# TYPE ropepeach_up gauge\n") == 1 and text.count("\nropepeach_up{") == 2, text
        gone = f"http://127.0.0.1:{free_port()}"
        write(servers[0].url, gone)
        output = status_of(run_command("health", str(settings)), 2)
        assert [line.split(": ")[:2] for line in output.splitlines()] == [["OK", servers[0].url], ["CRITICAL", gone]]
        status_of(run_command("health", str(room / "none.toml")), 3)
        whole = description_of([server.url for server in servers])
        description = stack.enter_context(serving(always(200, whole.encode(), "application/xml")))
        output = run_command("health", description.url).stdout
        assert [line.split(": ")[1] for line in output.splitlines()] == [server.url for server in servers], output


def test_a_full_disk_is_named(room: Path) -> None:
    """The message names the file that cannot be written, and the exit status is 3."""
    (room / "mount").mkdir()
    script = "mount -t tmpfs -o size=4k none mount || exit 77; head -c 4096 /dev/zero >mount/full; exec \"$@\""
    with serving(documents_of(State(BASE, 2))) as server:
        words = ["unshare", "--mount", "sh", "-c", f"cd {shlex.quote(str(room))}; {script}", "sh"]
        run = run_command("health", server.url, "--prometheus", "mount/a.prom", behind=words)
    if run.returncode == 77 or "unshare" in run.stderr:
        pytest.skip("nobody may mount here")
    status_of(run, 3, "mount/a.prom: can't be written: No space left on device")


class Within(Processes):
    """The mount table of a process in a unit with these mounts."""

    def __init__(self, folder: Path, unit: str, mounts: str) -> None:
        super().__init__(folder)
        (folder / "self").mkdir(exist_ok=True)
        (folder / "self/mountinfo").write_text(mounts)
        (folder / str(os.getpid())).mkdir(exist_ok=True)
        (folder / str(os.getpid()) / "cgroup").write_text(f"0::/system.slice/{unit}\n" if unit else "0::/\n")


def test_a_unit_without_write_access_is_named(room: Path) -> None:
    """A mount that is read-only only for the unit names the unit; otherwise the file system is the cause."""
    line = "36 35 98:0 / {} {},relatime shared:1 - ext4 /dev/sda1 {}\n"
    ours, ropepeach = str(room), "ropepeach@else.service"
    rows = [(ropepeach, line.format("/", "rw", "rw") + line.format(ours, "ro", "rw,errors=remount-ro"), True),
            (ropepeach, line.format("/", "ro", "rw"), True),
            (ropepeach, line.format(ours, "ro", "ro"), False),
            (ropepeach, line.format("/", "ro", "rw") + line.format(ours, "rw", "ro"), False),
            ("", line.format("/", "ro", "rw"), False),
            (ropepeach, line.format("/", "rw", "ro") + line.format(ours + "else", "ro", "rw"), False),
            (ropepeach, "", False)]
    for unit, mounts, is_of_unit in rows:
        output = str(why.read_only(str(room / "a.disk"), Within(room, unit, mounts)))
        words = (f"the unit {unit} may not write {os.path.realpath(room)} (ProtectSystem=): "
                 f"systemctl edit {unit}, and write the lines [Service] and "
                 f"ReadWritePaths={os.path.realpath(room)} there")
        assert ((output == words) if is_of_unit
                else ("mount -o remount,rw" in output and "ReadWritePaths" not in output)), f"{unit} {mounts}: {output}"
