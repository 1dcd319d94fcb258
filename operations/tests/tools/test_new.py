"""Test `ropepeach new`, `remove`, `backup` and `restore` on a simulated machine (one_machine.py), and kill them."""
from __future__ import annotations

import contextlib
import os
import shutil
import signal
import socket
import subprocess
from collections.abc import Iterator
from pathlib import Path

import pytest

from operations.tests.tools import COMMAND, one_machine
from operations.tests.tools.one_machine import Machine, is_closed, machine, request, until
from operations.tests.tools.command_runs import status_of

# (machines share this machine's ports, so only one is made at a time)
pytestmark = [pytest.mark.root, pytest.mark.needs("nginx", "openssl", "unshare"), pytest.mark.xdist_group("new")]
BASE, PLAIN = "https://source.example.org", "http://try.example.org:8091"
FILE = "/var/lib/ropepeach/one.disk"
TRY = ("new", "one", "--base", PLAIN, "--http", "--size", "1MiB")
SIZE = 1 << 20
# The number of programs that make the file of a source.
FILE_STEPS = 6
BODY = b"a body of a deposit"


def disk(made: Machine) -> os.stat_result:
    """Return the facts of the source's file."""
    return (made.room / "lib/ropepeach/one.disk").stat()


def is_made(made: Machine) -> None:
    """Check that a source has its file, settings, units and site, and answers."""
    found = disk(made)
    assert (found.st_size, found.st_uid) == (SIZE, one_machine.NUMBER), f"the file: {found}"
    assert found.st_blocks * 512 >= SIZE, f"{found.st_blocks * 512} bytes are reserved"
    assert sorted(os.listdir(made.room / "lib/ropepeach")) == ["one.disk"], "something is left in the folder"
    assert made.look(FILE)["base"] == PLAIN, "another base"
    site = made.room / "etc/nginx/sites-enabled/ropepeach-one"
    assert os.readlink(site) == "/etc/nginx/sites-available/ropepeach-one", "the site is not enabled"
    assert made.run("nginx", "-t").returncode == 0, "nginx takes it not"
    status, text = request(made, "GET", "/.well-known/resourcesync")
    assert status == 200 and PLAIN.encode() in text, f"status {status}"


def test_new_makes_a_source(program: str, room: Path) -> None:
    """The source has a file, settings, units and a site; a second run leaves them unchanged."""
    with machine(room / "m", program) as made:
        status_of(made.command(*TRY), 0, "is served", "ropepeach fill FOLDER http://127.0.0.1:")
        is_made(made)
        units = "ropepeach@one.service ropepeach-health@one.timer ropepeach-verify@one.timer"
        assert f"enable --now {units}" in made.calls(), made.calls()
        before = made.tree()
        status_of(made.command(*TRY), 0, "is served")
        assert made.tree() == before, "the second run changed something"


def test_a_source_with_the_name_of_a_removed_one_has_an_empty_cache(program: str, room: Path) -> None:
    """nginx would serve the parts of the Resource List of the removed source. A source that stays keeps its cache."""
    with machine(room / "m", program) as made:
        part = made.room / "cache/ropepeach-one/0/ab/part"
        for is_new in (True, False, True):
            part.parent.mkdir(parents=True, exist_ok=True)
            part.write_bytes(b"an old part")
            status_of(made.command(*TRY), 0, "is served")
            assert part.exists() is not is_new
            if not is_new:
                status_of(made.command("remove", "one"), 0)
                (made.room / "lib/ropepeach/one.disk").unlink()


def test_new_closes_the_port_to_other_users(program: str, room: Path) -> None:
    """Where nftables is, a new source has the guard and no near address; an older source keeps its users."""
    with machine(room / "m", program) as made:
        drop_in = made.room / "etc/systemd/system/ropepeach@one.service.d/guard.conf"
        site = made.room / "etc/nginx/sites-available/ropepeach-one"
        make_nft(made, 0)
        status_of(made.command(*TRY, "--dry-run"), 0, "daemon-reload", str(drop_in).removeprefix(str(made.room)))
        status_of(made.command(*TRY), 0, "is served")
        assert (drop_in.read_text(), near_of(site)) == ("[Service]\n", [])
        calls = made.calls()
        assert calls.index("daemon-reload") < next(n for n, call in enumerate(calls) if call.startswith("enable"))
        status_of(made.command(*TRY, "--no-guard"), 0, "is served")
        assert not drop_in.exists()
        status_of(made.command(*TRY), 0, "is served")
        assert not drop_in.exists(), "an older source is closed"


def make_nft(made: Machine, status: int) -> None:
    """Make an nft that ends with a status, and the drop-in of the guard."""
    (made.room / "etc/ropepeach/guard.conf").write_text("[Service]\n")
    (made.room / "bin/nft").write_text(f"#!/bin/sh\nexit {status}\n")
    (made.room / "bin/nft").chmod(0o755)


def near_of(site: Path) -> list[str]:
    """Return the near addresses of a site."""
    return [line.split()[0] for line in site.read_text().partition("}")[0].splitlines() if line.endswith(" 1;")]


def test_new_without_nftables_says_that_other_users_can_change_the_source(program: str, room: Path) -> None:
    """The source is made; --no-guard leaves the line out."""
    with machine(room / "m", program) as made:
        make_nft(made, 1)
        assert "other users" not in status_of(made.command(*TRY, "--dry-run", "--no-guard"), 0)
        status_of(made.command(*TRY), 0, "is served", "other users of this machine can change the source")
        assert near_of(made.room / "etc/nginx/sites-available/ropepeach-one") == ["127.0.0.0/8", "::1"]


def test_new_for_a_folder_makes_the_size_that_size_prints(program: str, room: Path) -> None:
    """The option is `--for FOLDER`."""
    folder = room / "folder"
    folder.mkdir()
    for number in range(20):
        (folder / f"{number}.txt").write_bytes(b"x" * 40_000)
    with machine(room / "m", program) as made:
        size = int(made.command("size", str(folder), "--base", PLAIN).stdout)
        status_of(made.command(*TRY[:5], "--for", str(folder)), 0, "is served")
        assert disk(made).st_size == size, f"{disk(made).st_size} and not {size}"


@pytest.mark.timeout(900)
def test_new_completes_after_a_kill_at_any_step(program: str, room: Path) -> None:
    """A kill comes before a program of the steps starts, or after it ended."""
    with machine(room / "whole", program) as made:
        made.command(*TRY)
        count = made.count()
    assert count >= 9, f"{count} programs"
    for number in range(1, count + 1):
        # (files are written only between the later programs)
        for when in ["KILL_BEHIND"] + ["KILL_BEFORE"] * (number > FILE_STEPS):
            with machine(room / f"{number}{when}", program) as made:
                ended = made.command(*TRY, **{when: str(number)})
                assert ended.returncode in (-signal.SIGKILL, 128 + signal.SIGKILL), number
                if (made.room / "lib/ropepeach/one.disk").exists():
                    assert disk(made).st_blocks * 512 >= SIZE, f"{number}: half a file"
                    assert made.look(FILE)["base"] == PLAIN, f"{number}: half a file"
                status_of(made.command(*TRY), 0, "is served")
                is_made(made)
            shutil.rmtree(room / f"{number}{when}")


def certify(folder: Path) -> None:
    """Make two certificates of the host, and their keys."""
    folder.mkdir()
    for name in ("a", "b"):
        subprocess.run(["openssl", "req", "-x509", "-newkey", "ec", "-pkeyopt", "ec_paramgen_curve:prime256v1",
                        "-nodes", "-days", "2", "-subj", "/CN=source.example.org", "-keyout", folder / f"{name}.key",
                        "-out", folder / f"{name}.pem"],
                       check=True, capture_output=True)


def refused(made: Machine, status: int, phrase: str, *words: str, **more: str) -> None:
    """Check that a run is refused in a few lines, and changes no file."""
    before = made.tree()
    output = status_of(made.command(*words, **more), status, phrase)
    assert "Traceback" not in output and len(output.splitlines()) <= 12, output
    assert made.tree() == before, f"{phrase}: something was changed"


def test_wrong_arguments_are_refused_before_any_change(program: str, room: Path) -> None:
    """A wrong base, a port in use, a missing nginx, too little room or a missing certificate is refused."""
    with machine(room / "m", program) as made, socket.socket() as listening:
        listening.bind(("127.0.0.1", 0))
        listening.listen()
        taken = str(listening.getsockname()[1])
        certify(made.room / "etc/ssl/here")
        new = ("new", "one", "--base")
        refused(made, 2, "without a slash", *new, f"{BASE}/")
        refused(made, 2, "without TLS", *new, PLAIN)
        refused(made, 2, "--http: the base is https://", *new, BASE, "--http")
        refused(made, 2, "an address is http:// or https://", *new, "https://source.example.org/a b")
        refused(made, 2, "a name is 1 to 32", "new", "../one", "--base", PLAIN, "--http")
        refused(made, 3, "in use", *TRY, "--port", taken)
        refused(made, 2, "a port is", *TRY, "--port", "65536")
        refused(made, 3, "there is no certificate for source.example.org", *new, BASE)
        refused(made, 3, "no certificate with its key", *new, BASE, "--certificate", "/etc/ssl/here/a.pem",
                "--key", "/etc/ssl/here/b.key")
        refused(made, 2, "come together", *new, BASE, "--certificate", "/etc/ssl/here/a.pem")
        refused(made, 2, "a source uses", *TRY[:5], "--size", "5GiB")
        refused(made, 2, "a source uses", *TRY[:5], "--size", "0")
        refused(made, 2, "is no address", *TRY, "--near", "::1%x; } location = /pwn {")
        refused(made, 3, "bytes free", *TRY[:5], "--size", "4GiB") if room_of(made) < 4 << 30 else None
        refused(made, 2, "is no address", *TRY, "--near", "here")
        (made.room / "bin/only").mkdir()
        for name in ("python3", "rs_source", "runuser", "fallocate", "systemctl"):
            (made.room / "bin/only" / name).symlink_to(shutil.which(name) or f"/usr/local/bin/{name}")
        refused(made, 3, "nginx is not installed", *TRY, PATH="/usr/local/bin/only")
        status_of(made.command(*new, BASE, "--certificate", "/etc/ssl/here/a.pem",
                               "--key", "/etc/ssl/here/a.key", "--size", "1MiB"), 0, "is served")
        refused(made, 3, f"has the base {BASE}", *TRY)
        refused(made, 3, "is that of the source one", "new", "two", "--base", "http://two.example.org", "--http",
                "--port", "8080")


def room_of(made: Machine) -> int:
    """Return the free bytes of the file system of sources."""
    free = os.statvfs(made.room)
    return free.f_bavail * free.f_frsize


def test_a_full_file_system_leaves_nothing_half_made(program: str, room: Path) -> None:
    """The program that reserves the room fails; the next run makes the source."""
    with machine(room / "m", program) as made:
        fallocate = made.room / "bin/fallocate"
        fallocate.write_text("#!/bin/sh\necho 'fallocate: fallocate failed: No space left on device' >&2\nexit 1\n")
        fallocate.chmod(0o755)
        status_of(made.command(*TRY), 1, "its room, reserved", "No space left on device")
        assert (not (made.room / "lib/ropepeach/one.disk").exists()
                and not (made.room / "etc/ropepeach/one.env").exists()), "half a source"
        fallocate.unlink()
        status_of(made.command(*TRY), 0, "is served")
        is_made(made)


def test_a_site_that_nginx_refuses_is_removed(program: str, room: Path) -> None:
    """Another site is wrong; the source is served on its port."""
    with machine(room / "m", program) as made:
        (made.room / "etc/nginx/sites-enabled/other").write_text("server { listen nowhere at all; }\n")
        status_of(made.command(*TRY), 1, "nginx tests the site")
        assert os.listdir(made.room / "etc/nginx/sites-available") in ([], ["default"]), "the site is left"
        assert os.listdir(made.room / "etc/nginx/sites-enabled") == ["other"], "the link is left"
        assert "reload-or-restart nginx" not in made.calls(), "nginx was told to take it"
        (made.room / "etc/nginx/sites-enabled/other").unlink()
        status_of(made.command(*TRY), 0, "is served")
        is_made(made)


def test_the_script_of_a_dry_run_makes_the_same_source(program: str, room: Path) -> None:
    """`--dry-run` prints the script, and leaves the machine unchanged."""
    with machine(room / "a", program) as made, machine(room / "b", program) as other:
        make_nft(made, 0)
        make_nft(other, 0)
        before = made.tree()
        script = status_of(made.command(*TRY, "--dry-run"), 0)
        assert made.tree() == before and not made.calls(), "something was changed"
        ended = made.run("sh", "-c", script)
        assert ended.returncode == 0, ended.stderr
        is_made(made)
        first = {name: body for name, body in made.tree().items() if not name.endswith(".disk")}
        os.kill(made.pid("one"), signal.SIGKILL)
        until(lambda: is_closed(made))
        other.command(*TRY)
        second = {name: body for name, body in other.tree().items() if not name.endswith(".disk")}
        assert first == second, f"{set(first.items()) ^ set(second.items())}"


def test_remove_keeps_the_file(program: str, room: Path) -> None:
    """`remove` stops and disables the source; the file stays, and `new` serves it again."""
    with machine(room / "m", program) as made:
        made.command(*TRY)
        request(made, "PUT", "/resource/kept", BODY)
        status_of(made.command("remove", "one"), 0, "out of service", FILE)
        assert is_closed(made)
        assert not os.path.lexists(made.room / "etc/nginx/sites-enabled/ropepeach-one")
        status_of(made.command("remove", "one"), 0, "out of service")
        refused(made, 3, "there is no source two here", "remove", "two")
        status_of(made.command(*TRY), 0, "is served")
        assert request(made, "GET", "/resource/kept") == (200, BODY), "the resource is gone"


def test_a_backup_is_whole_or_has_no_name(program: str, room: Path) -> None:
    """A copy of a source during puts is complete; the source stays served, even if the command is killed meanwhile."""
    with machine(room / "m", program) as made:
        made.command(*TRY)
        request(made, "PUT", "/resource/kept", BODY)
        status_of(made.command("backup", "one", "/var/cache/b.disk"), 0, "resources 1", "verified 1")
        refused(made, 3, "is there already", "backup", "one", "/var/cache/b.disk")
        slow = made.room / "bin/cp"
        slow.write_text('#!/bin/sh\n[ "$1" = --reflink=always ] && exit 1\nkill -KILL $PPID\nsleep 1\n')
        slow.chmod(0o755)
        made.command("backup", "one", "/var/cache/c.disk")
        slow.unlink()
        until(lambda: request(made, "GET", "/resource/kept") == (200, BODY))
        assert not (made.room / "cache/c.disk").exists(), "half a copy has the name"
        status_of(made.command("backup", "one", "/var/cache/c.disk"), 0, "verified 1")
        damage(made)
        status_of(made.command("backup", "one", "/var/cache/d.disk"), 1, "1 damaged: kept")
        assert not (made.room / "cache/d.disk").exists(), "a damaged copy has the name"


def damage(made: Machine) -> None:
    """Change a byte of the only body in the file."""
    path = made.room / "lib/ropepeach/one.disk"
    data = path.read_bytes()
    at = data.index(BODY)
    with open(path, "r+b") as file:
        file.seek(at)
        file.write(b"A")


RESTORE = ("restore", "one", "/var/cache/b.disk")


@contextlib.contextmanager
def with_backup(room: Path, program: str) -> Iterator[Machine]:
    """Yield a machine with a source, its backup with one resource, and a later resource."""
    with machine(room, program) as made:
        made.command(*TRY)
        request(made, "PUT", "/resource/kept", BODY)
        made.command("backup", "one", "/var/cache/b.disk")
        request(made, "PUT", "/resource/later", BODY)
        yield made


def is_restored(made: Machine) -> None:
    """Check that the backup is served and reserved, and that the old file is kept."""
    assert [request(made, "GET", f"/resource/{name}")[0] for name in ("kept", "later")] == [200, 404], "not the backup"
    assert disk(made).st_blocks * 512 >= SIZE and disk(made).st_uid == one_machine.NUMBER, "the room is not reserved"
    old = [name for name in os.listdir(made.room / "lib/ropepeach") if ".before-" in name]
    assert old and all(made.look(f"/var/lib/ropepeach/{name}")["base"] == PLAIN for name in old), f"the old file: {old}"


def test_restore_serves_the_backup_and_keeps_the_old_file(program: str, room: Path) -> None:
    """A file that is not a backup of this source is refused."""
    with with_backup(room / "m", program) as made:
        status_of(made.command(*RESTORE), 0, "resources 1", "the old file is")
        is_restored(made)
        refused(made, 3, "no source that can be read", "restore", "one", "/etc/passwd")
        refused(made, 3, "no such file", "restore", "one", "/var/cache/none")
        made.run("rs_source", "format", "/var/cache/other.disk", "1048576", "http://other.example.org", "2")
        refused(made, 3, "it is a source at http://other.example.org", "restore", "one", "/var/cache/other.disk")
        damage(made)
        status_of(made.command(*RESTORE), 0, "resources 1")


@pytest.mark.timeout(900)
def test_restore_completes_after_a_kill_at_any_step(program: str, room: Path) -> None:
    """The source has a file at any moment."""
    with with_backup(room / "m", program) as made:
        made.command(*RESTORE)
        count = made.count()
    assert count
    for number in range(1, count + 1):
        with with_backup(room / str(number), program) as made:
            made.command(*RESTORE, KILL_BEHIND=str(number))
            assert made.look(FILE)["base"] == PLAIN, f"{number}: no file"
            status_of(made.command(*RESTORE), 0, "resources 1")
            is_restored(made)
        shutil.rmtree(room / str(number))


def test_users_other_than_root_are_refused(program: str, room: Path) -> None:
    """Another user is refused; `--dry-run` works."""
    with machine(room / "m", program) as made:
        for path in (made.room, *made.room.iterdir()):
            path.chmod(0o755)
        user = ["setpriv", "--reuid=65534", "--regid=65534", "--clear-groups"]
        for words in (TRY, ("remove", "one"), ("backup", "one", "copy.disk"), RESTORE):
            before = made.tree()
            status_of(made.run(*user, *COMMAND, *words), 2, "only root")
            assert made.tree() == before, "something was changed"
