"""Fill sources of the program from folders by `ropepeach fill`.

The tests encode names byte by byte, independently of the command; once the server was killed, scripts of the program
show the source's resources.
"""
from __future__ import annotations

import fcntl
import hashlib
import http.client
import os
import pty
import random
import re
import shutil
import signal
import struct
import subprocess
import termios
import time
from collections.abc import Iterable
from pathlib import Path

import pytest

from operations.tests.tools import COMMAND
from tests.program import interposed
from tests.served_source import free_port, serving
from tests.system.edge_runs import SYSTEM
from tests.threads import beside

pytestmark = pytest.mark.plain

FILL = [*COMMAND, "fill", "folder"]
BASE = "https://source.example/collection"
SECONDS = 60
# Bodies and types by path.
Wanted = dict[bytes, tuple[bytes, str]]
PLAIN = b"ABCDEFGHIJKLMNOPQRSTUVWXYZabcdefghijklmnopqrstuvwxyz0123456789-._~!$&'()*+,;=:@/"
# Endings of file names, and their media types.
ENDS = {b".txt": "text/plain", b".html": "text/html", b".pdf": "application/pdf", b".PNG": "image/png",
        b"": "application/octet-stream",
        b".tar.gz": "application/octet-stream", b".no-such-type": "application/octet-stream"}
ODD = [b"a b", b"%41", b"a%2Fb", b"q?x=1#y", b"a&b<c>\"d'", "\u00fc\u4e2d".encode(), b"\xff\xfe", b"line\nfeed", b"\\",
       b"...", b"..a", b".hidden",
       b"~!$&'()*+,;=:@-._", b"[1]{2}|^`", b"deep/er/and/deeper/still", b"n" * 240, b" ", b"data:a b,x"]


def format_source(program: str, room: Path, size: int = 4 << 20, limit: int = 1000) -> None:
    """Make an empty source in a folder."""
    subprocess.run([program, "format", "a.disk", str(size), BASE, str(limit)], cwd=room, check=True,
                   capture_output=True)


def publish(room: Path, url: str, *words: str) -> tuple[int, str, str]:
    """Run `ropepeach fill`; return its exit status, its output and its messages."""
    process = subprocess.run([*FILL, url, "--patience", "0", *words], cwd=room, capture_output=True, text=True,
                             timeout=SECONDS)
    return process.returncode, process.stdout, process.stderr


def write(room: Path, path: bytes, body: bytes) -> None:
    """Write a file of the folder, at a path of bytes."""
    file = os.path.join(os.fsencode(room), b"folder", path)
    os.makedirs(os.path.dirname(file), exist_ok=True)
    Path(os.fsdecode(file)).write_bytes(body)


def name_of(path: bytes) -> str:
    """Return the name of a resource of a path of bytes."""
    return "".join(chr(byte) if byte in PLAIN else f"%{byte:02X}" for byte in path)


def answers(program: str, room: Path, lines: Iterable[str], disk: str = "a.disk") -> bytes:
    """Return the output of the program for the lines of a script."""
    process = subprocess.run([program, "run", disk], cwd=room, input="".join(f"{line}\n" for line in lines).encode(),
                             capture_output=True, timeout=SECONDS)
    assert process.returncode == 0
    return process.stdout


def check_held(program: str, room: Path, wanted: Wanted, publication: int) -> None:
    """Check that a.disk has exactly these bodies and types by path, and has published them."""
    output = answers(program, room,
                     ["status", *(f"show /resource/{name_of(name)}" for name in wanted), "show /resourcelist.xml"])
    status, _, shown = output.partition(b"\n")
    assert b" ".join(status.split()[1:6:4]) == b"%d %d" % (len(wanted), publication)
    bodies = b"".join(b"bytes %d\n%b\n" % (len(body), body) for body, _ in wanted.values())
    assert shown[:len(bodies)] == bodies
    text = shown[len(bodies):].decode()
    listed = re.findall(r'<loc>([^<]*)</loc>.*? sha-256:(\w+)" length="(\d+)" type="([^"]*)"', text)
    escaped = {path: name_of(path).replace("&", "&amp;").replace("'", "&apos;") for path in wanted}
    facts = [(f"{BASE}/resource/{escaped[name]}", hashlib.sha256(body).hexdigest(), str(len(body)), kind)
             for name, (body, kind) in wanted.items()]
    assert sorted(listed) == sorted(facts)


def random_folder(draw: random.Random, room: Path, count: int) -> Wanted:
    """Write files with random names and bytes; return the wanted bodies and types."""
    wanted: Wanted = {}
    for number in range(count):
        end = draw.choice(list(ENDS))
        path = b"/".join([b"d%d" % draw.randrange(3) for _ in range(draw.randrange(3))] + [b"f%d" % number + end])
        wanted[path] = draw.randbytes(draw.choice([0, 1, 511, 512, 5_000, 20_000])), ENDS[end]
        write(room, path, wanted[path][0])
    return wanted


def test_a_changed_folder_is_published_and_a_second_run_changes_nothing(program: str, room: Path) -> None:
    """A second run leaves the file of the source unchanged, byte by byte."""
    draw = random.Random(20261125)
    format_source(program, room)
    wanted, publication = random_folder(draw, room, 40), 0
    for put, deleted in [(40, 0), (12, 9)]:
        with serving(program, room) as (url, _):
            publication += 1
            status, output, _ = publish(room, url)
            assert (status, output.split(" (")[0], output.split(", ")[1]) == (0, f"{put} put", f"{deleted} deleted")
            before = Path(room, "a.disk").read_bytes()
            nothing = f"0 put (0 bytes), 0 deleted, {len(wanted)} the same, 0 left out; published before\n"
            assert publish(room, url) == (0, nothing, "")
            assert Path(room, "a.disk").read_bytes() == before
        check_held(program, room, wanted, publication)
        paths = draw.sample(sorted(name for name in wanted if wanted[name][0]), 14)
        for path in paths[:9]:
            os.remove(os.path.join(os.fsencode(room), b"folder", path))
            del wanted[path]
        for path in paths[9:]:
            # (of the same length)
            wanted[path] = bytes([wanted[path][0][0] ^ 1]) + wanted[path][0][1:], wanted[path][1]
            write(room, path, wanted[path][0])
        for number in range(7):
            wanted[b"new/%d.txt" % number] = b"new", "text/plain"
            write(room, b"new/%d.txt" % number, b"new")


def test_odd_names_are_encoded_or_reported(program: str, room: Path) -> None:
    """fill reports and leaves out a file that cannot be a resource, and keeps the resource of its name."""
    format_source(program, room)
    wanted = {path: (b"%d" % number, "application/octet-stream") for number, path in enumerate(ODD)}
    files_kept = {b"held/a.txt": (b"kept", "text/plain"), b"vast": (b"kept", "application/octet-stream"),
                  b"pipe": (b"kept", "application/octet-stream")}
    for path, (body, _) in (wanted | files_kept).items():
        write(room, path, body)
    for path in (b"n" * 241, b"\xff" * 81):
        write(room, path, b"")
    with serving(program, room) as (url, _):
        assert publish(room, url)[0] == 3
        folder = Path(room, "folder")
        (folder / "held").rename(Path(room, "elsewhere"))
        (folder / "held").symlink_to("../elsewhere")
        os.truncate(folder / "vast", 16_777_217)
        (folder / "pipe").unlink()
        os.mkfifo(folder / "pipe")
        status, output, complaints = publish(room, url)
    same_again = f"0 put (0 bytes), 0 deleted, {len(ODD)} the same, 5 left out; published before\n"
    assert (status, output) == (3, same_again)
    left_out = [line.split(": ")[0].removeprefix("left out ") for line in complaints.splitlines()]
    assert sorted(left_out) == sorted(["n" * 241, r"\xff" * 81, "held", "vast", "pipe"])
    check_held(program, room, wanted | files_kept, 1)


def test_a_dry_run_changes_nothing(program: str, room: Path) -> None:
    """A dry run prints the changes of a run; --no-publish makes no publication."""
    format_source(program, room)
    write(room, b"a b.txt", b"1")
    with serving(program, room) as (url, _):
        output = "1 put (1 bytes), 0 deleted, 0 the same, 0 left out; not published\n"
        assert publish(room, url, "--no-publish") == (0, output, "")
        before = Path(room, "a.disk").read_bytes()
        Path(room, "folder/a b.txt").rename(Path(room, "folder/c.txt"))
        output = ("delete a%20b.txt\nput c.txt\n0 put (0 bytes), 0 deleted, 0 the same, 0 left out; "
                  "1 to put, 1 to delete\n")
        assert publish(room, url, "--dry-run", "--yes") == (0, output, "")
        assert Path(room, "a.disk").read_bytes() == before


def test_a_run_resumes_after_the_server_ended(program: str, room: Path) -> None:
    """A run whose server ends fails with a clear message; the next runs put all remaining files."""
    format_source(program, room, limit=4)
    # (each is longer than the limit of a group)
    wanted = {b"%02d.txt" % number: (b"%02d" % number * 40_000, "text/plain") for number in range(20)}
    for path, (body, _) in wanted.items():
        write(room, path, body)
    # Every run reads more parts of the Change List than the run before.
    for count, put in [(11, 7), (14, 8)]:
        with serving(program, room, count) as (url, _):
            status, output, complaint = publish(room, url)
        assert (status, output.split(" (")[0], output.split("; ")[1]) == (1, f"{put} put", "ended early\n")
        assert complaint[:len(url) + 30] == f"ropepeach fill: PUT {url}/resource/"
    with serving(program, room) as (url, _):
        status, output, _ = publish(room, url)
        assert (status, output.split(" (")[0]) == (0, "5 put")
        # (both lists have many parts now)
        for word, put, same in [("published before\n", 0, 20), ("published 2", 1, 20), ("published before\n", 0, 21)]:
            if put:
                write(room, b"more.txt", b"more")
            status, output, _ = publish(room, url)
            counts = output[output.index("), ") + 3:output.index(";")]
            assert (status, output.split(" (")[0]) == (0, f"{put} put")
            assert counts == f"0 deleted, {same} the same, 0 left out"
            assert output.split("; ")[1].startswith(word)
    # (the second publication has dropped the changes that the first one lists)
    assert answers(program, room, ["status"])[:37] == b"resources 21 changes 1 publication 2 "


def test_a_refusal_ends_a_run_and_is_named(program: str, room: Path) -> None:
    """A full disk is 507 Full, until its file grows; a failing device is 500 Device, then 503 Closed."""
    format_source(program, room, size=16_384)
    write(room, b"a", b"1")
    write(room, b"b", bytes(16_000))
    with serving(program, room) as (url, _):
        status, output, complaint = publish(room, url)
    early = "1 put (1 bytes), 0 deleted, 0 the same, 0 left out; ended early\n"
    refusal = "ropepeach fill: PUT {}/resource/b was refused: {}\n"
    full = refusal.format(url, "507 Full: delete resources, or move to a larger disk")
    assert (status, output, complaint) == (1, early, full)
    os.truncate(Path(room, "a.disk"), 65_536)
    with serving(program, room) as (url, _):
        status, output, _ = publish(room, url)
        assert (status, output.split(",")[0]) == (0, "1 put (15.6 KiB)")
    write(room, b"b", b"2")
    system = interposed(room, "system", SYSTEM)
    first = next(number for number in range(1, 1000) if not failing(program, room, system, number))
    silent = "ropepeach fill: GET {}/.well-known/resourcesync: no answer for 0 seconds: {}\n"
    with serving(program, room, env=system | {"FILE_FAILS_AT": str(first)}) as (url, _):
        device = refusal.format(url, "500 Device: run `ropepeach why`, and look at the kernel's log and `df`")
        assert publish(room, url)[::2] == (1, device)
        assert publish(room, url)[::2] == (1, silent.format(url, "503 Closed"))
    assert publish(room, url)[::2] == (1, silent.format(url, "Connection refused"))


def failing(program: str, room: Path, system: dict[str, str], number: int) -> bool:
    """Return whether opening a.disk fails if the N-th call on a file fails."""
    env = system | {"FILE_FAILS_AT": str(number)}
    return subprocess.run(
        [program, "run", "a.disk"], cwd=room, input=b"", capture_output=True, env=env, timeout=SECONDS).returncode != 0


def test_a_missing_or_empty_folder_deletes_nothing_unless_allowed(program: str, room: Path) -> None:
    format_source(program, room)
    write(room, b"a", b"1")
    with serving(program, room) as (url, _):
        assert publish(room, url)[0] == 0
        shutil.rmtree(Path(room, "folder"))
        status, output, complaint = publish(room, url)
        assert (status, output, complaint[:41]) == (3, "", "ropepeach fill: a folder cannot be listed")
        Path(room, "folder/empty").mkdir(parents=True)
        refusal = ("ropepeach fill: 1 of 1 resources would be deleted, more than half: "
                   "is FOLDER the right one? (--yes deletes them)\n")
        assert publish(room, url) == (1, "", refusal)
        status, output, _ = publish(room, url, "--allow-empty")
        assert (status, output.split("; ")[0]) == (0, "0 put (0 bytes), 1 deleted, 0 the same, 0 left out")


def test_the_progress_bar_is_shown_on_a_terminal_only(program: str, room: Path) -> None:
    """The progress bar has a percentage, a rate and the remaining time."""
    format_source(program, room)
    for number in range(5):
        write(room, b"%d" % number, bytes(2_000))
    with serving(program, room) as (url, _):
        ours, its = pty.openpty()
        fcntl.ioctl(its, termios.TIOCSWINSZ, struct.pack("HHHH", 24, 100, 0, 0))
        process = subprocess.run([*FILL, url], cwd=room, stdout=subprocess.PIPE, stderr=its, timeout=SECONDS)
        shown = os.read(ours, 65536)
        assert process.returncode == 0
        assert not publish(room, url)[2]
    for words in (rb"comparing +0% \|", rb"changing 100% \|.*\| \d\d:\d\d left, 5 of 5, [\d.]+[kM]?B/s"):
        assert re.search(words, shown), f"{words!r} was not shown"


def put_one_by_one(url: str, names: Iterable[int], counts: dict[str, int]) -> None:
    """Put resources; count the puts that have begun and those that were answered."""
    host = url.removeprefix("http://")
    for name in names:
        counts["begun"] += 1
        connection = http.client.HTTPConnection(host, timeout=SECONDS)
        connection.request("PUT", f"/resource/{name}", bytes(3_000))
        counts["answered"] += connection.getresponse().status == 201
        connection.close()


def stop(server: subprocess.Popen[bytes]) -> None:
    """Stop a process by SIGSTOP, and wait until it is stopped."""
    os.kill(server.pid, signal.SIGSTOP)
    while not re.search(r"\) [Tt]", Path(f"/proc/{server.pid}/stat").read_text()):
        time.sleep(0.001)


def test_a_copy_made_while_the_program_is_stopped_opens(program: str, room: Path) -> None:
    """The copy has every put that was answered before it, and at most one later put."""
    format_source(program, room)
    counts, bounds = {"begun": 0, "answered": 0}, list[tuple[int, int]]()
    with serving(program, room) as (url, server):
        with beside(lambda: put_one_by_one(url, range(100), counts)) as (putting,):
            while not putting.done() and len(bounds) < 10:
                time.sleep(0.02)
                answered = counts["answered"]
                stop(server)
                shutil.copyfile(Path(room, "a.disk"), Path(room, f"copy{len(bounds)}.disk"))
                bounds.append((answered, counts["begun"]))
                os.kill(server.pid, signal.SIGCONT)
    assert counts["answered"] == 100
    found = [int(answers(program, room, ["status"], f"copy{number}.disk").split()[1]) for number in range(len(bounds))]
    assert all(least <= count <= greatest for count, (least, greatest) in zip(found, bounds)), (found, bounds)
    assert any(0 < count < 100 for count in found)


def test_a_new_source_is_filled_from_a_mirror(program: str, room: Path) -> None:
    """fill removes the mirror's notes first. A name with % or # is another name, and types are guessed."""
    port, mirror = free_port(), Path(room, "folder")
    subprocess.run([program, "format", "old.disk", "262144", f"http://127.0.0.1:{port}", "1000"], cwd=room, check=True,
                   capture_output=True)
    put = {"a": b"1", "a/b.txt": b"2", "c%20d": b"3", "e.html": b"4"}
    answers(program, room, [f"put {name} {body.hex()} application/x-kept" for name, body in put.items()], "old.disk")
    with subprocess.Popen([program, "serve", "old.disk", str(port), "1000"], cwd=room, stdout=subprocess.PIPE) as old:
        try:
            assert old.stdout
            old.stdout.readline()
            words = [*COMMAND, "mirror", f"http://127.0.0.1:{port}", str(mirror)]
            subprocess.run(words, env=os.environ | {"no_proxy": "127.0.0.1"}, check=True, capture_output=True,
                           timeout=SECONDS)
        finally:
            old.kill()
    for own in mirror.glob("#*"):
        own.unlink()
    format_source(program, room)
    with serving(program, room) as (url, _):
        assert publish(room, url)[0] == 0
    became = {b"a#": b"1", b"a/b.txt": b"2", b"c%20d": b"3", b"e.html": b"4"}
    kinds = {b"a/b.txt": "text/plain", b"e.html": "text/html"}
    wanted = {path: (body, kinds.get(path, "application/octet-stream")) for path, body in became.items()}
    check_held(program, room, wanted, 1)
