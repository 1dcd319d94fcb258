"""Test the files of operations/install/: manual pages, systemd units, the site of nginx, and `make install`."""
import contextlib
import hashlib
import os
import pathlib
import re
import shlex
import subprocess
import time
from collections.abc import Callable

import pytest

from operations.package import places
from operations.tests.system.install_looks import HEAD, INSTALL, far, proxied, without_tls
from operations.tests.system.install_shared import SECONDS, certified, request, told_by
from operations.tests.tools import COMMAND
from tests.program import ROOT, TOOLS
from tests.reading import disk_reader
from tests.reading.disk_formats import BLOCK
from tests.system.edge_runs import connected, read_to_end

# The limit of the unit's exposure by `systemd-analyze security`, of 100.
EXPOSURE = 15
LONGEST_BODY = 16_777_216
LONG_HEAD = {"Cookie": "c" * 5_000, "Other": "o" * 5_000}
# A name that decodes to a path of a part of a Resource List.
LIKE_A_PART = "/resource/a%2F..%2F..%2Fresourcelist%2F1%2F0.xml"


def test_the_manual_page_names_every_command_refusal_and_exit_status(program: str) -> None:
    """The page has every command, line, refusal and exit status in the tables of docs/SCRIPT.md and docs/HTTP.md."""
    page = INSTALL.joinpath("rs_source.8").read_text()
    tables = "".join(line for name in ("SCRIPT", "HTTP")
                     for line in (ROOT / f"docs/{name}.md").read_text().splitlines(True)
                     if line.startswith("|"))
    words = set(re.findall(
        r"\b[A-Z][a-z]+(?:[A-Z][a-z]+)+\b|\b(?:Closed|Full|Device|Damaged|Exhausted|Exists|Read|Write)\b", tables))
    words |= set(re.findall(r"(?m)^\| `(?:rs_source )?([a-z]+)",
                            tables)) | set(re.findall(r"/[a-z]+(?:list)?\.xml|/publish|/resource\b", tables))
    missing = sorted(word for word in words if not re.search(rf"(?<![a-zA-Z]){re.escape(word)}(?![a-zA-Z])", page))
    assert not missing, "words that the page lacks"
    usage = subprocess.run([program], capture_output=True, text=True, timeout=SECONDS)
    synopsis = re.findall(r"(?m)^\.Cm (\w+)\n\.Ar (.*)", page[:page.index(".Sh DESCRIPTION")])
    assert " | ".join(f"{a} {b.upper()}" for a, b in synopsis) == usage.stderr.partition("rs_source ")[2].strip()


@pytest.mark.needs("mandoc")
def test_mandoc_finds_nothing_in_the_manual_pages() -> None:
    """mandoc finds no fault, whichever other pages this machine has."""
    for page in sorted(INSTALL.glob("*.[18]")):
        messages = told_by("mandoc", "-T", "lint", page)[0].splitlines()
        ours = [message for message in messages if "outdated mandoc.db" not in message
                and "referenced manual not found" not in message]
        assert not ours, page.name


@pytest.mark.needs("systemd-analyze")
def test_systemd_finds_the_units_correct_and_little_exposed(program: str, room: pathlib.Path) -> None:
    """systemd verifies the units and an instance of every template, their exposure, and the calendar of the timers."""
    # (the programs of the units must exist)
    here = {"bin/rs_source": program, "bin/ropepeach": TOOLS / "ropepeach-command", "lib/ropepeach": INSTALL}
    for name, text in places.units(INSTALL):
        for place, path in here.items():
            text = text.replace(f"/usr/local/{place}", str(path))
        pathlib.Path(room, name.replace("@.", "@name.")).write_text(text)
    names = sorted(os.listdir(room))
    output, status = told_by("systemd-analyze", "verify", "--man=no", *(f"./{name}" for name in names), cwd=room)
    assert (output, status) == ("", 0)
    for name in (unit for unit in names if unit.endswith(".service")):
        words = ["security", "--offline=true", f"--threshold={EXPOSURE}", f"./{name}"]
        output, status = told_by("systemd-analyze", *words, cwd=room)
        assert status == 0, f"{name}: an exposure of at most {EXPOSURE} of 100: {output.strip()[-80:]}"
    for name in (unit for unit in names if unit.endswith(".timer")):
        for when in re.findall(r"(?m)^OnCalendar=(.*)", pathlib.Path(room, name).read_text()):
            assert told_by("systemd-analyze", "calendar", when)[1] == 0, f"when {name} comes"


def calls_let_pass(unit: str) -> set[str]:
    """Return the system calls that a unit's filter allows."""
    def members(name: str) -> set[str]:
        lines = (line.strip() for line in told_by("systemd-analyze", "syscall-filter", name)[0].splitlines()[1:])
        return {call for call_name in lines if call_name and call_name[0] != "#"
                for call in (members(call_name) if call_name[0] == "@" else {call_name})}

    passed = members("@default")
    for sign, names in re.findall(r"(?m)^SystemCallFilter=(~?)(.*)", unit):
        found = {call for word in names.split() for call in members(word)}
        passed = passed - found if sign else passed | found
    return passed


@pytest.mark.needs("systemd-analyze", "strace")
def test_the_filter_of_the_unit_passes_each_call_of_a_server(program: str, room: pathlib.Path) -> None:
    subprocess.run([program, "format", "a.disk", "262144", "http://a.example", "2"], cwd=room, check=True,
                   capture_output=True)
    with subprocess.Popen(["strace", "-f", "-qq", "-o", "calls", program, "serve", "a.disk", "0", "5"], cwd=room,
                          stdout=subprocess.PIPE) as server:
        try:
            assert server.stdout
            port = int(server.stdout.readline().rpartition(b":")[2])
            for method, path, body in [("PUT", "/resource/a", bytes(100_000)), ("GET", "/resource/a", None),
                                       ("POST", "/publish", None),
                                       ("DELETE", "/resource/a", None), ("GET", "/none", None)]:
                request(port, method, path, body)
            server.wait(SECONDS)
        finally:
            server.kill()
    check_calls(room, {"accept4", "pwrite64", "fsync", "sendto"}, "ropepeach@.service")


def check_calls(room: pathlib.Path, some: set[str], unit: str) -> None:
    """Check that strace saw these calls, and no call that the unit's filter blocks."""
    made = set(re.findall(r"(?m)^\d+ +(\w+)\(", pathlib.Path(room, "calls").read_text()))
    assert some <= made
    assert not made - calls_let_pass(INSTALL.joinpath(unit).read_text())


def verification(program: str, *before: str) -> Callable[[pathlib.Path], tuple[str, bool]]:
    """Return a function that runs the verifying unit's command on a.disk of a folder, and returns its output and
    whether it succeeds.
    """
    lines = re.findall(r"(?m)^ExecStart=(.*)", INSTALL.joinpath("ropepeach-verify@.service").read_text())
    assert lines[0] == "/usr/local/lib/ropepeach/verify ${FILE}"
    script = INSTALL.joinpath("verify").read_text().replace("/usr/local/bin/rs_source", shlex.quote(program))

    def run(room: pathlib.Path) -> tuple[str, bool]:
        output, status = told_by(*before, "sh", "-c", script, "verify", "a.disk", cwd=room)
        return output, status == 0

    return run


def test_the_verification_fails_on_a_damaged_body(program: str, room: pathlib.Path) -> None:
    """The timer's command succeeds on a sound source. It fails on a served, a damaged and an empty file."""
    verify, disk = verification(program), pathlib.Path(room, "a.disk")
    subprocess.run([program, "format", "a.disk", "65536", "http://a.example", "2"], cwd=room, check=True,
                   capture_output=True)
    subprocess.run([program, "run", "a.disk"], cwd=room, input=b"put a 6161 a/b\nput b 62 a/b\n", check=True,
                   capture_output=True)
    assert verify(room) == ("verified 2\n", True)
    with subprocess.Popen([program, "serve", "a.disk", "0", "5"], cwd=room, stdout=subprocess.PIPE) as server:
        assert server.stdout
        server.stdout.readline()
        beside = verify(room)
        server.kill()
    assert beside == ("rs_source: Device\n", False)
    body = disk_reader.source_of(disk.read_bytes()).catalogue[0].items[0].first * BLOCK
    disk.write_bytes(disk.read_bytes()[:body] + b"x" + disk.read_bytes()[body + 1:])
    assert verify(room) == ("damaged a\nverified 1\n", False)
    disk.write_bytes(bytes(65536))
    assert verify(room) == ("rs_source: NotASource\n", False)


@pytest.mark.needs("systemd-analyze", "strace")
def test_the_filter_of_the_unit_passes_each_call_of_a_verification(program: str, room: pathlib.Path) -> None:
    subprocess.run([program, "format", "a.disk", "65536", "http://a.example", "2"], cwd=room, check=True,
                   capture_output=True)
    assert verification(program, "strace", "-f", "-qq", "-o", "calls")(room) == ("verified 0\n", True)
    check_calls(room, {"execve", "pread64", "flock"}, "ropepeach-verify@.service")


@pytest.mark.needs("nginx")
def test_slow_clients_delay_no_other_client(program: str, room: pathlib.Path) -> None:
    """One client sends its body byte by byte, and another reads no response. Without nginx others wait."""
    head = b"PUT /resource/slow HTTP/1.1\r\nHost: 127.0.0.1\r\nConnection: close\r\nContent-Length: 20\r\n\r\n"
    with proxied(program, room) as (port, _, behind):
        assert request(port, "PUT", "/resource/long", bytes(LONGEST_BODY))[0] == 201
        with connected(port) as reader, connected(port) as slow:
            reader.sendall(b"GET /resource/long HTTP/1.1\r\nHost: 127.0.0.1\r\n\r\n")
            slow.sendall(head)
            for _ in range(20):
                slow.sendall(b"x")
                assert request(port, "GET", "/resource/other") == (404, b"NotHeld\n")
            assert read_to_end(slow)[:22] == b"HTTP/1.1 201 Created\r\n"
        with connected(behind) as slow:
            slow.sendall(head)
            with contextlib.suppress(TimeoutError):
                pytest.fail(f"the source itself answered: {request(behind, 'GET', '/resource/other', seconds=0.5)}")
            slow.sendall(b"x" * 20)
            assert read_to_end(slow)[:25] == b"HTTP/1.1 204 No Content\r\n"


@pytest.mark.needs("nginx")
def test_the_longest_body_passes_and_one_byte_more_is_refused(program: str, room: pathlib.Path) -> None:
    """A chunked body passes too, with its type."""
    body = hashlib.shake_256(b"a body").digest(LONGEST_BODY)
    with proxied(program, room) as (port, _, behind):
        assert request(port, "PUT", "/resource/a", body)[0] == 201
        if request(port, "GET", "/resource/a") != (200, body):
            pytest.fail("the longest body came back as another one")
        assert request(port, "PUT", "/resource/a", body + b"x")[0] == 413
        chunks = request(port, "PUT", "/resource/b", iter([b"ab", b"c"]), {"Content-Type": "text/x-chunks"})
        assert chunks[0] == 201
        assert request(behind, "GET", "/resource/b") == (200, b"abc")
        assert request(port, "POST", "/publish")[0] == 200
        assert b'length="3" type="text/x-chunks"' in request(port, "GET", "/resourcelist.xml")[1]


@pytest.mark.needs("nginx")
def test_names_reach_the_source_as_they_were_sent(program: str, room: pathlib.Path) -> None:
    """The site neither decodes nor joins names, and shortens a long head to the size that the source accepts."""
    with proxied(program, room) as (port, _, behind):
        for number, name in enumerate(["a/b", "a%2Fb", "a%2fb", "%41", "A", "x;y=1,2", "q%3Fr", "..%2F"]):
            put = request(port, "PUT", f"/resource/{name}", b"%d" % number, LONG_HEAD)
            assert put[0] == 201, name
            assert request(behind, "GET", f"/resource/{name}") == (200, b"%d" % number), name
        assert request(port, "GET", "/resource/a/../A") == (400, b"BadName\n")
        assert request(port, "GET", "/resource//A") == (400, b"BadName\n")


@pytest.mark.needs("nginx")
def test_the_cache_keeps_parts_and_keeps_heads_for_a_second(program: str, room: pathlib.Path) -> None:
    """nginx serves a part of the Resource List after the source ended; it never caches a resource, even one whose name
    looks like the path of a part.
    """
    with proxied(program, room) as (port, source, _):
        for path in ["/resource/a", "/resource/b", LIKE_A_PART]:
            assert request(port, "PUT", path, b"old")[0] == 201, path
        assert request(port, "POST", "/publish")[0] == 200
        head, part = (request(port, "GET", path_of_list)
                      for path_of_list in ["/resourcelist.xml", "/resourcelist/1/0.xml"])
        assert part[0] == 200
        assert request(port, "GET", "/changelist/0.xml")[0] == 200
        for path in ["/resource/a", LIKE_A_PART]:
            assert request(port, "GET", path) == (200, b"old"), path
            assert request(port, "PUT", path, b"new")[0] == 204, path
            assert request(port, "GET", path) == (200, b"new"), path
        assert request(port, "POST", "/publish")[0] == 200
        time.sleep(HEAD)
        if request(port, "GET", "/resourcelist.xml") == head:
            pytest.fail("a head is served for too long")
        source.kill()
        source.wait(SECONDS)
        time.sleep(HEAD)
        if request(port, "GET", "/resourcelist/1/0.xml") != part:
            pytest.fail("a part is not served from the cache")
        for path in ["/resource/a", LIKE_A_PART, "/resourcelist.xml", "/changelist/0.xml", "/resourcelist/1/1.xml"]:
            assert request(port, "GET", path)[0] == 502, path


@pytest.mark.needs("nginx")
def test_a_far_client_reads_and_changes_nothing(program: str, room: pathlib.Path) -> None:
    with proxied(program, room, lambda site: far(without_tls(site))) as (port, _, behind):
        request(behind, "PUT", "/resource/a", b"a")
        for method, path in [("PUT", "/resource/a"), ("DELETE", "/resource/a"), ("POST", "/publish"),
                             ("PATCH", "/resource/a")]:
            assert request(port, method, path, b"b")[0] == 403, method
        assert request(port, "GET", "/resource/a") == (200, b"a")
        assert request(port, "HEAD", "/resource/a") == (200, b"")


@pytest.mark.needs("nginx", "openssl")
def test_a_known_certificate_allows_changes(program: str, room: pathlib.Path) -> None:
    """`ropepeach fill` fills a source over TLS, from a far address, only with a known certificate."""
    server, known, unknown = (certified(room, name) for name in ("server", "known", "unknown"))

    def change(site: str) -> str:
        site = re.sub(r"/etc/ssl/(certs|private)/source\.example\.org\.(pem|key)", server, far(site))
        return re.sub(r"(?m)^ *# (ssl_)", r"\1", site).replace("/etc/ssl/certs/depositors.pem", f"{room}/known.crt")

    pathlib.Path(room, "folder").mkdir()
    pathlib.Path(room, "folder/a").write_bytes(b"a")
    with proxied(program, room, change) as (port, _, behind):
        words = [*COMMAND, "fill", f"{room}/folder", f"https://127.0.0.1:{port}"]
        trusting = os.environ | {"SSL_CERT_FILE": f"{room}/server.crt"}
        refusals: list[tuple[list[str], str]] = [([], "403 Forbidden"), (["--certificate", unknown], "400 Bad Request")]
        for certificate, wanted in [*refusals, (["--certificate", known], "published 1 ")]:
            output, _ = told_by(*words, *certificate, env=trusting)
            assert wanted in output, f"with {certificate}: {output.strip()}"
        assert request(behind, "GET", "/resource/a") == (200, b"a")
        assert "certificate verify failed" in told_by(*words)[0]


@pytest.mark.needs("make")
def test_make_install_puts_each_command_in_its_place(program: str, room: pathlib.Path) -> None:
    """The installed command runs outside the repository, and `make uninstall` leaves no file."""
    words = ["make", "-s", "-C", str(ROOT), f"DESTDIR={room}/at", "PREFIX=/usr", f"PROGRAM={program}"]
    assert told_by(*words, "install")[1] == 0
    output, status = told_by(f"{room}/at/usr/bin/ropepeach", "--help", cwd=room)
    assert (output[:21], status) == ("usage: ropepeach [-h]", 0)
    assert told_by(*words, "uninstall")[1] == 0
    assert not [path for path in pathlib.Path(room, "at").rglob("*") if not path.is_dir()]
