"""Test the site of a collection byte by byte, and refusals of fill, grow and mirror before any change."""
from __future__ import annotations

import os
import pathlib
import re
import shutil
import ssl
import time
from collections.abc import Callable
from unittest import mock

import pytest

from operations.tests.collection.host import (
    SETTINGS, Host, commanded, copied, disks_stay, request, same_files, waited,
)
from operations.tests.system import install_looks
from operations.tests.tools import running
from operations.tests.tools.running import files_of, ropepeach, written
from tests.program import interposed

pytestmark = pytest.mark.needs("nginx", "openssl")

MOMENT = re.compile(rb"\d{4}-\d\d-\d\dT\d\d:\d\d:\d\d\.\d{3}Z")
PLAIN = {f"d{number % 5}/{number}.txt": b"%d\n" % number * 9 for number in range(60)}
# Targets after the path of a base. The site passes them to the source unchanged, or refuses them. The longest name is
# valid; a byte more is not.
TARGETS = """
/resource/x%20y /resource/a%2Fb /resource/a%2fb /resource/a/b /resource//a /resource/a//b /resource/a/../b
/resource/.. /resource/%2E%2E/b /resource/a%2E /resource/%2E /resource/%2e%2e%2Fa /resource/a/./b /resource/./a
//resource/a /../resource/a /resource/a?b /resource/a?b=/../c /resource/a% /resource/a%zz /resource/a;b=c,d /resource/~
/resource/... /resource/%C3%A9 /resource/a+b /resource/(1) /resource/a:b@c /resource/ /resource / /none /%72esource/a
/resource/a%3Fb /resource/a%23b /resource/a&b='c'!$* /s2/resource/a /../s2/resource/a /%2E%2E/s2/resource/a
/resource/resourcelist/1/0.xml /resource/changelist.xml
""".split() + ["/resource/" + "n" * 240, "/resource/" + "n" * 241]
# Documents that the site may serve from its cache, with their greatest age in seconds.
DOCUMENTS = """
/capabilitylist.xml /resourcelist.xml /changelist.xml /resourcelist/1/0.xml /resourcelist/1/9.xml /changelist/0.xml
/changelist/9999.xml /resourcelist/1/..%2F1%2F0.xml /.well-known/resourcesync /%2Ewell-known/resourcesync
/resourcelist.xml?x /resourcelist/1//0.xml
""".split()
KEPT = install_looks.HEAD
# A C library that refuses to list a folder of this name.
UNLISTED = r"""
#include <errno.h>
#include <fcntl.h>
#include <stdarg.h>
#include <string.h>
#include <sys/syscall.h>
#include <unistd.h>
static int opened(int at, const char *path, int flags, int mode) {
    if (strlen(path) >= 8 && !strcmp(path + strlen(path) - 8, "unlisted")) return errno = EACCES, -1;
    return syscall(SYS_openat, at, path, flags, mode);
}
#define MODE(after) va_list more; va_start(more, after); int mode = va_arg(more, int); va_end(more)
int openat(int at, const char *path, int flags, ...) { MODE(flags); return opened(at, path, flags, mode); }
int openat64(int at, const char *path, int flags, ...) { MODE(flags); return opened(at, path, flags, mode); }
"""
# A valid name that nginx refuses.
ZERO = "/resource/%00"
# Targets of no source.
NOWHERE = """
/ /none /s3/resource/a /s11/resource/a /%73%31/resource/a /S1/resource/a //s1/resource/a /resource/a /s1%2Fresource/a
""".split()


def test_names_reach_the_right_source_or_are_refused(program: str, room: pathlib.Path) -> None:
    """The site sends the source's response byte by byte to any method and target below a base, or both refuse it."""
    with (Host(program, room, ["s1", "s2"], limit=2) as host,
          running.Server(program, "alone.disk", 8 << 20, 2, f"{host.address}/s1") as alone):
        trusted = ssl.create_default_context(cafile=f"{host.room}/server.crt")
        other = host.sources["s2"].disk.read_bytes()
        passed = 0
        for method in ("PUT", "GET", "HEAD", "PUT", "GET", "DELETE", "GET", "PUT"):
            passed += compare_targets(host, alone, trusted, TARGETS, method, b"%d" % passed if method == "PUT" else b"")
        passed += compare_targets(host, alone, trusted, ["/publish"], "POST")
        time.sleep(KEPT)
        for method in ("GET", "HEAD", "GET"):
            passed += compare_targets(host, alone, trusted, DOCUMENTS, method)
        assert request(host.address, f"/s1{ZERO}", context=trusted).split(b" ")[1] == b"400"
        for target in NOWHERE:
            assert request(host.address, target, context=trusted).split(b" ")[1] == b"404", target
        assert other == host.sources["s2"].disk.read_bytes()
    assert passed > 6 * len(TARGETS)


def compare_targets(host: Host, alone: running.Server, trusted: ssl.SSLContext, targets: list[str], method: str,
                    sent: bytes = b"") -> int:
    """Compare the responses to all targets; return how many come from the source. Neither serves any other target."""
    passed = 0
    for target in targets:
        wanted = request(alone.url, target, method, sent)
        found = request(host.address, f"/s1{target}", method, sent, trusted)
        if host.says_nginx(found) and wanted.split(b" ")[1][:1] == b"4":
            continue
        if target == "/" and method in ("GET", "HEAD"):
            # (the base itself redirects to its tab)
            assert [answer.split(b" ")[1] for answer in (wanted, found)] == [b"404", b"302"], method
            continue
        assert without_moments(found) == without_moments(wanted), f"{method} {target}"
        passed += 1
    return passed


def without_moments(answer: bytes) -> tuple[list[bytes], bytes | None, bytes, bytes]:
    """Return the status, the type, the length and the body of a response, without moments. nginx adds other fields."""
    head, _, body = MOMENT.sub(b"T", answer).partition(b"\r\n\r\n")
    pairs = (field.lower().partition(b": ") for field in head.split(b"\r\n")[1:] if b": " in field)
    fields = {name: value for name, _, value in pairs}
    return head.split(b" ")[1:2], fields.get(b"content-type"), fields.get(b"content-length", b"0"), body


def test_the_host_describes_all_sources(program: str, room: pathlib.Path) -> None:
    """The well-known address of the host serves the Source Description of the collection; the path of a base serves
    that of its source.
    """
    with Host(program, room, ["s1", "s2"]) as host:
        trusted = ssl.create_default_context(cafile=f"{host.room}/server.crt")
        found = request(host.address, "/.well-known/resourcesync", context=trusted)
        assert found.partition(b"\r\n\r\n")[2] == pathlib.Path("site/resourcesync.xml").read_bytes()
        assert "application/xml" in found.decode()
        for name, server in host.sources.items():
            through = request(host.address, f"/{name}/.well-known/resourcesync", context=trusted)
            own = request(server.url, "/.well-known/resourcesync")
            assert through.partition(b"\r\n\r\n")[2] == own.partition(b"\r\n\r\n")[2], name
        for target in ("/.well-known/resourcesync", "/s1/resource/a"):
            answer = request(host.address, target, "DELETE", context=trusted)
            assert answer.split(b" ")[1] in (b"404", b"405"), target


def fill_refuses_other_sources(host: Host, refused: Callable[..., None]) -> None:
    """Check that fill refuses a source that is down, and a source that reports another base."""
    host.sources["s2"].kill()
    refused("nobody answers", "s2: GET http://127.0.0.1:", "--patience", "0.5")
    host.sources["s2"].start()
    host.settle(address={"s3": host.sources["s2"].url, "s2": host.sources["s3"].url})
    refused("another one answers",
            f"the source calls itself {host.address}/s3, and the file of the collection says {host.address}/s2")
    host.settle()


def fill_refuses_strays(host: Host, refused: Callable[..., None], name: str) -> None:
    """Check that fill refuses a name of s1 that s2 holds, for s1 alone and for both."""
    request(host.sources["s2"].url, f"/resource/{name}", "PUT", b"stray")
    refused("it lives elsewhere", f"{name}: is held by s2, and lives in s1")
    request(host.sources["s1"].url, f"/resource/{name}", "PUT", b"stray")
    refused("two hold it", f"{name}: is held by s1 and s2, and lives in s1")
    request(host.sources["s1"].url, f"/resource/{name}", "DELETE")
    request(host.sources["s2"].url, f"/resource/{name}", "DELETE")


def test_fill_refuses_before_it_changes_anything(program: str, room: pathlib.Path) -> None:
    """fill refuses a source that is down or another source, a name in two sources or in the wrong one, and a disk that
    is too small.
    """
    folder = written("folder", PLAIN)
    with Host(program, room, ["s1", "s2", "s3"]) as host:
        homes = host.homes(PLAIN)
        name = next(path for path in homes if homes[path] == "s1")

        def refused(what: str, why: str, *words: str, status: int = 1) -> None:
            with disks_stay(host):
                found, output, messages = host.run("fill", folder, SETTINGS, *words)
            assert (found, output) == (status, ""), f"{what}: {messages}"
            assert why in messages, what

        fill_refuses_other_sources(host, refused)
        fill_refuses_strays(host, refused, name)
        pathlib.Path("small").write_bytes(bytes(16 << 10))
        host.settle(file={"s1": str(pathlib.Path("small").resolve())})
        refused("too small", "small is too small: it has 16,384 bytes")
        host.settle()
        refused("no types", "s1: none: cannot be read", "--types", "none", status=3)
        assert host.run("fill", folder, "collection.tom")[0] == 2
        os.makedirs("folder/a/unlisted")
        library = interposed(room, "unlisted", UNLISTED)["LD_PRELOAD"]
        with mock.patch.object(host, "environment", host.environment | {"LD_PRELOAD": library}):
            refused("it can't be listed",
                    "ropepeach fill: a folder cannot be listed: folder/a/unlisted: Permission denied")
        shutil.rmtree("folder/a")
        too_deep(folder)
        status, _, messages = host.run("fill", folder, SETTINGS)
        assert (status, messages.count("left out deep/")) == (3, 1), f"too deep: {messages}"
        shutil.rmtree("folder/deep")
        host.well("fill", folder, SETTINGS)
        shutil.rmtree("folder")
        os.mkdir("folder")
        refused("too much is deleted", "60 of 60 resources would be deleted, more than half")
        refused("a dry run", "more than half", "--dry-run")
        assert "deleted" in host.well("fill", "folder", SETTINGS, "--yes")


def too_deep(folder: pathlib.Path) -> None:
    """Make nested folders; the path of the innermost is longer than 4,096 bytes."""
    above = os.open(folder, os.O_RDONLY)
    for name in ["deep", *["d" * 250] * 17]:
        os.mkdir(name, dir_fd=above)
        below = os.open(name, os.O_RDONLY, dir_fd=above)
        os.close(above)
        above = below
    os.close(above)


def test_fill_refuses_more_files_than_a_source_holds(program: str, room: pathlib.Path) -> None:
    """fill refuses 50,001 files for one source before any request, and names the source."""
    folder = pathlib.Path("many")
    folder.mkdir()
    for number in range(50_001):
        os.close(os.open(folder / f"{number}", os.O_CREAT))
    source = '[source.s1]\naddress = "http://127.0.0.1:9"\nbase = "http://a.example/s1"\nfile = "/a"\n'
    pathlib.Path("c.toml").write_text(f'address = "http://a.example"\n{source}')
    status, output, messages = ropepeach("fill", folder, "c.toml", "--patience", "0")
    assert (status, output) == (1, "")
    assert "50,001 files of FOLDER live in s1, and a source holds 50,000 at most: add sources to c.toml" in messages


def test_grow_refuses_before_it_changes_anything(program: str, room: pathlib.Path) -> None:
    """grow refuses a description without the new source, a missing or full source, and different bodies of a name."""
    folder = written("folder", PLAIN)
    with Host(program, room, ["s1", "s2"]) as host:
        host.well("fill", folder, SETTINGS)
        host.add("s3")
        host.sources["s3"].start()

        def refused(what: str, why: str, *words: str, run: Callable[..., tuple[int, str, str]] = host.run) -> None:
            with disks_stay(host):
                status, _, messages = run("grow", SETTINGS, *words)
            assert status == 1, f"{what}: {messages}"
            assert why in messages, what

        refused("not described", f"the Source Description does not name {host.address}/s3")
        host.serve()
        host.sources["s3"].kill()
        refused("nobody answers", "s3: GET http://127.0.0.1:", "--patience", "0.5")
        host.sources["s3"].start()
        name = next(name for name, home in host.homes(PLAIN).items() if home == "s3")
        request(host.sources["s3"].url, f"/resource/{name}", "PUT", b"another")
        refused("two differ", "with different bytes: " + name)
        request(host.sources["s3"].url, f"/resource/{name}", "DELETE")
        tools = copied(room, "full", ("disk/formula.py", "MOST_RESOURCES = MOST_CHANGES = 50_000",
                                      "MOST_RESOURCES, MOST_CHANGES = 20, 50_000"),
                       ("resync/lists.py", "from ropepeach.disk.formula import MOST_CHANGES, MOST_RESOURCES",
                        "MOST_CHANGES = MOST_RESOURCES = 50_000"))
        with commanded(tools):
            refused("full", "s3: is full: it would hold")
        assert "move s" in host.well("grow", SETTINGS, "--dry-run")
        host.well("grow", SETTINGS)
        assert {name: home for name, home in host.homes(PLAIN).items() if name not in host.resources_of(home)} == {}


def test_mirror_refuses_a_description_that_is_no_collection(program: str, room: pathlib.Path) -> None:
    """mirror refuses sources of other hosts, bases that lead out of the folder, a folder with other files, and a second
    run in the same folder.
    """
    folder = written("folder", PLAIN)
    with Host(program, room, ["s1", "s2"]) as host:
        host.well("fill", folder, SETTINGS)
        page, text = pathlib.Path("site/resourcesync.xml"), pathlib.Path("site/resourcesync.xml").read_text()

        def refused(what: str, why: str, *words: str, status: int = 1, into: str = "m") -> None:
            found, output, messages = host.run("mirror", host.address, into, *words)
            assert (found, output, pathlib.Path("m").exists()) == (status, "", False), f"{what}: {messages}"
            assert why in messages, what

        for path, why in [("https://other.example.org/s2", "--elsewhere takes sources of other hosts"),
                          (f"{host.address}/..", "which is another one's or no name"),
                          (f"{host.address}/s1", "names 2 sources, and one of them twice"),
                          ("https://a b", "is no base of a source"), ("file:///etc", "is no base of a source")]:
            page.write_text(text.replace(f"{host.address}/s2/", f"{path}/"))
            refused(path, why)
        page.write_text(text)
        written("full", {"a": b"a"})
        refused("not empty", "is not empty, and no mirror", status=3, into="full")
        host.well("mirror", f"{host.address}/s1", "one")
        assert host.run("mirror", host.address, "one")[0] == 3
        host.well("mirror", host.address, "whole")
        same_files({path: body for path, body in files_of(folder).items()}, host.union("whole"))
        assert host.run("mirror", f"{host.address}/s1", "whole")[0] == 3
        host.sources["s2"].hold()
        count, log = pathlib.Path("access.log").read_text().count("/s1/changelist"), pathlib.Path("access.log")
        run = host.begin("mirror", host.address, "whole")
        running.wait_until(lambda: log.read_text().count("/s1/changelist") > count, "the first run is at work")
        assert host.run("mirror", host.address, "whole")[0] == 3
        host.sources["s2"].go_on()
        assert waited(run)[0] == 0
