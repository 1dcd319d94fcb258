"""Test fill, mirror and grow over a whole collection, including when a run or a source is killed."""
from __future__ import annotations

import pathlib
import re
import shutil
import signal
import subprocess
import time
from collections.abc import Callable

import pytest

from operations.tests.collection.host import SETTINGS, Host, names_in, request, same_files, waited
from operations.tests.system.install_looks import HEAD
from operations.tests.tools import COMMAND
from operations.tests.tools.hostile_source import listed
from operations.tests.tools.lists_server import always, serving
from operations.tests.tools.running import Run, Server, files_of, ropepeach, wait_until, written
from ropepeach.collection.grow import overwritten
from ropepeach.resync.facts import Facts
from ropepeach.resync.lists import Entry
from tests.threads import beside

pytestmark = pytest.mark.needs("nginx", "openssl")

FILES = {f"d{number % 7}/{number}.txt": b"%d\n" % number * 40 for number in range(160)}
# Files that keep a run busy for some time.
MANY = {f"d{number % 7}/{number}.txt": b"%d\n" % number * 40 for number in range(800)}


def test_fill_and_mirror_are_exact(program: str, room: pathlib.Path) -> None:
    """fill puts exactly a source's names; mirror writes the files of each source, and reports its moment."""
    folder = written("folder", {"d0/0.txt": b"0"} | FILES | {"x y": b"3", "d0/e/f": b"4"})
    with Host(program, room, ["s1", "s2", "s3"]) as host:
        homes = host.homes([*FILES, "x%20y", "d0/e/f"])
        puts = host.well("fill", folder, SETTINGS, "--dry-run").splitlines()
        assert puts == sorted(f"put {home} {name}" for name, home in homes.items())
        output = host.well("fill", folder, SETTINGS)
        for name in host.sources:
            assert host.resources_of(name) == names_in(homes, name), name
        assert [line.split(":")[0] for line in output.splitlines()] == ["s1", "s2", "s3"]
        assert "3 sources of 50,000" in host.well("collection", SETTINGS)
        output = host.well("mirror", f"{host.address}/.well-known/resourcesync", "m")
        last = "3 of 3 sources, each at its own moment, from"
        assert [line[: len(last) if line[0] == "3" else 12] for line in output.splitlines()] == [
            "s1: baseline", "s2: baseline", "s3: baseline", last]
        for name in host.sources:
            assert set(files_of(pathlib.Path("m", name))) == names_in(homes, name), name
        assert sum("published before" not in line for line in host.well("fill", folder, SETTINGS).splitlines()) == 0
        shutil.rmtree("folder/d1")
        written("folder", {"d2/2.txt": b"new", "d2/more": b"more"})
        host.well("fill", folder, SETTINGS)
        assert "s1: incremental" in host.well("mirror", host.address, "m")
        same_files({path.replace(" ", "%20"): body for path, body in files_of(folder).items()},
                   host.union("m"))


def test_a_moved_name_is_never_gone(program: str, room: pathlib.Path) -> None:
    """The mirror has a name that moves after the run has read its new source and before it reads the old one."""
    folder = written("folder", FILES)
    with Host(program, room, ["s1", "s2"]) as host:
        host.well("fill", folder, SETTINGS)
        host.well("mirror", host.address, "m")
        name = next(path for path, home in host.homes(list(FILES)[:50]).items() if home == "s1")
        for baseline in (list[str](), ["--baseline"]):
            # (nginx caches headers for that long)
            time.sleep(HEAD)
            host.sources["s1"].hold()
            count = pathlib.Path("access.log").read_text().count("/s2/changelist.xml")
            run = host.begin("mirror", host.address, "m", *baseline)
            wait_until(lambda: pathlib.Path("access.log").read_text().count("/s2/changelist.xml") > count, "s2 is read")
            request(host.sources["s2"].url, f"/resource/{name}", "PUT", FILES[name])
            with beside(lambda: request(host.sources["s1"].url, f"/resource/{name}", "DELETE")):
                # (the run sends its first request to s1 before, and requests the Change List later)
                host.sources["s1"].go_on()
            status, output, messages = waited(run)
            assert status == 0, f"the run: {messages}"
            same_files(FILES, host.union("m"))
            request(host.sources["s1"].url, f"/resource/{name}", "PUT", FILES[name])
            request(host.sources["s2"].url, f"/resource/{name}", "DELETE")
            host.well("mirror", host.address, "m")
            same_files(FILES, host.union("m"))


def test_a_source_that_is_away_stops_no_other(program: str, room: pathlib.Path) -> None:
    """The run fetches new files of other sources, keeps files that they deleted until all are up, and exits 1."""
    folder = written("folder", FILES)
    with Host(program, room, ["s1", "s2", "s3"]) as host:
        host.well("fill", folder, SETTINGS)
        host.well("mirror", host.address, "m")
        homes = host.homes(FILES)
        first, third = (next(path for path in FILES if homes[path] == name) for name in ("s1", "s3"))
        request(host.sources["s1"].url, f"/resource/{first}", "DELETE")
        request(host.sources["s3"].url, f"/resource/{third}", "PUT", b"new")
        host.sources["s2"].kill()
        status, output, messages = host.run("mirror", host.address, "m", "--patience", "1")
        assert status == 1
        assert "s2: GET https://127.0.0.1:" in messages
        assert "s1: keeps what its source deleted, and its old moment, until the others can be read" in messages
        assert "s3: incremental: fetched 1 " in output
        same_files(FILES | {third: b"new"}, host.union("m"))
        host.sources["s2"].start()
        host.well("mirror", host.address, "m")
        same_files({path: body for path, body in FILES.items() if path != first} | {third: b"new"},
                   host.union("m"))


def test_grow_moves_names_only_to_the_new_source(program: str, room: pathlib.Path) -> None:
    """A mirror has all files before, during and after; unusual names move, and types stay."""
    written("folder", FILES | {"x y": b"3", "é": b"4"})
    with Host(program, room, ["s1", "s2"]) as host:
        host.well("fill", "folder", SETTINGS)
        host.well("mirror", host.address, "m")
        wanted = FILES | {"x%20y": b"3", "%C3%A9": b"4"}
        host.add("s3")
        host.sources["s3"].start()
        host.serve()
        output = host.well("grow", SETTINGS)
        homes = host.homes(wanted)
        for name in host.sources:
            assert host.resources_of(name) == names_in(homes, name), name
        moved = len(host.resources_of("s3"))
        assert output.splitlines()[0] == f"{moved} of {len(wanted)} are where they do not live; {moved} have to be put"
        types = {kind for entry in host.entries("s3") if "/d" in entry for kind in re.findall(' type="([^"]*)"', entry)}
        assert types == {"text/plain"}
        host.well("mirror", host.address, "m")
        same_files(wanted, host.union("m"))
        assert "0 of 162 are where" in host.well("grow", SETTINGS)
        assert host.well("fill", "folder", SETTINGS).count("; published before") == 3


# Runs of grow during which another client puts to the new source: when grow reads a body, or after it checks the name.
AMID = """
import sys, urllib.request
from ropepeach.cli import command
from ropepeach.collection import grow
from ropepeach.resync import lists
def put():
    urllib.request.urlopen(urllib.request.Request({url!r}, b"newer", method="PUT"), timeout=30)
read, look = lists.Source.resource, grow.GrowPart.is_new
def resource(self, name, *words):
    if {early} and name == {name!r}:
        put()
    return read(self, name, *words)
def is_new(self, name):
    found = look(self, name)
    if not {early} and name == {name!r}:
        put()
    return found
lists.Source.resource, grow.GrowPart.is_new = resource, is_new
sys.exit(command.main(["grow", {settings!r}]))
"""


def test_grow_keeps_bodies_that_others_put_meanwhile(program: str, room: pathlib.Path) -> None:
    """grow overwrites no body that others put to the new source, or it exits 1 and names the body."""
    written("folder", FILES)
    with Host(program, room, ["s1", "s2"]) as host:
        host.well("fill", "folder", SETTINGS)
        host.add("s3")
        host.sources["s3"].start()
        host.serve()
        homes = host.homes(FILES)
        early, late = sorted(name for name in FILES if homes[name] == "s3")[3:5]
        python, command = COMMAND
        environment = host.environment | {"PYTHONPATH": str(pathlib.Path(command).parent)}
        for name, is_early in [(late, False), (early, True)]:
            script = AMID.format(url=f"{host.sources['s3'].url}/resource/{name}",
                                 name=name, early=is_early, settings=SETTINGS)
            if is_early:
                # (delete the put of the run before, so that the name moves again)
                request(host.sources["s3"].url, f"/resource/{name}", "DELETE")
                holder = next(source for source in ("s1", "s2") if name in host.resources_of(source))
            run = subprocess.Popen([python, "-c", script], env=environment, stdout=subprocess.PIPE,
                                   stderr=subprocess.PIPE, text=True)
            status, output, messages = waited(run)
            if is_early:
                assert status == 0, f"the run: {messages}"
                assert f"{name}: was put here meanwhile, and stays as it is" in messages
                assert request(host.sources["s3"].url, f"/resource/{name}").rpartition(b"\r\n")[2] == b"newer"
                assert not (name in host.resources_of(holder))
            else:
                assert status == 1, f"the run: {messages}"
                assert ("1 names were changed here at the moment at which older bytes were put: "
                            f"deposit them again: {name}") in messages
                assert host.resources_of("s1") | host.resources_of("s2") == set(FILES)


def test_overwritten_changes_by_others_are_reported(program: str, room: pathlib.Path) -> None:
    """grow reports changes by others between its reading of the lists and its last put."""
    ours, other = Facts(b"ours"), Facts(b"other")
    tries: list[tuple[list[Facts | None], int]] = [
        ([ours], 0), ([ours, ours], 0), ([other], 0), ([None], 0), ([ours, other], 0), ([ours, None], 0), ([], 0),
        ([other, ours], 1), ([None, ours], 1),
        ([ours, other, ours], 1), ([other, ours, other], 0)]
    for changes, wanted in tries:
        entries = [Entry("a", f"{number}", facts) for number, facts in enumerate(changes)]
        assert overwritten([*entries, Entry("b", "9", other)], {"a": ours}) == ["a"] * wanted, f"{changes}"


def test_killed_runs_continue_by_the_same_command(program: str, room: pathlib.Path) -> None:
    """A killed fill, mirror or grow leaves no process; the same command resumes it, and ends with the right files."""
    folder = written("folder", MANY)
    with Host(program, room, ["s1", "s2"]) as host:
        killed(host, "fill", folder, SETTINGS, amid=host.disks)
        host.well("fill", folder, SETTINGS)
        killed(host, "mirror", host.address, "m", amid=lambda: len(list(pathlib.Path("m").glob("*/*/*"))))
        host.well("mirror", host.address, "m")
        same_files(MANY, host.union("m"))
        host.add("s3")
        host.sources["s3"].start()
        host.serve()
        for _ in range(2):
            killed(host, "grow", SETTINGS, amid=host.disks)
            assert set[str]().union(*map(host.resources_of, host.sources)) == set(MANY)
        host.well("grow", SETTINGS)
        homes = host.homes(MANY)
        for name in host.sources:
            assert host.resources_of(name) == names_in(homes, name), name
        host.well("mirror", host.address, "m")
        same_files(MANY, host.union("m"))


def held_amid(host: Host, *words: object, amid: Callable[[], object]) -> Run:
    """Start a run, and stop its sources after its first change, so that it cannot end."""
    before, run = amid(), host.begin(*words)
    wait_until(lambda: amid() != before or run.poll() is not None, "the first change")
    for server in host.sources.values():
        server.hold()
    assert run.poll() is None, f"the run is amid its work: {words[0]}"
    return run


def killed(host: Host, *words: object, amid: Callable[[], object]) -> None:
    """Kill a run by SIGKILL during its work, and wait until all its processes have ended."""
    run = held_amid(host, *words, amid=amid)
    run.kill()
    # (its pipes close when all its processes have ended)
    assert waited(run)[0] == -signal.SIGKILL
    for server in host.sources.values():
        server.go_on()


def test_ctrl_c_stops_all_processes_with_one_line(program: str, room: pathlib.Path) -> None:
    """The exit status is 130."""
    folder = written("folder", FILES)
    with Host(program, room, ["s1", "s2"]) as host:
        run = held_amid(host, "fill", folder, SETTINGS, amid=host.disks)
        run.send_signal(signal.SIGINT)
        assert waited(run) == (130, "", "ropepeach fill: stopped; the next run goes on\n")
        for server in host.sources.values():
            server.go_on()
        host.well("fill", folder, SETTINGS)


def test_sources_of_other_hosts_are_mirrored_with_elsewhere(program: str, room: pathlib.Path) -> None:
    """mirror refuses sources of other hosts without --elsewhere, and makes no folder."""
    with Server(program, "a.disk") as first, Server(program, "b.disk") as second:
        for number, server in enumerate((first, second)):
            request(server.url, "/resource/a", "PUT", b"%d" % number)
        pointers = [f'<url><loc>{server.url}/capabilitylist.xml</loc><rs:md capability="capabilitylist"/></url>\n'
                    for server in (first, second)]
        with serving(always(200, listed("description", pointers), "application/xml")) as host:
            status, output, messages = ropepeach("mirror", host.url, "m")
            assert (status, output, pathlib.Path("m").exists()) == (1, "", False)
            assert f"{first.url}: refused, as it is not below {host.url}; --elsewhere" in messages
            assert ropepeach("mirror", host.url, "m", "--elsewhere")[0] == 0
        parts = {f"127.0.0.1%3A{server.port}/a": b"%d" % number for number, server in enumerate((first, second))}
        assert {path: body for path, body in files_of("m").items() if not path.startswith("#")} == parts
