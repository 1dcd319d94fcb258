"""Test how `ropepeach mirror` finds sources of other software by any address, contacts only allowed hosts, keeps
limits, and lists its notes.
"""
import dataclasses
import hashlib
import json
import os
import pathlib

import pytest

from operations.tests.harness.source import FIRST, SECOND, THIRD
from operations.tests.tools.any_mirrored import FILES, WHOLE, holds, listed, mirrored, place
from operations.tests.tools.running import ropepeach, written
from operations.tests.tools.static_source import STYLES, Static, md, url, urlset
from ropepeach.changes import changes
from ropepeach.faults import Misused
from ropepeach.resync.lists import Dropped

pytestmark = pytest.mark.usefixtures("room")


@pytest.mark.parametrize("path", ["", "/", "/.well-known/resourcesync", "/rs/capabilitylist.xml",
                                  "/rs/resourcelist.xml", "/rs/changelist.xml", "/rs/resourcedump.xml",
                                  "/page.html", "/plain.html", "/none.html"])
def test_each_address_of_a_source_leads_to_its_lists(site: Static, path: str) -> None:
    """The host, a description, any list, a page with a link in its head or in a field, and a path without a page lead
    to the lists.
    """
    site.hold(WHOLE, FILES)
    link = b'<link rel="resourcesync" href="rs/capabilitylist.xml">'
    dump = site.files["/rs/changelist.xml"].replace(b"changelist", b"resourcedump")
    site.files |= {"/page.html": b"<!DOCTYPE html><html><head>" + link + b"</head></html>",
                   "/plain.html": b"<html></html>", "/rs/resourcedump.xml": dump}
    site.fields["/plain.html"] = [("Link", '<rs/capabilitylist.xml>; rel="resourcesync"')]
    mirrored(site, path=path, says="exact, as listed at " + FIRST)
    holds(site, WHOLE, FILES)
    mirrored(site, path=path, says="incremental: fetched 0 ")


def test_robots_txt_leads_to_a_resource_list(site: Static) -> None:
    site.hold(WHOLE, FILES)
    site.files["/robots.txt"] = f"Sitemap: {site.base}/rs/resourcelist.xml".encode()
    del site.files["/.well-known/resourcesync"]
    mirrored(site, says="exact, as listed at " + FIRST)


def test_two_sets_of_a_description_are_one_folder_and_followed_by_their_own_change_lists(site: Static) -> None:
    second = dataclasses.replace(WHOLE, lists="/rs2/", resources="/more/")
    site.hold(second, {"x": b"x"}, SECOND)
    both = site.files
    site.hold(WHOLE, FILES)
    site.files = both | site.files | {"/.well-known/resourcesync": urlset(md(capability="description"), [
        url(f"{site.base}{folder}capabilitylist.xml", inner=md(capability="capabilitylist"))
        for folder in ("/rs/", "/rs2/")])}
    mirrored(site, says="fetched 5 ")
    assert len([path for path in pathlib.Path("m").rglob("*") if path.is_file() and path.name[0] != "#"]) == 5
    change = urlset(md(capability="changelist", **{"from": SECOND}),
                    [listed(second, site, "x", "updated", THIRD, b"y")])
    site.files |= {"/rs2/changelist.xml": change, "/more/x": b"y"}
    mirrored(site, says="incremental: fetched 1 ")
    mirrored(site, path="/rs2/capabilitylist.xml", into="one", says="fetched 1 ")


def test_resources_of_another_host_are_passed_over_without_host(site: Static) -> None:
    """--host allows the host; an entry that is skipped again is no deletion."""
    with Static() as other:
        site.hold(WHOLE, FILES)
        other.hold(WHOLE, {"x": b"x"})
        theirs = b"<url>" + other.files["/rs/resourcelist.xml"].partition(b"<url>")[2]
        both = site.files["/rs/resourcelist.xml"].replace(b"</urlset>", theirs)
        site.files["/rs/resourcelist.xml"] = both.replace(b"/data/d</loc>", b"/data/d&#9;x</loc>")
        for _ in range(2):
            mirrored(site, says="not exact (1 no address passed over; 1 of other hosts passed over)")
            assert other.requests == []
        name = other.base.removeprefix("http://")
        mirrored(site, "--host", name, "--baseline", says="not exact (1 no address passed over)")
        assert other.statuses() == {"/data/x": 200}
    path = pathlib.Path("m", f"http+{name}", "data/x")
    assert path.read_bytes() == b"x"
    mirrored(site, "--baseline", status=1, says="removed 0")
    assert path.exists()


def test_lists_of_another_host_are_refused_without_host(site: Static) -> None:
    """A Source Description or a link to lists of another host is refused."""
    with Static() as other:
        site.hold(WHOLE, FILES)
        mirrored(site)
        other.hold(WHOLE, {"x": b"x"})
        site.files["/.well-known/resourcesync"] = other.files["/.well-known/resourcesync"]
        name = other.base.removeprefix("http://")
        mirrored(site, status=1, says=f"refused, as its host is not allowed; --host {name} allows it")
        assert other.requests == []
        site.fields["/page"] = [("Link", f'<{other.base}/rs/capabilitylist.xml>; rel="resourcesync"')]
        site.files["/page"] = b"page"
        mirrored(site, path="/page", into="n", status=1, says="its host is not allowed")


def test_a_host_with_a_slash_is_a_usage_error(site: Static) -> None:
    assert ropepeach("mirror", site.base, "x", "--host", "a/b")[0] == 2


def test_a_dry_run_names_files_and_makes_no_folder(site: Static) -> None:
    site.hold(WHOLE, FILES)
    output = mirrored(site, "--dry-run", says="baseline: 4 to ask for (11 bytes listed), 0 to remove")
    assert (output.count("\n"), os.path.exists("m")) == (5, False)


@pytest.mark.parametrize(("words", "says"), [
    (("--max-bytes", "1KiB"), "as --max-bytes allows"), (("--max-duration", "0"), "--max-duration"),
    (("--incremental",), "no earlier run")])
def test_a_first_run_is_refused_by_its_limits_and_as_an_increment(site: Static, words: tuple[str, ...], says: str
                                                                  ) -> None:
    site.hold(WHOLE, FILES)
    mirrored(site, *words, status=1, says=says)


def test_more_than_half_of_a_mirror_is_removed_with_max_delete_only(site: Static) -> None:
    """--max-delete allows the removal; a dry run with --yes changes nothing."""
    site.hold(WHOLE, FILES)
    mirrored(site)
    site.hold(WHOLE, {"c": b""})
    mirrored(site, "--baseline", status=1, says="3 of 4 resources would be removed, more than half")
    holds(site, WHOLE, FILES)
    output = mirrored(site, "--baseline", "--dry-run", "--yes", says="0 to ask for (0 bytes listed), 3 to remove")
    assert output.count("remove http") == 3
    holds(site, WHOLE, FILES)
    mirrored(site, "--baseline", "--max-delete", "3", says="removed 3")
    holds(site, WHOLE, {"c": b""})


@pytest.mark.parametrize("words", [["--any-source"], ["--any-source", "--baseline"], ["--host", "a"],
                                   ["--require", "md5"]])
def test_options_of_other_runs_continue_a_mirror(site: Static, words: list[str]) -> None:
    """--any-source, an option of earlier versions, has no effect."""
    site.hold(WHOLE, FILES)
    mirrored(site)
    mirrored(site, *words, says="fetched 0 ")


def test_a_mirror_of_another_source_is_refused(site: Static) -> None:
    site.hold(WHOLE, FILES)
    mirrored(site)
    with Static() as other:
        other.hold(WHOLE, FILES)
        mirrored(other, status=3, says="is a mirror of")


def test_a_folder_with_other_files_is_refused(site: Static) -> None:
    site.hold(WHOLE, FILES)
    written("full", {"a": b"a"})
    mirrored(site, into="full", status=3, says="is not empty, and no mirror")


@pytest.fixture
def dspace(site: Static) -> Static:
    """Return a source in the style of DSpace that is mirrored into the folder `m`."""
    site.hold(STYLES["dspace"], FILES)
    mirrored(site)
    site.statuses()
    return site


def test_list_prints_a_line_per_file_and_json_an_object_without_a_request(dspace: Static) -> None:
    lines = []
    for name in ("a.txt", "c", "d", "d/b?x=1&y=2"):
        path, body = place(dspace, f"/bitstream/123456789/1/{name}"), FILES[name]
        address = f"{dspace.base}/bitstream/123456789/1/{name}"
        lines.append(f"{path}{'#' * (name == 'd')} {address} {FIRST} {len(body)} "
                     f"{hashlib.sha256(body).hexdigest()} application/pdf")
    for words in (["--list", "m"], ["m", "--list"], [dspace.base, "--list", "m"], ["--list", dspace.base, "m"]):
        status, output, messages = ropepeach("mirror", *words)
        assert status == 0, messages
        assert output.splitlines() == lines
    found = json.loads(ropepeach("mirror", dspace.base, "--list", "m", "--json")[1])["results"]
    assert [[str(cell) for cell in row.values()] for row in found] == [line.split(" ") for line in lines]
    assert dspace.statuses() == {}


@pytest.mark.parametrize(("end", "folder"), [("", "."), ("", "none"), ("/x", "m"), ("/y", "m")])
def test_list_of_no_mirror_and_of_another_source_is_refused(dspace: Static, end: str, folder: str) -> None:
    assert ropepeach("mirror", "--list", dspace.base + end, folder)[0] == 3


@pytest.fixture
def changing(site: Static) -> Static:
    """Return a source that lists FILES and two changes."""
    site.hold(WHOLE, FILES, FIRST, [listed(WHOLE, site, "a.txt", "updated", SECOND, b"new"),
                                    listed(WHOLE, site, "c", "deleted", THIRD)])
    return site


def test_a_program_reads_the_resources_that_lists_name(changing: Static) -> None:
    """`ropepeach.changes.changes` returns the resources."""
    found = {change.address.removeprefix(changing.base): change for change in changes(changing.base)}
    assert {name: (change.change, change.moment, change.length) for name, change in found.items()} == {
        f"/data/{name}": ("listed", FIRST, len(body)) for name, body in FILES.items()}
    digests = {"sha-256": hashlib.sha256(b"one").hexdigest(), "md5": hashlib.md5(b"one").hexdigest()}
    assert (found["/data/a.txt"].digests, found["/data/a.txt"].kind) == (digests, "text/plain")


@pytest.mark.parametrize(("since", "words"), [
    (FIRST, ["updated", "deleted"]), (THIRD, ["deleted"]), ("2013-01-03", ["updated", "deleted"])])
def test_a_program_reads_the_changes_since_a_moment(changing: Static, since: str, words: list[str]) -> None:
    assert [change.change for change in changes(changing.base, since)] == words


def test_a_moment_before_the_change_list_and_a_text_that_is_none_are_faults_for_a_program(changing: Static) -> None:
    with pytest.raises(Dropped):
        list(changes(changing.base, "2012"))
    with pytest.raises(Misused):
        list(changes(changing.base, "never"))
    changing.hold(dataclasses.replace(WHOLE, has_changes=False), FILES)
    with pytest.raises(Dropped):
        list(changes(changing.base, FIRST))
