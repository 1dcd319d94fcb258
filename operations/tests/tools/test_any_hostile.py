"""Test `ropepeach mirror` against lying sources of other software, and folders that others changed: it writes, reads
and requests nothing elsewhere.

Lists of other software may have entries that are invalid for a Ropepeach, such as one without a length. So some lies of
hostile_rows.py have no fixed exit status here.
"""
from __future__ import annotations

import gzip
import os
import pathlib
import shutil
import sqlite3
from collections.abc import Callable

import pytest

from operations.tests.tools import hostile_rows as hostile
from operations.tests.tools.hostile_source import HEAD, MOMENT, Liar, answered, entry, flooding, listed

# Lies of hostile_rows.py that are refused for other software too, and texts of the message.
ALSO_REFUSED = {
    "entities that grow": "DTDForbidden", "a file of this machine": "DTDForbidden",
    "60,000 entries": "more than 50,000 entries", "60,000 parts": "more than 50,000 entries",
    "a deep document": "more than 50,000 entries",
    "a long document": "more than 10,485,760", "a document without end": "more than 10,485,760 bytes",
    "a part elsewhere": "its host is not allowed",
    "a list elsewhere": "its host is not allowed", "a body longer than told": "it is listed with fewer",
    "a body without end": "it is listed with fewer",
    "other bytes": "has other bytes than listed", "another SHA-256": "has other bytes than listed",
    "another MD5": "has other bytes than listed",
    "a shorter body": "has other bytes than listed", "a redirect of a resource": "redirects are not followed",
    "a slow body": "took longer than 2 seconds",
    "a refusal without end": "404 Not Found", "words for a terminal": "/resource/a: 404 ?[2J?31m",
    "a list of another namespace": "its urlset is of the namespace",
    "entries of another namespace": "its url is of the namespace",
    "entries of no namespace": "is of the namespace ''", "terms of another namespace": "its md is of the namespace",
    "another document": "no document of Sitemap 0.9",
    "a name twice": "twice, with different bytes",
    "a list that is no ASCII": "is no address of a list", "no HTTP": "no answer for 0.5 seconds",
}
# The Capability List, whose address makes a source count as other software.
LISTS = "/capabilitylist.xml"
# Lies in the Source Description.
OF_DESCRIPTION = ("a redirect of the description", "many sources")
# The most bytes that a source sends: an endless document is cut at the longest document, compressed or not.
SENT = 24 << 20


def run_mirror(liar: Liar, room: pathlib.Path, *words: str, path: str = "", into: str = "m") -> tuple[int, str]:
    """Run the mirror within limits, check them, and return its exit status and messages."""
    liar.sent = 0
    liar.requests.clear()
    status, message = hostile.run(["mirror", "--yes", *words, liar.base + path, into], room)
    assert status in (0, 1, 3), message
    assert message.count("\n") <= 3 and (status == 0 or bool(message))
    assert [char for char in message if not (char.isprintable() or char == "\n")] == []
    assert [path for path in liar.paths() if not path.startswith("/") or "elsewhere" in path] == []
    assert liar.sent <= SENT
    return status, message


def refused(liar: Liar, room: pathlib.Path, says: str, path: str = "", into: str = "m") -> None:
    """Run the mirror, and check that it exits 1 with this message."""
    status, message = run_mirror(liar, room, path=path, into=into)
    assert status == 1, message
    assert says in message


def outside(room: pathlib.Path) -> list[str]:
    """Return the files outside the folder `m`."""
    return [path for path in hostile.below(room) if not path.startswith("m/")]


@pytest.mark.parametrize("name", [name for name in hostile.ROWS if name != "60,000 entries in two parts"])
def test_a_lie_leaves_files_in_the_folder_only(liar: Liar, room: pathlib.Path, name: str) -> None:
    hostile.ROWS[name][0](liar)
    path = "" if name in OF_DESCRIPTION else LISTS
    if name in ALSO_REFUSED:
        refused(liar, room, ALSO_REFUSED[name], path)
    else:
        run_mirror(liar, room, path=path)
    assert outside(room) == []


def test_addresses_with_dots_slashes_and_escapes_are_files_in_the_folder(liar: Liar, room: pathlib.Path) -> None:
    """Every address has a different path."""
    paths = ["/../../outside", "/a/../../../outside", "/..", "/%2e%2e/%2e%2e/encoded", "//etc/passwd",
             "/..\\outside", "/a?/../../outside", "/!2E./outside",
             "/state", "/~", "/-rf", "/a/", "/a", "/a/b", "/" + "x" * 300, "/" + "y/" * 130, "/.", "/./",
             "/known", "/%00", "/%0a"]
    liar.resources([entry(liar.base + path, path.encode()) for path in paths])
    liar.documents({path: path.encode() for path in paths})
    status, message = run_mirror(liar, room)
    assert status == 0, message
    assert outside(room) == []
    found = [path for path in hostile.below(room) if not path.startswith("m/#")]
    assert sorted((room / path).read_bytes() for path in found) == sorted(path.encode() for path in paths)
    names = [name for name in os.listdir("m") if not name.startswith("#")]
    assert names == [f"http+{liar.base.removeprefix('http://')}"]


COMPRESSED = "Content-Encoding: gzip\r\n"
# Bodies that are not valid compressed documents.
BODIES: dict[str, Callable[[], bytes]] = {
    "bomb": lambda: gzip.compress(bytes(300_000_000), 9),
    "bomb in a bomb": lambda: gzip.compress(BODIES["bomb"]()),
    "cut": lambda: gzip.compress(b"<a/>" * 1_000)[:-4],
    "no gzip": lambda: b"\x1f\x8b" + b"x" * 99}


@pytest.mark.parametrize(("what", "says"), [
    ("bomb", "unpacks to more than 52,428,800 bytes"), ("bomb in a bomb", "unpacks to more than"), ("cut", "it is cut"),
    ("no gzip", "can't be unpacked")])
@pytest.mark.parametrize(("document", "path"), [("/.well-known/resourcesync", ""), ("/resourcelist.xml", LISTS)])
def test_a_document_that_unpacks_to_too_much_or_not_at_all_is_refused(
        liar: Liar, room: pathlib.Path, document: str, path: str, what: str, says: str) -> None:
    liar.answers[document] = answered(BODIES[what](), fields=COMPRESSED)
    refused(liar, room, says, path)


def test_a_compressed_list_is_read(liar: Liar, room: pathlib.Path) -> None:
    good = hostile.body_of(liar.answers["/resourcelist.xml"])
    liar.answers["/resourcelist.xml"] = answered(gzip.compress(good), fields=COMPRESSED)
    assert run_mirror(liar, room, path=LISTS)[0] == 0


def pointer(liar: Liar, name: str, capability: str) -> str:
    """Return an entry for a list."""
    return f'<url><loc>{liar.base}/{name}.xml</loc><rs:md capability="{capability}"/></url>\n'


def test_a_description_in_itself_ends_the_run(liar: Liar, room: pathlib.Path) -> None:
    index = [f"<sitemap><loc>{liar.base}/d.xml</loc></sitemap>"]
    for text in (listed("description", [pointer(liar, "d", "capabilitylist")]),
                 listed("description", index, "sitemapindex")):
        liar.documents({"/d.xml": text})
        refused(liar, room, "it is no Capability List", "/d.xml")


@pytest.mark.parametrize("root", ["urlset", "sitemapindex"])
def test_a_list_with_a_link_up_to_itself_ends_the_run(liar: Liar, room: pathlib.Path, root: str) -> None:
    up = f'<rs:ln rel="up" href="{liar.base}/u.xml"/><rs:md capability="changelist"/>'
    liar.documents({"/u.xml": f"{HEAD.format(root)}{up}</{root}>".encode()})
    refused(liar, room, "no Capability List above it", "/u.xml")
    assert liar.paths().count("/u.xml") <= 3


def test_a_description_of_more_than_1000_lists_is_refused(liar: Liar, room: pathlib.Path) -> None:
    liar.documents({"/d.xml": listed("description", [pointer(liar, f"c{number}", "capabilitylist")
                                                     for number in range(1_001)])})
    refused(liar, room, "names 1,001 lists, more than 1,000", "/d.xml")


def test_a_page_that_links_to_no_address_of_a_list_is_refused(liar: Liar, room: pathlib.Path) -> None:
    liar.documents({"/robots.txt": b"Sitemap: x\n" * 100_000,
                    "/page": b"<html>" + b"<link rel='resourcesync' href='ftp://a/'>"})
    refused(liar, room, "is no address of a list", "/page")


def test_a_page_of_5_million_tags_leads_to_the_source_description(liar: Liar, room: pathlib.Path) -> None:
    liar.documents({"/robots.txt": b"Sitemap: x\n" * 100_000, "/page": b"<" * 5_000_000})
    status, message = run_mirror(liar, room, path="/page")
    assert status == 0, message


def test_a_robots_txt_without_end_is_refused(liar: Liar, room: pathlib.Path) -> None:
    liar.answers |= {"/robots.txt": flooding(answered(b"", length="")), "/page": answered(b"<html>")}
    del liar.answers["/.well-known/resourcesync"]
    refused(liar, room, "has more than 10,485,760 bytes", "/page")


@pytest.mark.parametrize("text", ["a\x0bb", '"' + "x" * 300 + '"', "\x85", '"a" b', "W/", "no quotes", '"\xe9"'])
def test_an_odd_etag_or_date_is_not_kept_or_sent(liar: Liar, room: pathlib.Path, text: str) -> None:
    """An odd ETag or date could contain a second request."""
    liar.resources([entry(f"{liar.base}/resource/a", hashes="", length="")])
    liar.answers["/resource/a"] = answered(b"body", fields=f"ETag: {text}\r\nLast-Modified: {text}\r\n")
    for _ in range(2):
        status, message = run_mirror(liar, room, "--baseline")
        assert status == 0, message
    with sqlite3.connect(":memory:") as base:
        base.deserialize((room / "m/#known").read_bytes())
        assert base.execute("SELECT tag, last FROM resources").fetchall() == [("", "")]


def changes_of_known(own: pathlib.Path, victim: pathlib.Path) -> dict[str, Callable[[pathlib.Path], object]]:
    """Return changes of `#known`, made from the mirror's own file and from a file outside."""

    def database(path: pathlib.Path) -> None:
        with sqlite3.connect(path) as base:
            base.executescript("CREATE TABLE resources (place); CREATE VIEW lists AS SELECT 1; PRAGMA "
                               "user_version = 1")

    def trigger(path: pathlib.Path) -> None:
        path.write_bytes(own.read_bytes())
        with sqlite3.connect(path) as base:
            base.executescript("CREATE TRIGGER t AFTER INSERT ON lists BEGIN DELETE FROM resources; END")

    def types(path: pathlib.Path) -> None:
        path.write_bytes(own.read_bytes())
        with sqlite3.connect(path) as base:
            base.executescript("UPDATE resources SET length = 'x', sha256 = 'y', tag = x'00'; UPDATE lists "
                               "SET since = 'never'")

    return {
        "no bytes": lambda path: path.write_bytes(b""), "other bytes": lambda path: path.write_bytes(b"x" * 5_000),
        "half of it": lambda path: path.write_bytes(own.read_bytes()[:3_000]), "another database": database,
        "a trigger": trigger, "other types": types, "a link": lambda path: path.symlink_to(victim),
        "a pipe": os.mkfifo, "a folder": os.mkdir}


@pytest.mark.parametrize("what", changes_of_known(pathlib.Path(), pathlib.Path()))
def test_changed_notes_are_not_trusted(liar: Liar, room: pathlib.Path, what: str) -> None:
    """The mirror neither reads nor writes outside, and requests all files again."""
    victim, own, known = room / "victim", room / "own", room / "m/#known"
    victim.write_bytes(b"theirs")
    liar.resources([entry(f"{liar.base}/resource/a", hashes="", length="")])
    assert run_mirror(liar, room)[0] == 0
    shutil.move(known, own)
    changes_of_known(own, victim)[what](known)
    status, message = run_mirror(liar, room)
    assert status == (3 if what == "a folder" else 0), message
    assert ("/resource/a" in liar.paths()) == (status == 0)
    assert victim.read_bytes() == b"theirs"


def test_a_link_for_the_folder_of_a_host_is_not_followed(liar: Liar, room: pathlib.Path) -> None:
    (room / "victim").write_bytes(b"theirs")
    liar.resources([entry(f"{liar.base}/resource/a", hashes="", length="")])
    assert run_mirror(liar, room)[0] == 0
    place = next(path for path in (room / "m").iterdir() if not path.name.startswith("#"))
    shutil.rmtree(place)
    place.symlink_to(room)
    assert run_mirror(liar, room)[0] in (0, 3)
    assert (room / "victim").read_bytes() == b"theirs"
    assert not (room / "resource").exists()


# Moments of no list, and of no list of a Ropepeach.
NO_MOMENTS, NO_STRICT_MOMENT = ["9999-12-31", "2000-02-30", "yesterday", "\u0662000"], "2000-02-29T00:00:00"


@pytest.mark.parametrize("text, path", [*((text, path) for text in NO_MOMENTS for path in ("", LISTS)),
                                        (NO_STRICT_MOMENT, "")])
def test_a_moment_that_is_none_or_far_ahead_is_refused(liar: Liar, room: pathlib.Path, text: str, path: str) -> None:
    """An invalid moment is refused in the head of a list and in a change."""
    right = [entry(f"{liar.base}/resource/a")]
    liar.resources(right, attributes=f' at="{text}"')
    refused(liar, room, "refused, as ", path)
    liar.resources(right)
    for start in (text, MOMENT):
        change = entry(f"{liar.base}/resource/a", moment=text).replace("<rs:md ", '<rs:md change="updated" ')
        liar.documents({"/changelist.xml": listed("changelist", [change], attributes=f' from="{start}"')})
        refused(liar, room, "refused, as ", path)
