"""Test `ropepeach mirror --dumps` with good and lying archives."""
import dataclasses
import errno
import io
import os
import pathlib
import zipfile
from collections.abc import Callable, Iterable
from typing import IO, cast

import pytest

from operations.tests.harness.source import FIRST, SECOND
from operations.tests.tools.any_mirrored import BARE, FILES, WHOLE, holds, listed, mirrored
from operations.tests.tools.static_source import STYLES, Static, archive, dump, facts, md, url, urlset
from ropepeach.changes import changes
from ropepeach.faults import Unusable
from ropepeach.resync import dumps
from ropepeach.resync.addresses import Address
from ropepeach.resync.asking import Asking
from ropepeach.resync.facts import Algorithm, Measure
from ropepeach.resync.sitemaps import Document, document_in

pytestmark = pytest.mark.usefixtures("room")

ZIP = "/rs/dump.zip"


def packed(files: dict[str, bytes], kind: int = zipfile.ZIP_DEFLATED) -> bytes:
    """Return a ZIP of files."""
    made = io.BytesIO()
    with zipfile.ZipFile(made, "w", kind) as file:
        for name, body in files.items():
            file.writestr(name, body)
    return made.getvalue()


def manifest(site: Static, paths: dict[str, str]) -> bytes:
    """Return a manifest that gives the path of every file."""
    entries = [url(f"{site.base}/data/{name}", FIRST, facts(WHOLE, FILES[name], path=path))
               for name, path in paths.items()]
    return urlset(md(capability="resourcedump-manifest", at=FIRST), entries)


def hold_dump(site: Static, made: bytes, **settings: bool) -> None:
    """Serve the files, with this archive as the dump."""
    style = dataclasses.replace(WHOLE, **settings)
    site.hold(style, FILES)
    site.files |= dump(style, site.base, {"dump.zip": made})
    site.statuses()


@pytest.mark.parametrize("name", ["dspace", "dumps"])
def test_a_baseline_takes_all_bodies_from_a_dump(site: Static, name: str) -> None:
    """A baseline requests no resource; a run that needs no body does not request the dump."""
    style = STYLES[name]
    site.hold(style, FILES)
    mirrored(site, "--dumps", says="baseline: fetched 4 (11 bytes")
    assert site.statuses(style.resources) == {}
    holds(site, style, FILES)
    mirrored(site, "--dumps", "--baseline", says="fetched 0 (0 bytes")
    assert site.statuses(style.lists + "dump.zip") == {}


@pytest.mark.parametrize("name", ["dspace", "dumps"])
def test_a_run_without_dumps_asks_for_no_dump(site: Static, name: str) -> None:
    site.hold(STYLES[name], FILES)
    mirrored(site)
    assert site.statuses(STYLES[name].lists + "dump.zip") == {}


def test_bodies_that_a_dump_has_otherwise_than_listed_are_asked_for(site: Static) -> None:
    hold_dump(site, archive(WHOLE, site.base, FILES | {"a.txt": b"old", "c": b"x"}))
    mirrored(site, "--dumps", says="fetched 4 (11 bytes")
    assert site.statuses("/data/") == {"/data/a.txt": 200, "/data/c": 200}
    holds(site, WHOLE, FILES)


def test_a_dump_without_digests_is_not_used(site: Static) -> None:
    site.hold(dataclasses.replace(BARE, has_dump=True), FILES)
    mirrored(site, "--dumps", says="fetched 4 ")
    assert len(site.statuses("/concern/works/")) == 4


def test_an_increment_takes_bodies_from_a_change_dump(site: Static) -> None:
    """An increment does not request an archive of older changes."""
    site.hold(WHOLE, FILES)
    mirrored(site)
    new = {"a.txt": b"new", "e": b"more"}
    words = {"a.txt": "updated", "e": "created"}
    site.hold(WHOLE, FILES | new, FIRST,
              [listed(WHOLE, site, name, words[name], SECOND, body) for name, body in new.items()])
    changed = archive(WHOLE, site.base, new, SECOND, "change", words)
    text = dump(WHOLE, site.base, {"old.zip": b"old", "new.zip": changed}, FIRST, "change")
    bound = text["/rs/changedump.xml"].replace(b"<rs:md hash", b'<rs:md until="2012-01-01" hash', 1)
    site.files |= text | {"/rs/changedump.xml": bound}
    above = site.files["/rs/capabilitylist.xml"]
    more = url(f"{site.base}/rs/changedump.xml", inner=md(capability="changedump")).encode()
    site.files["/rs/capabilitylist.xml"] = above.replace(b"</urlset>", more + b"</urlset>")
    site.statuses()
    mirrored(site, "--dumps", says="incremental: fetched 2 (7 bytes")
    asked = site.statuses()
    assert [path for path in asked if path.startswith("/data/")] == []
    assert ("/rs/new.zip" in asked, "/rs/old.zip" in asked) == (True, False)
    holds(site, WHOLE, FILES | new)


@pytest.mark.parametrize(("has_changes", "way"), [(True, "incremental"), (False, "baseline")])
def test_manifests_are_the_list_of_a_source_without_a_resource_list(site: Static, has_changes: bool, way: str) -> None:
    style = dataclasses.replace(WHOLE, has_list=False, has_changes=has_changes)
    site.hold(style, FILES)
    del site.files["/rs/resourcelist.xml"]
    mirrored(site, says="exact, as listed at " + FIRST)
    assert site.statuses("/data/") == {}
    holds(site, style, FILES)
    addresses = [change.address for change in changes(site.base)]
    assert sorted(addresses) == sorted(f"{site.base}/data/{name}" for name in FILES)
    mirrored(site, says=f"{way}: fetched 0 ")


def test_a_dump_without_digests_or_a_resource_list_is_taken_by_every_run(site: Static) -> None:
    style = dataclasses.replace(BARE, has_list=False, has_dump=True, has_changes=False)
    site.hold(style, FILES)
    mirrored(site, says="compared 4 not at all")
    assert site.statuses("/concern/works/") == {}
    holds(site, style, FILES)
    mirrored(site, says="baseline: fetched 4 ")


def test_a_file_that_a_manifest_names_and_its_archive_lacks_is_asked_for(site: Static) -> None:
    hold_dump(site, packed({"manifest.xml": manifest(site, {"a.txt": "/0", "d": "/none"}), "0": b"one"}),
              has_list=False, has_changes=False)
    mirrored(site, says="baseline: fetched 2 ")
    assert site.statuses("/data/") == {"/data/d": 200}


def leading_out(site: Static) -> bytes:
    """Return an archive with paths that lead out of a folder, one body of 36 MB, and one with other bytes."""
    names = {"a.txt": "../../outside", "c": "/etc/passwd", "d": "a.txt", "d/b?x=1&y=2": "b"}
    return packed({"manifest.xml": manifest(site, names), "../../outside": b"one", "/etc/passwd": b"",
                   "a.txt": b"bomb" * 9_000_000, "b": b"owt"})


def good(site: Static) -> bytes:
    """Return a correct archive."""
    return archive(WHOLE, site.base, FILES)


LIES: dict[str, Callable[[Static], bytes]] = {
    "no archive": lambda _: b"PK", "no bytes": lambda _: b"", "half of one": lambda site: good(site)[:-30],
    "a comment": lambda site: good(site)[:-2] + b"\1\0x",
    "no manifest": lambda _: packed({"a": b"a"}), "no markup": lambda _: packed({"manifest.xml": b"a"}),
    "a list for a manifest": lambda _: packed({"manifest.xml": urlset(md(capability="resourcelist"), [])}),
    "ZIP64": lambda site: good(site)[:-22] + b"PK\6\7" + bytes(16) + good(site)[-22:],
    "a long directory": lambda site: good(site)[:-10] + b"\0\0\0\7" + good(site)[-6:],
    "bzip2": lambda site: packed({"manifest.xml": manifest(site, {"d": "/d"}), "d": b"three"}, zipfile.ZIP_BZIP2),
    "LZMA": lambda site: packed({"manifest.xml": manifest(site, {"d": "/d"}), "d": b"three"}, zipfile.ZIP_LZMA)}


@pytest.mark.parametrize("what", LIES)
def test_an_archive_that_cannot_be_read_is_not_used(site: Static, what: str) -> None:
    """The run requests all resources instead."""
    hold_dump(site, LIES[what](site))
    mirrored(site, "--dumps", says="fetched 4 (11 bytes")
    assert len(site.statuses("/data/")) == 4
    holds(site, WHOLE, FILES)


def test_paths_and_sizes_of_an_archive_that_lies_write_nothing_outside(site: Static, room: pathlib.Path) -> None:
    hold_dump(site, leading_out(site))
    mirrored(site, "--dumps", says="fetched 4 (11 bytes")
    assert site.statuses("/data/")
    holds(site, WHOLE, FILES)
    assert os.listdir(room) == ["m"]


def test_an_archive_longer_than_listed_is_not_used(site: Static) -> None:
    hold_dump(site, good(site))
    site.files[ZIP] += b"x"
    mirrored(site, "--dumps", says="fetched 4 ")
    holds(site, WHOLE, FILES)


def test_an_archive_that_is_gone_is_not_used(site: Static) -> None:
    hold_dump(site, good(site))
    del site.files[ZIP]
    mirrored(site, "--dumps", says="fetched 4 ")


def test_an_archive_of_another_host_is_not_used(site: Static) -> None:
    hold_dump(site, good(site))
    site.files["/rs/resourcedump.xml"] = site.files["/rs/resourcedump.xml"].replace(
        site.base.encode(), b"http://127.0.0.2:9")
    mirrored(site, "--dumps", says="fetched 4 ")


def test_a_source_whose_only_list_is_an_archive_without_a_manifest_is_refused(site: Static) -> None:
    hold_dump(site, packed({"a": b"a"}), has_list=False)
    del site.files["/rs/resourcelist.xml"]
    mirrored(site, status=1, says="has no manifest.xml")
    assert not pathlib.Path("m").exists()


def test_the_limit_of_an_archive_counts_the_bytes_of_all_its_files(monkeypatch: pytest.MonkeyPatch) -> None:
    monkeypatch.setattr(dumps, "MOST_UNPACKED", 1_999)
    found = dumps.opened("http://a/", io.BytesIO(packed({"a": bytes(1_000), "b": bytes(1_000)})))
    # (a file of one byte more than its listed length is read to its end)
    assert (sum(map(len, found.pieces("a", 999))), found.unpacked) == (1_000, 1_000)
    with pytest.raises(dumps.Unread, match="more than 1,999 bytes come out of it"):
        list(found.pieces("b", 1_000))


class Sent:
    """Serve a dump of archives of one file to `Dumps`, and count how often an archive is asked for."""

    def __init__(self, sizes: list[int]) -> None:
        self.hosts, self.count, self.archives = self, 0, [packed({"a": os.urandom(size)}) for size in sizes]

    def allow(self, _: Address) -> bool:
        """Allow each host."""
        return True

    def document(self, address: str) -> Document:
        """Return the dump."""
        entries = [url(f"http://a.example/{number}.zip") for number in range(len(self.archives))]
        return document_in(address, urlset(md(capability="resourcedump", at=FIRST), entries))

    def download(self, address: Address, limit: int, file: IO[bytes], algorithms: Iterable[Algorithm]) -> Measure:
        """Write an archive."""
        self.count += 1
        measure, body = Measure(algorithms), self.archives[int(address.target[1:-4])]
        measure.take(body)
        file.write(body)
        return measure


def temporary_bytes() -> int:
    """Return the bytes of this process's open files without a name."""
    files = [path for path in pathlib.Path("/proc/self/fd").iterdir()
             if os.path.lexists(path) and os.readlink(path).endswith("(deleted)")]
    return sum(path.stat().st_size for path in files)


def test_one_archive_of_a_dump_is_held_at_a_time(monkeypatch: pytest.MonkeyPatch) -> None:
    """Archives that fit together are kept for the second reading; others are fetched again."""
    monkeypatch.setattr(dumps, "MOST_KEPT", 3_000_000)
    sent, before = Sent([1_000_000] * 9), temporary_bytes()
    read = dumps.Dumps(cast(Asking, sent))
    for count in (9, 9 + 7):
        files, held = [], 0
        for archive_of in read.of("http://a.example/dump.xml", None):
            files.append(archive_of.file)
            held = max(held, temporary_bytes() - before)
        assert (sent.count, len(files), [file.fp for file in files]) == (count, 9, [None] * 9)
        assert held < 3_100_000


def test_a_full_folder_of_archives_is_named(monkeypatch: pytest.MonkeyPatch) -> None:
    sent = Sent([1])

    def full(*_: object) -> None:
        raise OSError(errno.ENOSPC, os.strerror(errno.ENOSPC))

    monkeypatch.setattr(sent, "download", full)
    with pytest.raises(Unusable, match="cannot hold the archive http://a.example/0.zip: No space left on device"):
        next(dumps.Dumps(cast(Asking, sent)).of("http://a.example/dump.xml", None))
