"""Test `ropepeach mirror` of sources of other software: static files in five styles (static_source.py)."""
import dataclasses
import json
import os
import pathlib
import signal

import pytest

from operations.tests.harness.source import FIRST, SECOND, THIRD
from operations.tests.tools.any_mirrored import BARE, FILES, WHOLE, entries, holds, listed, mirrored, place
from operations.tests.tools.running import begun, ended, wait_until
from operations.tests.tools.static_source import STYLES, Static, md, url

pytestmark = pytest.mark.usefixtures("room")

# A style without digests and changes: every run is a baseline, and requests every file.
ASKED = dataclasses.replace(BARE, has_changes=False)


@pytest.mark.parametrize(("name", "compared"), [
    ("resync", "by MD5"), ("dspace", "by MD5"), ("hyrax", "not at all"), ("sitemap", "by SHA-512"),
    ("dumps", "by SHA-256")])
def test_a_source_of_each_style_is_mirrored_and_followed(site: Static, name: str, compared: str) -> None:
    style = STYLES[name]
    site.hold(style, FILES)
    mirrored(site, says="fetched 4 (11 bytes, 0.0 MB a second), removed 0, ")
    holds(site, style, FILES)
    site.statuses()
    documents = 3 if style.has_changes else 2
    output = mirrored(site, says=f"fetched 0 (0 bytes, 0.0 MB a second), removed 0, read {documents} documents")
    assert f"; compared 4 {compared}; " in output
    if style.resources != "/":
        assert site.statuses(style.resources) == {}
    later = FILES | {"a.txt": b"new", "e": b"more"}
    later.pop("c")
    changes = [listed(style, site, "a.txt", "updated", SECOND, b"new"),
               listed(style, site, "c", "deleted", SECOND),
               listed(style, site, "e", "created", THIRD, b"more")]
    # (a Resource List may have entries later than the moment of the last run: they are not read)
    site.hold(style, later | {"b": b"unlisted"} if style.has_changes else later, FIRST, changes)
    site.files.pop(style.resources + "b", None)
    mirrored(site, says=("incremental" if style.has_changes else "baseline") + ": fetched 2 (7 bytes")
    holds(site, style, later)


def test_files_without_digests_are_asked_for_by_their_etag(site: Static) -> None:
    """A changed file is fetched, even if the change was made in the folder."""
    site.hold(ASKED, FILES)
    mirrored(site, says="baseline: fetched 4 ")
    site.statuses()
    mirrored(site, says="baseline: fetched 0 (0 bytes")
    assert site.statuses(ASKED.resources) == dict.fromkeys((ASKED.resources + name for name in FILES), 304)
    site.files[ASKED.resources + "a.txt"] = b"eno"
    mirrored(site, says="baseline: fetched 1 (3 bytes")
    holds(site, ASKED, FILES | {"a.txt": b"eno"})
    path = pathlib.Path("m", place(site, ASKED.resources + "a.txt"))
    path.write_bytes(b"xxx")
    mirrored(site, says="baseline: fetched 1 (3 bytes")
    assert path.read_bytes() == b"eno"


def test_files_are_asked_for_without_a_condition_after_lost_notes(site: Static) -> None:
    site.hold(ASKED, FILES)
    mirrored(site)
    os.remove("m/#known")
    site.statuses()
    mirrored(site, says="baseline: fetched 4 ")
    assert set(site.statuses(ASKED.resources).values()) == {200}


def test_files_without_an_etag_or_a_date_are_fetched_by_every_run(site: Static) -> None:
    site.hold(ASKED, FILES)
    mirrored(site)
    site.statuses()
    site.has_tags = False
    mirrored(site, "--baseline", says="fetched 4 ")
    assert set(site.statuses(ASKED.resources).values()) <= {200, 304}
    site.has_dates = False
    for _ in range(2):
        mirrored(site, "--baseline", says="fetched 4 ")
    holds(site, ASKED, FILES)


def hold_fewer_digests(site: Static) -> None:
    """Serve a Resource List in which `a.txt` has no facts, and `c` only a length."""
    site.hold(WHOLE, FILES)
    text = site.files["/rs/resourcelist.xml"].decode().splitlines(keepends=True)
    text[3] = url(f"{site.base}/data/a.txt", FIRST)
    text[5] = url(f"{site.base}/data/c", FIRST, md(length="0"))
    site.files["/rs/resourcelist.xml"] = "".join(text).encode()


@pytest.mark.parametrize("check", ["length", "md5", "sha-256", "sha-512"])
def test_require_refuses_lists_with_less_before_a_fetch(site: Static, check: str) -> None:
    hold_fewer_digests(site)
    mirrored(site, "--require", check, status=1, says=f"resources are listed with less than --require {check}: ")
    assert not os.path.exists("m")


def test_the_summary_counts_files_by_their_strongest_digest(site: Static) -> None:
    hold_fewer_digests(site)
    mirrored(site, says="compared 2 by SHA-256, 1 by length, 1 not at all; not exact (2 without a digest), "
                        f"as listed at {FIRST}")
    site.hold(WHOLE, FILES)
    mirrored(site, "--baseline", "--require", "sha-256", says=f"compared 4 by SHA-256; exact, as listed at {FIRST}")
    changes = [listed(BARE, site, "../data/a.txt", "updated", SECOND)]
    site.hold(WHOLE, FILES, changes=[change.replace("concern/works/../", "") for change in changes])
    mirrored(site, "--require", "md5", status=1, says="1 resources are listed with less than --require md5")
    mirrored(site, says="compared 3 by SHA-256, 1 not at all; not exact (1 without a digest), "
                        f"as listed at {SECOND}")


def test_other_bytes_than_listed_end_the_run_once_the_rest_is_fetched(site: Static) -> None:
    """The next run is a baseline by the lists of that time."""
    site.hold(WHOLE, FILES)
    site.files["/data/a.txt"] = b"eno"
    mirrored(site, status=1, says="/data/a.txt: has other bytes than listed")
    holds(site, WHOLE, {name: body for name, body in FILES.items() if name != "a.txt"})
    site.files["/data/a.txt"] = b"noe"
    mirrored(site, status=1, says="/data/a.txt: has other bytes than listed")
    assert json.loads(pathlib.Path("m/#state").read_text())["until"] is None
    site.hold(WHOLE, FILES | {"a.txt": b"eno"})
    mirrored(site, says="baseline: fetched 1 (3 bytes")
    holds(site, WHOLE, FILES | {"a.txt": b"eno"})


def test_a_change_list_that_begins_later_or_lost_changes_makes_a_baseline(site: Static) -> None:
    later = FILES | {"a.txt": b"new"}
    site.hold(WHOLE, later, FIRST, [listed(WHOLE, site, "a.txt", "updated", SECOND, b"new")])
    mirrored(site, says=f"as listed at {SECOND}")
    site.hold(WHOLE, later | {"e": b"e"}, THIRD)
    mirrored(site, says="baseline: fetched 1 (1 bytes")
    site.hold(WHOLE, FILES, FIRST)
    mirrored(site, says="baseline: fetched 1 (3 bytes")
    holds(site, WHOLE, FILES)


def test_a_missing_change_list_ends_an_increment_and_no_baseline(site: Static) -> None:
    site.hold(WHOLE, FILES)
    mirrored(site)
    del site.files["/rs/changelist.xml"]
    assert mirrored(site, status=1, says="/rs/changelist.xml: 404") == ""
    mirrored(site, "--baseline", says="the run goes by the Resource List")
    mirrored(site, says="baseline: fetched 0 ")


def test_a_change_list_that_begins_after_the_resource_list_is_not_used(site: Static) -> None:
    """`2012` may be any instant of that year."""
    site.hold(WHOLE, FILES, FIRST, [listed(WHOLE, site, "a.txt", "updated", SECOND, b"new")])
    text = site.files["/rs/resourcelist.xml"]
    site.files["/rs/resourcelist.xml"] = text.replace(f'at="{FIRST}"'.encode(), b'at="2012"')
    output = mirrored(site, "--baseline", says="the run goes by the Resource List")
    assert "as listed at 2012" in output
    holds(site, WHOLE, FILES)


def test_changes_with_the_moment_of_the_last_run_are_not_missed(site: Static) -> None:
    """A resource that was created and deleted at that moment is requested."""
    site.hold(WHOLE, FILES)
    mirrored(site)
    changes = [listed(WHOLE, site, "e", "created", SECOND, b"e")]
    site.hold(WHOLE, FILES, changes=changes)
    site.files["/data/e"] = b"e"
    mirrored(site, says="incremental: fetched 1 ")
    changes = [listed(WHOLE, site, "f", "created", SECOND, b"f"), *changes,
               listed(WHOLE, site, "a.txt", "deleted", SECOND)]
    site.hold(WHOLE, FILES, changes=changes)
    site.files |= {"/data/e": b"e", "/data/f": b"f"}
    mirrored(site, says="incremental: fetched 1 (1 bytes, 0.0 MB a second), removed 1")
    remaining = {name: body for name, body in FILES.items() if name != "a.txt"} | {"f": b"f"}
    holds(site, WHOLE, remaining | {"e": b"e"})
    site.hold(WHOLE, FILES, changes=[*changes, listed(WHOLE, site, "e", "deleted", SECOND)])
    site.files |= {"/data/f": b"f"}
    mirrored(site, says="removed 1")
    holds(site, WHOLE, remaining)


def test_a_run_that_is_killed_ten_times_leaves_whole_files_and_is_resumed(site: Static) -> None:
    count = entries(1_500)
    style = dataclasses.replace(WHOLE, resources="/f/")
    files = {f"{number % 10}/{number}": b"%06d" % number * 100 for number in range(count)}
    site.hold(style, files)
    bodies = {place(site, style.resources + name): body for name, body in files.items()}
    kills = 0
    for _ in range(10):
        run = begun("mirror", site.base, "m")
        wait_until(lambda: run.poll() is not None or len(site.paths("/f/")) > count // 12, "requests")
        run.send_signal(signal.SIGKILL)
        kills += ended(run)[0] == -signal.SIGKILL
        found = {str(path.relative_to("m")): path.read_bytes() for path in pathlib.Path("m").rglob("*")
                 if path.is_file() and "#" not in str(path)}
        assert found.items() <= bodies.items()
        site.requests.clear()
    assert kills >= 3
    mirrored(site, says="exact, as listed at")
    holds(site, style, files)
