"""Test `ropepeach mirror` of sources in five styles, served by nginx with real `ETag`, `Last-Modified`, ranges and
gzip.

The files imitate the output of the programs, from memory (static_source.py).
"""
from __future__ import annotations

import dataclasses
import signal
import time

import pytest

from operations.tests.harness.documents import NAMESPACES
from operations.tests.harness.source import FIRST, SECOND, THIRD
from operations.tests.tools import running
from operations.tests.tools.any_mirrored import entries
from operations.tests.tools.nginx_site import Site, files_of, mirrored
from operations.tests.tools.running import begun, ropepeach, wait_until
from operations.tests.tools.static_source import STYLES, Style, facts, lists_of, md, url, urlset

pytestmark = pytest.mark.needs("nginx")

SEVERAL = ("--connections", "4")
FILES = {"a.txt": b"one", "d/b": b"two" * 500, "c": b"", "e%20f": b"three", "g/h/i": b"four"}
# Seconds for all runs on a large source.
LONGEST = 1_200


def changed(style: Style, base: str) -> tuple[dict[str, bytes], dict[str, bytes]]:
    """Return later files of a source, with its documents and files at that time."""
    later = FILES | {"a.txt": b"new and longer", "j": b"more"}
    later.pop("c")
    new = facts(style, later["a.txt"], change="updated", datetime=SECOND)
    changes = [url(f"{base}{style.resources}a.txt", SECOND, new),
               url(f"{base}{style.resources}c", "", md(change="deleted", datetime=SECOND)),
               url(f"{base}{style.resources}j", THIRD, facts(style, b"more", change="created", datetime=THIRD))]
    return later, lists_of(style, base, later, FIRST, changes)


@pytest.mark.parametrize("name", STYLES)
def test_a_source_of_each_style_is_mirrored_and_followed(nginx: Site, name: str) -> None:
    """A mirror follows sources of every style; with --dumps it uses dumps."""
    style = STYLES[name]
    front = style.resources.lstrip("/")
    nginx.hold(lists_of(style, nginx.base, FILES))
    mirrored(nginx.base)
    assert files_of() == {f"{front}{name}": body for name, body in FILES.items()}
    assert "fetched 0 (0 bytes" in mirrored(nginx.base)
    nginx.statuses("/")
    later, texts = changed(style, nginx.base)
    nginx.hold(texts)
    nginx.remove(f"{style.resources}c")
    mirrored(nginx.base)
    held = {f"{front}{name}": body for name, body in later.items()}
    assert files_of() == held
    asked = {path.removeprefix(style.resources): status for path, status in nginx.statuses(style.resources).items()}
    assert {name: status for name, status in asked.items() if name in later} == {"a.txt": 200, "j": 200}
    assert ropepeach("check", "m")[0] == 0
    if style.has_dump:
        mirrored(nginx.base, "--dumps", into="d")
        assert files_of("d") == held
        assert nginx.statuses(style.resources) == {}


def large(base: str, bodies: dict[str, bytes], style: Style) -> dict[str, bytes]:
    """Return the documents of a source of many resources: an index of lists."""
    texts, names = lists_of(style, base, {}), list(bodies)
    head, parts = f'<rs:md capability="resourcelist" at="{FIRST}"/>', list[str]()
    for number, first in enumerate(range(0, len(names), 20_000)):
        listed = [url(f"{base}{style.resources}{name}", FIRST, facts(style, bodies[name]))
                   for name in names[first:first + 20_000]]
        texts[f"/part{number}.xml"] = urlset(head, listed)
        parts.append(f"<sitemap><loc>{base}/part{number}.xml</loc></sitemap>")
    index = f'<?xml version="1.0"?><sitemapindex {NAMESPACES}>{head}{"".join(parts)}</sitemapindex>'
    return texts | {f"{style.lists}resourcelist.xml": index.encode()}


def killed(nginx: Site, count: int) -> int:
    """Kill a run after this many requests for files; return the number of sent bodies."""
    run, log = begun("mirror", nginx.base, "m", *SEVERAL), nginx.room / "log"
    wait_until(lambda: run.poll() is not None or log.stat().st_size >= 70 * count, "requests")
    run.send_signal(signal.SIGKILL)
    run.communicate()
    return sum(status == 200 for status in nginx.statuses("/f/").values())


@pytest.mark.timeout(LONGEST + 60)
@pytest.mark.parametrize(("name", "most"), [("dumps", 1.5), ("hyrax", 6)], ids=["with digests", "without digests"])
def test_runs_that_are_killed_ten_times_ask_again_for_few_files(
        nginx: Site, monkeypatch: pytest.MonkeyPatch, name: str, most: float) -> None:
    """A killed run's files without a written row are requested again; the last run has all files."""
    monkeypatch.setattr(running, "SECONDS", LONGEST)
    style = dataclasses.replace(STYLES[name], resources="/f/", has_dump=False)
    bodies = {f"{number % 97}/{number}": b"%07d" % number * 9 for number in range(entries(2_000))}
    nginx.hold(large(nginx.base, bodies, style) | {f"/f/{name}": body for name, body in bodies.items()})
    started = time.monotonic()
    sent = sum(killed(nginx, len(bodies) // 11) for _ in range(10))
    last = mirrored(nginx.base, *SEVERAL)
    sent += sum(status == 200 for status in nginx.statuses("/f/").values())
    seconds = time.monotonic() - started
    print(f"{len(bodies):,} entries, killed ten times: {sent:,} bodies were sent, {seconds:.0f} seconds; {last}")
    assert files_of() == {f"f/{name}": body for name, body in bodies.items()}
    assert sent < most * len(bodies) + 30_000
    assert seconds < LONGEST
