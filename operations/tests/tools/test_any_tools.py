"""Test `ropepeach mirror` of a site whose sitemap another program wrote: Sphinx with sphinx-sitemap, served by nginx.

robots.txt names the sitemap, which has neither digests nor moments: a mirror requests every page again, with nginx's
`ETag`.
"""
from __future__ import annotations

import os
import shutil
import subprocess

import pytest

from operations.tests.harness.documents import NAMESPACES
from operations.tests.tools.nginx_site import Site, files_of, mirrored

PYTHON = "/usr/bin/python3"
PACKAGE = "/usr/lib/python3/dist-packages/sphinx_sitemap"
SETTINGS = """project = "pages"
extensions = ["sphinx_sitemap"]
html_baseurl = "{base}/"
sitemap_url_scheme = "{{link}}"
"""
PAGES = {"index": "Home\n====\n\n.. toctree::\n\n   a\n   d/b\n", "a": "A\n=\n\none\n", "d/b": "B\n=\n\ntwo\n"}
PLAIN = '<urlset xmlns="http://www.sitemaps.org/schemas/sitemap/0.9">'
CAPABILITY = '<rs:md capability="resourcelist"/>'


def built(nginx: Site, pages: dict[str, str]) -> dict[str, bytes]:
    """Build these pages and their sitemap by Sphinx; return the files that the sitemap names, by path."""
    source, output = nginx.room / "source", nginx.room / "site"
    shutil.rmtree(source, ignore_errors=True)
    for name, text in {"conf.py": SETTINGS.format(base=nginx.base),
                       **{f"{name}.rst": text for name, text in pages.items()}}.items():
        file = source / name
        file.parent.mkdir(parents=True, exist_ok=True)
        file.write_text(text)
    words = [PYTHON, "-m", "sphinx", "-q", "-d", str(nginx.room / "trees"), "-b", "html", str(source), str(output)]
    subprocess.run(words, check=True, timeout=120, capture_output=True)
    sitemap = (output / "sitemap.xml").read_text()
    paths = [part.partition("</loc>")[0].removeprefix(f"{nginx.base}/") for part in sitemap.split("<loc>")[1:]]
    assert {f"{name}.html" for name in pages} <= {*paths}
    return {path: (output / path).read_bytes() for path in paths}


def named(nginx: Site, has_line: bool) -> None:
    """Add robots.txt, and the line of ResourceSync if the sitemap has it, as the owner of a site does."""
    sitemap = nginx.room / "site/sitemap.xml"
    text = sitemap.read_text()
    assert text.count(PLAIN) == 1
    if has_line:
        sitemap.write_text(text.replace(PLAIN, f"<urlset {NAMESPACES}>{CAPABILITY}"))
    (nginx.room / "site/robots.txt").write_text(f"User-agent: *\nSitemap: {nginx.base}/sitemap.xml\n")


@pytest.mark.needs("nginx")
@pytest.mark.skipif(not os.path.isdir(PACKAGE), reason="there is no python3-sphinx-sitemap here")
@pytest.mark.parametrize("has_line", [False, True], ids=["as Sphinx wrote it", "with the line of ResourceSync"])
def test_a_sitemap_of_sphinx_is_followed(nginx: Site, has_line: bool) -> None:
    """A baseline has every page of the sitemap; later runs fetch only changed pages, and remove others."""

    def run(pages: dict[str, str]) -> None:
        """Build the site, mirror it, and compare all files."""
        files = built(nginx, pages)
        named(nginx, has_line)
        nginx.statuses("/")
        mirrored(nginx.base)
        assert files_of() == files

    run(PAGES)
    nginx.statuses("/")
    assert "fetched 0 (0 bytes" in mirrored(nginx.base)
    assert {status for path, status in nginx.statuses("/").items() if path.endswith(".html")} == {304}
    later = {**PAGES, "a": "A\n=\n\nnew and longer\n"}
    run(later)
    assert nginx.statuses("/")["/a.html"] == 200
    del later["d/b"]
    (nginx.room / "site/d/b.html").unlink()
    run(later)
