"""Time an existing sitemap generator, jekyll-sitemap, for comparison with the program, and examine the result of a kill
during its run.

jekyll with the plugin jekyll-sitemap (Debian: jekyll, ruby-jekyll-sitemap) builds a site of COUNTS pages of 4 KiB, as
files for a web server. The output is the time of a run, and the state after KILLS runs that are killed (kill -9) at
random moments, each after half of the files were replaced by as many others:

  lists what is served   the sitemap names exactly the existing files
  lists what is gone     it names a missing file: a mirror requests it in vain
  leaves out             it omits an existing file: a mirror never requests it
  no sitemap             there is none, or none that a reader accepts

A sitemap has no digests, so the content of files is not checked.

usage: python3 -m bench.sitemaps [--seed N]
ROOM in the environment is the folder for the files.
"""
import argparse
import os
import random
import shutil
import subprocess
import tempfile
import time
import xml.etree.ElementTree as ElementTree
from pathlib import Path

COUNTS, KILLS, TIMES = (1_000, 10_000), 20, 3
LOC = "{http://www.sitemaps.org/schemas/sitemap/0.9}loc"
BASE = "http://127.0.0.1:8080/"


def fill(site: Path, first: int, count: int) -> None:
    """Make the site hold exactly the files of these numbers."""
    for old in site.glob("*.html"):
        old.unlink()
    for number in range(first, first + count):
        (site / f"name{number:05d}.html").write_bytes(f"{number:05d}".encode() * (4_096 // 5 + 1))


def words(site: Path, out: Path) -> list[str]:
    """Return the command that builds a site."""
    return ["jekyll", "build", "--quiet", "-s", str(site), "-d", str(out)]


def built(site: Path, out: Path) -> float:
    """Return the seconds of a run."""
    start = time.perf_counter()
    subprocess.run(words(site, out), check=True)
    return time.perf_counter() - start


def killed(site: Path, out: Path, seconds: float) -> None:
    """Start a run, and kill it after `seconds` seconds."""
    with subprocess.Popen(words(site, out), stdout=subprocess.DEVNULL, stderr=subprocess.DEVNULL) as process:
        time.sleep(seconds)
        process.kill()


def judged(out: Path) -> str:
    """Return the state that a mirror finds."""
    try:
        places = [place.text or "" for place in ElementTree.parse(out / "sitemap.xml").iter(LOC)]
        listed = {place.removeprefix(BASE) for place in places}
    except (OSError, ElementTree.ParseError):
        return "no sitemap"
    there = {page.name for page in out.glob("*.html")}
    if listed == there:
        return "lists what is served"
    return "lists what is gone" if listed - there else "leaves out"


def measure(room: Path, count: int, rng: random.Random) -> None:
    """Time runs with `count` pages, and count the states after killed runs."""
    site, out, old = room / f"site{count}", room / f"out{count}", room / f"old{count}"
    site.mkdir()
    (site / "_config.yml").write_text(f"url: {BASE[:-1]}\nplugins: [jekyll-sitemap]\n")
    fill(site, 0, count)
    span = min(built(site, out) for _ in range(TIMES))
    print(f"{count:,}: a run, from its start, {span * 1000:.0f} ms", flush=True)
    shutil.copytree(out, old)
    fill(site, count // 2, count)
    found: dict[str, int] = {}
    for _ in range(KILLS):
        shutil.rmtree(out)
        shutil.copytree(old, out)
        killed(site, out, rng.random() * span)
        state = judged(out)
        found[state] = found.get(state, 0) + 1
    states = ", ".join(f"{state} {n} of {KILLS}" for state, n in sorted(found.items()))
    print(f"{count:,}: killed: {states}", flush=True)


def main() -> None:
    """Measure each count."""
    parser = argparse.ArgumentParser(usage="python3 -m bench.sitemaps [--seed N]")
    parser.add_argument("--seed", type=int, default=20261125)
    seed = parser.parse_args().seed
    print(subprocess.run(["jekyll", "--version"], capture_output=True, text=True, check=True).stdout.strip())
    with tempfile.TemporaryDirectory(prefix="sitemaps-", dir=os.environ.get("ROOM")) as room:
        for count in COUNTS:
            measure(Path(room), count, random.Random(seed))


if __name__ == "__main__":
    main()
