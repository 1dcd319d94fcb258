"""Time a Resource List of 1,000 and of 10,000 resources of 4 KiB, and examine the result of a kill while it is written.

  the program    publishes its resources, and shows all parts of the list. Lengths and digests were recorded when the
                 resources were put, so no body is read: the disk has bodies of three bytes (paged_disk.py), and its
                 list has as many entries.
  the stand-in   is a simple generator of static files in Python: it reads every file of a folder, takes its length, MD5
                 and SHA-256, and writes the list with xml.etree. It is no existing program; it shows the least work of
                 a generator. It writes in place, or to another file that it renames.

Both are then killed (kill -9) KILLS times while they replace an old list by a new one, and the result is examined: a
whole list, old or new, or something else. The program is killed at random moments; the stand-in, which reads and hashes
for most of its time, once its file has another length.

usage: python3 -m bench.lists [PROGRAM] [--seed N]     default: the built program
ROOM in the environment is the folder for the files.
"""
import argparse
import hashlib
import os
import random
import subprocess
import sys
import tempfile
import time
import xml.etree.ElementTree as ElementTree
from collections.abc import Callable
from pathlib import Path

from tests.disks.paged_disk import spelled
from tests.program import PROGRAM

COUNTS, LIMIT, SIZE, KILLS, TIMES = (1_000, 10_000), 4_000, 4_096, 20, 5
SITEMAP, RS = "http://www.sitemaps.org/schemas/sitemap/0.9", "http://www.openarchives.org/rs/terms/"
SECONDS = 120


def parts(count: int, number: int) -> list[str]:
    """Return the paths of the Resource List of a publication: the list, or its index and its parts."""
    cut = [f"/resourcelist/{number}/{k}.xml" for k in range(-(-count // LIMIT))]
    return ["/resourcelist.xml", *(cut if count > LIMIT else [])]


def output_of(program: str, file: Path, lines: list[str]) -> bytes:
    """Return the output of a script of these lines."""
    script = "".join(f"{line}\n" for line in lines).encode()
    return subprocess.run([program, "run", file], input=script, capture_output=True, check=True, timeout=SECONDS).stdout


def timed(action: Callable[[], object]) -> float:
    """Return the seconds of an action."""
    start = time.perf_counter()
    action()
    return time.perf_counter() - start


def best(action: Callable[[int], object]) -> float:
    """Return the least time of some runs; the action gets the number of the run."""
    return min(timed(lambda: action(number)) for number in range(TIMES))


def number_of(program: str, file: Path) -> int:
    """Return the number of the last publication."""
    return int(output_of(program, file, ["status"]).split()[5])


def published(program: str, file: Path, count: int) -> None:
    """Publish, and show the whole list."""
    number = number_of(program, file) + 1
    output = output_of(program, file, ["publish", *(f"show {path}" for path in parts(count, number))])
    assert output.count(b"<url>") == count, output[:200]


def stand_in(folder: str | Path, target: str | Path, is_renamed: bool) -> None:
    """Write the Resource List of a folder's files."""
    ElementTree.register_namespace("", SITEMAP)
    ElementTree.register_namespace("rs", RS)
    root = ElementTree.Element(f"{{{SITEMAP}}}urlset")
    ElementTree.SubElement(root, f"{{{RS}}}md", capability="resourcelist", at="2000-02-29T00:00:00.000Z")
    for path in sorted(Path(folder).iterdir()):
        body, url = path.read_bytes(), ElementTree.SubElement(root, f"{{{SITEMAP}}}url")
        ElementTree.SubElement(url, f"{{{SITEMAP}}}loc").text = f"http://127.0.0.1:8080/resource/{path.name}"
        digests = f"md5:{hashlib.md5(body).hexdigest()} sha-256:{hashlib.sha256(body).hexdigest()}"
        ElementTree.SubElement(url, f"{{{RS}}}md", hash=digests, length=str(len(body)))
    with open(f"{target}.new" if is_renamed else target, "wb") as file:
        ElementTree.ElementTree(root).write(file, encoding="UTF-8", xml_declaration=True)
        file.flush()
        os.fsync(file.fileno())
    if is_renamed:
        os.replace(f"{target}.new", target)


def fill(folder: Path, count: int) -> None:
    """Make a folder of `count` files."""
    folder.mkdir()
    for number in range(count):
        (folder / f"name{number:05d}").write_bytes(f"{number:05d}".encode() * (SIZE // 5 + 1))


def killed(words: list[str | Path], data: bytes, span: float, rng: random.Random) -> None:
    """Start a program with this input, and kill it within `span` seconds."""
    with subprocess.Popen(words, stdin=subprocess.PIPE, stdout=subprocess.DEVNULL,
                          stderr=subprocess.DEVNULL) as process:
        assert process.stdin
        process.stdin.write(data)
        process.stdin.flush()
        time.sleep(rng.random() * span)
        process.kill()


def kills_of_the_program(program: str, file: Path, count: int, span: float, rng: random.Random) -> str:
    """Count the results served after kills: whole lists of the publication in front, or of a later one."""
    whole = new = 0
    for _ in range(KILLS):
        before = number_of(program, file)
        killed([program, "run", file], b"publish\n" * 100, span, rng)
        number = number_of(program, file)
        paths = parts(count, number)
        output = output_of(program, file, [f"show {path}" for path in paths])
        whole += output.count(b"<url>") == count and output.count(b"</urlset>") == max(1, len(paths) - 1)
        new += number > before
    return f"{whole} of {KILLS} whole, {new} of them new"


def killed_at_its_write(words: list[str], target: Path) -> None:
    """Start a program, and kill it once a file has another length than before, or let it end."""
    size = os.stat(target).st_size
    with subprocess.Popen(words) as process:
        while process.poll() is None and os.stat(target).st_size == size:
            time.sleep(0.0002)
        process.kill()


def kills_of_the_stand_in(folder: Path, target: Path, count: int, is_renamed: bool) -> str:
    """Count the states of the file after kills."""
    own = ["--stand-in", str(folder), str(target), str(int(is_renamed))]
    words, whole = [sys.executable, "-m", "bench.lists", *own], 0
    stand_in(folder, target, True)
    old = Path(target).read_bytes()
    for _ in range(KILLS):
        Path(target).write_bytes(old)
        killed_at_its_write(words, target)
        try:
            whole += len(ElementTree.parse(target).findall(f"{{{SITEMAP}}}url")) == count
        except ElementTree.ParseError:
            pass
    return f"{whole} of {KILLS} whole"


def measure(program: str, room: Path, count: int, rng: random.Random) -> None:
    """Measure both, with `count` resources or files."""
    file, folder, target = room / f"{count}.disk", room / f"files{count}", room / f"{count}.xml"
    file.write_bytes(spelled(count, count))
    fill(folder, count)
    ours, theirs = best(lambda _: published(program, file, count)), best(lambda _: stand_in(folder, target, True))
    line = f"the program, from its start, {ours * 1000:.0f} ms; the stand-in, once started, {theirs * 1000:.0f} ms"
    print(f"{count:,}: {line}")
    print(f"{count:,}: killed, the program: {kills_of_the_program(program, file, count, ours, rng)}", flush=True)
    for is_renamed, way in ((False, "in place"), (True, "renamed")):
        found = kills_of_the_stand_in(folder, target, count, is_renamed)
        print(f"{count:,}: killed, the stand-in that writes {way}: {found}", flush=True)


def main() -> None:
    """Measure all counts, or run as the stand-in."""
    if sys.argv[1:2] == ["--stand-in"]:
        return stand_in(sys.argv[2], sys.argv[3], sys.argv[4] == "1")
    words = argparse.ArgumentParser(usage="python3 -m bench.lists [PROGRAM] [--seed N]")
    words.add_argument("program", nargs="?", default=PROGRAM)
    words.add_argument("--seed", type=int, default=20261125)
    options = words.parse_args()
    with tempfile.TemporaryDirectory(prefix="lists-", dir=os.environ.get("ROOM")) as room:
        for count in COUNTS:
            measure(os.path.abspath(options.program), Path(room), count, random.Random(options.seed))


if __name__ == "__main__":
    main()
