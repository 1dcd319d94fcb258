"""Measure the proved program, which `make bench` builds first, and print one line per figure; docs/keepers/BENCH.md
keeps the figures.

  skip    a line of 40,000,000 bytes without an end, compared with `wc -c` on the same pipe
  lists   a Resource List and a Change List of 1,000 entries, compared with Python's xml.etree making the same text
"""
import resource
import subprocess
import sys
import time
import xml.etree.ElementTree as ElementTree
from collections.abc import Callable

from tests.program import PROGRAM

BASE = "http://127.0.0.1:8080"
# The bytes of the disk: room for the resources below, and for their pages twice.
SIZE = 2_097_152


def program(limit: int) -> list[str]:
    """Return the command of the program on a source in memory, with this item limit."""
    return [str(PROGRAM), "mem", str(SIZE), BASE, str(limit)]


def best(times: int, action: Callable[[], object]) -> float:
    """Return the least time of `times` runs."""
    return min(timed(action) for _ in range(times))


def timed(action: Callable[[], object]) -> float:
    """Return the seconds of an action."""
    start = time.perf_counter()
    action()
    return time.perf_counter() - start


def feed(command: list[str], data: bytes) -> None:
    """Run a command with this input."""
    subprocess.run(command, input=data, stdout=subprocess.DEVNULL, check=True)


def skip() -> None:
    """Time an overlong line against `wc -c`."""
    data = b"x" * 40_000_000
    ours = best(7, lambda: feed(program(2), data))
    theirs = best(7, lambda: feed(["wc", "-c"], data))
    peak = resource.getrusage(resource.RUSAGE_CHILDREN).ru_maxrss
    print(f"skip: {ours * 1000:.0f} ms, wc -c {theirs * 1000:.0f} ms, ratio {ours / theirs:.1f}; "
          f"peak of any child {peak // 1024} MiB")


def puts(count: int) -> bytes:
    """Return the lines that put `count` small resources."""
    return "".join(f"put name{i:05d} {i % 256:02x} text/plain\n" for i in range(count)).encode()


def shown(limit: int, front: bytes, paths: list[str], times: int) -> tuple[float, int]:
    """Return the seconds and bytes of showing these paths once, from the difference between many times and none."""
    show = b"".join(f"show {path}\n".encode() for path in paths)
    size = len(subprocess.run(program(limit), input=front + show, capture_output=True, check=True).stdout)
    size -= len(subprocess.run(program(limit), input=front, capture_output=True, check=True).stdout)
    many = best(3, lambda: feed(program(limit), front + show * times))
    none = best(3, lambda: feed(program(limit), front))
    return (many - none) / times, size


def rate(seconds: float, size: int) -> float:
    """Return megabytes per second."""
    return size / seconds / 1e6


def by_etree(text: bytes) -> float:
    """Return the seconds in which xml.etree builds and writes the tree of this document again, entry by entry."""
    rows = ElementTree.fromstring(text)

    def make() -> None:
        fresh = ElementTree.Element(rows.tag)
        for child in rows:
            entry = ElementTree.SubElement(fresh, child.tag, child.attrib)
            for part in child:
                ElementTree.SubElement(entry, part.tag, part.attrib).text = part.text
        ElementTree.tostring(fresh, encoding="UTF-8", xml_declaration=True)

    return best(3, make)


def lists() -> None:
    """Time the lists of 1,000 resources against xml.etree."""
    front = puts(1000) + b"publish\n"
    for path in ["/resourcelist.xml", "/changelist.xml"]:
        seconds, size = shown(4000, front, [path], 2000)
        output = subprocess.run(program(4000), input=front + f"show {path}\n".encode(), capture_output=True,
                                check=True).stdout
        start = output.index(b"<?xml")
        theirs = by_etree(output[start:])
        print(f"lists: {path} {size} bytes, {rate(seconds, size):.0f} MB/s; xml.etree {rate(theirs, size):.0f} MB/s, "
              f"{theirs / seconds:.0f} times")


def main() -> None:
    """Run the named measures, or all."""
    if not PROGRAM.exists():
        sys.exit("build the program first: make build")
    chosen = sys.argv[1:] or ["skip", "lists"]
    for name in chosen:
        {"skip": skip, "lists": lists}[name]()


if __name__ == "__main__":
    main()
