"""Disks made from the tables of docs/DISK.md, independent of the program, and the commands of sessions on files.

`DISKS` maps names to functions that return the bytes of a disk: disks that break a rule or keep it up to its limit
(damaged_disks.py; these take changes of fields), disks after commands (commanded_disks.py), sources at a limit
(made_disks.py), and one resource whose record or change is cut or has another byte (one_resource_disks.py).
"""
import os
import pathlib
from collections.abc import Callable

from tests.disks import commanded_disks, damaged_disks, made_disks, one_resource_disks
from tests.reading import disk_reader
from tests.reading.disk_formats import BLOCK

DISKS = {**damaged_disks.DISKS, **commanded_disks.DISKS, **made_disks.DISKS, **one_resource_disks.DISKS}


def disk(room, name, file, *changes):
    """Write a disk with changes.

    After the changes of fields may come `bytes=AT:HEX`, which overwrites bytes without correcting any SHA-256, and
    `size=N`, which cuts the file or extends it with zeros.
    """
    path, after = pathlib.Path(room, file), [change for change in changes if change.startswith(("bytes=", "size="))]
    path.write_bytes(DISKS[name](*(change for change in changes if change not in after)))
    for change in after:
        what, _, value = change.partition("=")
        if what == "size":
            os.truncate(path, int(value))
        else:
            put_bytes(room, file, *value.split(":"))
    return ""


def zeros(room, file, size):
    """Write a file of this many zeros."""
    pathlib.Path(room, file).write_bytes(bytes(int(size)))
    return ""


def put_bytes(room, file, at, text):
    """Overwrite bytes of a file with bytes given in hexadecimal."""
    with open(pathlib.Path(room, file), "r+b") as handle:
        handle.seek(int(at))
        handle.write(bytes.fromhex(text))
    return ""


def shown(room, file, at, length):
    """Return bytes of a file in hexadecimal, in rows of 32 bytes."""
    data = pathlib.Path(room, file).read_bytes()[int(at) : int(at) + int(length)]
    return "".join(data[i : i + 32].hex() + "\n" for i in range(0, len(data), 32))


def differ(room, file, name):
    """Return the blocks in which a file differs from a disk."""
    found, wanted = pathlib.Path(room, file).read_bytes(), DISKS[name]()
    starts = range(0, max(len(found), len(wanted)), BLOCK)
    return "".join(f"block {at // BLOCK}\n" for at in starts if found[at : at + BLOCK] != wanted[at : at + BLOCK])


def pages(room, file):
    """Return the number of items of every page of all lists."""
    source = disk_reader.source_of(pathlib.Path(room, file).read_bytes())
    lists = {name: getattr(source, name) for name in ("catalogue", "changes", "published")}
    return "".join(f"{' '.join([name, *(str(len(page.items)) for page in found)])}\n" for name, found in lists.items())


COMMANDS: dict[str, Callable[..., str]] = {"disk": disk, "zeros": zeros, "pages": pages,
                                          "change": put_bytes, "bytes": shown, "differ": differ}
