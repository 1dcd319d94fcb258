"""The formats of docs/DISK.md, independent of the program: the fields of each by name, in order."""
import hashlib

BLOCK = 512
# The written version, and its predecessor, whose directories record no dropped changes.
VERSION, OLD_VERSION = 2, 1
BASE = b"http://127.0.0.1:8080"
RECORDS, CHANGES = 1, 2
CREATED, UPDATED, DELETED = 1, 2, 3


def sha256(data):
    """Return the SHA-256 of some data."""
    return hashlib.sha256(data).digest()


def number(value, size=4):
    """Return a big-endian number of this many bytes."""
    return value.to_bytes(size, "big")


def spelled(fields):
    """Return the bytes of some fields."""
    return b"".join(fields.values())


def extent_fields(first, length):
    """Return the fields of an extent for this many bytes: block 0 and no blocks for no bytes."""
    blocks = (length + BLOCK - 1) // BLOCK
    return {"first": number(first if blocks else 0), "blocks": number(blocks)}


def short_fields(name, text):
    """Return the fields of a text with a length byte in front."""
    return {f"{name}_length": number(len(text), 1), name: text}


def body_fields(kind, body):
    """Return the fields of a body's facts."""
    return {
        **short_fields("type", kind),
        "length": number(len(body)),
        "md5": hashlib.md5(body).digest(),
        "sha256": sha256(body),
    }


def record_fields(name, body, moment, first, kind=b"text/plain"):
    """Return the fields of a resource whose body starts in block `first`."""
    head = {**short_fields("name", name), **body_fields(kind, body)}
    return {**head, "moment": number(moment, 8), **extent_fields(first, len(body))}


def change_fields(what, name, moment, body=b"", kind=b"text/plain"):
    """Return the fields of a change."""
    head = {"what": number(what, 1), **short_fields("name", name), "moment": number(moment, 8)}
    return head if what == DELETED else {**head, **body_fields(kind, body)}


def page_fields(kind, items):
    """Return the fields of a page of these items, by the name of the item."""
    fields = {"kind": number(kind, 1), "count": number(len(items))}
    for name, item in items.items():
        fields.update({f"{name}.{field}": value for field, value in item.items()})
    return fields


def entry_fields(first, data):
    """Return the fields of a page's entry in the directory."""
    return {**extent_fields(first, len(data)), "length": number(len(data)), "sha256": sha256(data)}


def header_fields(last, publication=0, at=0, limit=2, base=BASE, start=0, first=0, begin=None, version=VERSION):
    """Return the fields of a directory's header. By default the kept changes begin at the start."""
    head = {"limit": number(limit, 2), **short_fields("base", base), "start": number(start, 8)}
    head |= {"last": number(last, 8), "publication": number(publication, 8), "at": number(at, 8)}
    bounds = {"first": number(first, 8), "begin": number(start if begin is None else begin, 8)}
    return head if version == OLD_VERSION else {**head, **bounds}


def slot_fields(gate, generation, first, data, version=VERSION):
    """Return the fields of a slot that points to a directory."""
    head = {"gate": number(gate, 1), "version": number(version, 1), "generation": number(generation, 8)}
    return {**head, **entry_fields(first, data)}


def over(disk, parts):
    """Overwrite a disk with these parts, from the first block of each on; a later part overwrites an earlier one.

    Bytes past the end of the disk are left out.
    """
    disk = bytearray(disk)
    for first, data in parts:
        at = min(first * BLOCK, len(disk))
        disk[at : at + len(data)] = data[: len(disk) - at]
    return bytes(disk)


def laid_out(blocks, parts):
    """Return a disk of this many blocks with these parts, and zeros elsewhere."""
    return over(bytes(blocks * BLOCK), parts)
