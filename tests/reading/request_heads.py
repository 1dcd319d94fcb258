"""The grammar of a request's head: the bytes that the crate httparse, version 1, accepts in its default configuration.

docs/HTTP.md defines "the head does not parse" by that crate alone. This grammar is independent of the crate and of the
program: empty lines in front, the classes of bytes, the single space between the parts of the first line, the two line
endings, and the rejected forms (a folded line, a space before a colon, a bare CR).
"""
import collections
import re

# `minor` is 0 or 1. A field is a name and its value, without spaces and tabs at its ends.
Head = collections.namedtuple("Head", "method target minor fields")
TOKEN = rb"[!#$%&'*+\-.^_`|~0-9A-Za-z]+"
# Any byte except the space, those below it, and DEL.
TARGET = rb"[\x21-\x7e\x80-\xff]+"
# The same bytes, and spaces and tabs.
VALUE = rb"[\t\x20-\x7e\x80-\xff]*"
END = rb"\r?\n"
FIRST = re.compile(rb"(?:" + END + rb")*(" + TOKEN + rb") (" + TARGET + rb") HTTP/1\.([01])" + END)
FIELD = re.compile(rb"(" + TOKEN + rb"):(" + VALUE + rb")" + END)
EMPTY = re.compile(END)


def is_text(data):
    """Return whether the bytes are UTF-8, as a target must be."""
    try:
        data.decode()
    except UnicodeDecodeError:
        return False
    return True


def head_of(data):
    """Parse all of these bytes as one head; return None if they are not a head."""
    first = FIRST.match(data)
    if not first or not is_text(first[2]):
        return None
    at, fields = first.end(), []
    while field := FIELD.match(data, at):
        fields.append((field[1], field[2].strip(b" \t")))
        at = field.end()
    return Head(first[1], first[2], int(first[3]), fields) if EMPTY.fullmatch(data, at) else None
