"""The answers to the lines of a script, by the tables of docs/SCRIPT.md, independent of the program."""
import re

from tests.reading.disk_judge import LAST_MOMENT
from tests.reading.front_model import MOST_GROUPED, RESOURCE, Refused, name_of, type_of

LONGEST_LINE = 33_600_000
DIGITS = re.compile(rb"[0-9]{1,15}")
COUNT = re.compile(rb"[0-9]{1,2}")
HEXADECIMAL = re.compile(rb"[0-9A-Fa-f]+")
# The number of fields in a line that begins with this word; the last field of a `put` is the rest of its line.
FIELDS = {b"at": 2, b"put": 4, b"delete": 2, b"publish": 1, b"show": 2, b"status": 1, b"verify": 1, b"group": 2}


def lines_of(script):
    """Return the lines of a script. A line ends with LF, or CR and LF, or at the end of the input."""
    *ended, rest = script.split(b"\n")
    lines = [line[:-1] if line.endswith(b"\r") else line for line in ended]
    return [*lines, rest] if rest else lines


def fields_of(line):
    """Return the fields of a line, cut at single spaces into as many fields as its word has."""
    word = line.split(b" ", 1)[0]
    count = FIELDS.get(word, 0)
    fields = line.split(b" ", count - 1) if word == b"put" else line.split(b" ", count)
    if len(fields) != count:
        raise Refused("BadLine")
    return fields


def body_of(text):
    """Return the bytes of a hexadecimal body, or refuse it."""
    if text == b"-":
        return b""
    if len(text) % 2 or not HEXADECIMAL.fullmatch(text):
        raise Refused("BadHex")
    return bytes.fromhex(text.decode())


def item_of(line):
    """Return the item in a line of a group: a name, and for a put also its type and its body."""
    if len(line) > LONGEST_LINE:
        raise Refused("LongLine")
    word, *fields = fields_of(line)
    if word == b"delete":
        return (name_of(*fields),)
    if word != b"put":
        raise Refused("BadLine")
    name, body, kind = name_of(fields[0]), body_of(fields[1]), type_of(fields[2])
    return name, kind, body


class Judge:
    """Answers lines in order."""

    def __init__(self, source):
        self.source, self.now = source, 0
        # The number of missing lines of a group, the items so far, and the first fault in its lines.
        self.remaining, self.items, self.fault = 0, [], None

    def answer(self, line):
        """Return the answer to a line, with LF at its end. The last line of a group gets the answer to the group."""
        if self.remaining:
            return self.taken(line)
        try:
            answer = self.accepted(line)
            return b"" if answer is None else answer + b"\n"
        except Refused as refusal:
            return f"refused {refusal.word}\n".encode()

    def end(self):
        """Return the answer to a group that the end of the input cuts."""
        is_cut, self.remaining = self.remaining > 0, 0
        return b"refused BadGroup\n" if is_cut else b""

    def group(self, text):
        """Begin a group of this many lines."""
        if not COUNT.fullmatch(text) or not 1 <= int(text) <= MOST_GROUPED:
            raise Refused("BadGroup")
        self.remaining, self.items, self.fault = int(text), [], None

    def taken(self, line):
        """Return the answer to a line of a group."""
        self.remaining -= 1
        try:
            self.items.append(item_of(line))
        except Refused as refusal:
            self.fault = self.fault or refusal
        return b"" if self.remaining else self.grouped()

    def grouped(self):
        """Return the answer to a complete group."""
        try:
            if self.fault:
                raise self.fault
            return self.source.group(self.items, self.now).encode() + b"\n"
        except Refused as refusal:
            return f"refused {refusal.word}\n".encode()

    def accepted(self, line):
        """Return the answer to a line, or refuse it."""
        if len(line) > LONGEST_LINE:
            raise Refused("LongLine")
        word, *fields = fields_of(line)
        return getattr(self, word.decode())(*fields)

    def at(self, text):
        """Return the answer to a line that sets the time."""
        if not DIGITS.fullmatch(text) or int(text) > LAST_MOMENT:
            raise Refused("BadMoment")
        self.now = int(text)
        return b"ok"

    def put(self, name, text, kind):
        """Return the answer to a put."""
        name, body, kind = name_of(name), body_of(text), type_of(kind)
        return self.source.put(name, kind, len(body), body, self.now).encode()

    def delete(self, name):
        """Return the answer to a delete."""
        return self.source.delete(name_of(name), self.now).encode()

    def publish(self):
        """Return the answer to a publication."""
        return self.source.publish(self.now).encode()

    def show(self, path):
        """Return the answer to `show`."""
        if path.startswith(RESOURCE):
            data, _ = self.source.resource(name_of(path[len(RESOURCE) :]))
        else:
            data = self.source.document(path)
        return b"bytes %d\n%s" % (len(data), data)

    def status(self):
        """Return the answer to `status`."""
        return self.source.state.status().rstrip(b"\n")

    def verify(self):
        """Return the answer to `verify`."""
        return b"verified %d" % len(self.source.state.held)
