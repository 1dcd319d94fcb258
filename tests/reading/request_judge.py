"""The exact response to a request, by the tables of docs/HTTP.md, independent of the program.

request_heads.py decides whether a head parses, and front_model.py how a source answers.
"""
import datetime
import email.utils
import re

from tests.reading import line_judge, request_heads
from tests.reading.disk_judge import LONGEST_BODY
from tests.reading.front_model import RESOURCE, Refused, is_document, name_of, type_of

MOST_BYTES, MOST_FIELDS = 8_192, 32
END = re.compile(rb"\n\r?\n")
LENGTH = re.compile(rb"[0-9]{1,18}")
SCHEME = re.compile(rb"https?://[^/]*", re.IGNORECASE)
OF_RESOURCES, OF_DOCUMENTS, OF_PUBLISH = ["GET", "HEAD", "PUT", "DELETE"], ["GET", "HEAD"], ["POST"]
CONTINUE = b"HTTP/1.1 100 Continue\r\n\r\n"
REASONS = {
    200: "OK",
    201: "Created",
    204: "No Content",
    400: "Bad Request",
    404: "Not Found",
    405: "Method Not Allowed",
    411: "Length Required",
    413: "Content Too Large",
    431: "Request Header Fields Too Large",
    500: "Internal Server Error",
    501: "Not Implemented",
    503: "Service Unavailable",
    507: "Insufficient Storage",
}
STATUSES = {
    431: ["HeadTooLong", "ManyFields"],
    400: ["BadHead", "BadHost", "BadLength", "BadName", "BadType", "ShortBody", "BadLine", "BadHex", "BadGroup"],
    404: ["NoSuchDocument", "NotHeld"],
    405: ["BadMethod"],
    411: ["NoLength"],
    413: ["TooLong"],
    500: ["Exhausted"],
    501: ["TransferEncoding"],
    507: ["TooManyResources", "TooManyChanges", "Full"],
}
STATUS_OF = {word: status for status, words in STATUSES.items() for word in words}


def date_of(moment):
    """Return a moment as an HTTP date (RFC 9110, section 5.6.7), in whole seconds."""
    time = datetime.datetime(1970, 1, 1, tzinfo=datetime.timezone.utc) + datetime.timedelta(seconds=moment // 1_000)
    return email.utils.format_datetime(time, usegmt=True)


def response(status, date, kind, body, allowed=(), is_head=False):
    """Return the bytes of a response. It has a type and a length only if its status allows a body."""
    lines = [f"HTTP/1.1 {status} {REASONS[status]}", f"Date: {date}", "Connection: close"]
    lines += [f"Allow: {', '.join(allowed)}"] if allowed else []
    lines += [f"Content-Type: {kind}"] if status not in (201, 204) else []
    lines += [f"Content-Length: {len(body)}"] if status != 204 else []
    return "".join(f"{line}\r\n" for line in [*lines, ""]).encode() + (b"" if is_head else body)


def head_within(sent):
    """Return the bytes of the head, which ends at the first empty line, and the bytes after it."""
    end = END.search(sent, 0, MOST_BYTES)
    if not end:
        raise Refused("HeadTooLong" if len(sent) >= MOST_BYTES else "BadHead")
    return sent[: end.end()], sent[end.end() :]


class Request:
    """A head that parses, and the bytes after it."""

    def __init__(self, head, rest):
        self.method, self.minor, self.rest, self.fields = head.method.decode(), head.minor, rest, head.fields
        self.path = SCHEME.sub(b"", head.target, count=1) or b"/" if SCHEME.match(head.target) else head.target

    def values(self, name):
        """Return the values of all fields of this name."""
        return [value for field, value in self.fields if field.lower() == name]

    def length(self):
        """Return the value of Content-Length, or None."""
        found = self.values(b"content-length")
        if len(found) > 1 or found and not LENGTH.fullmatch(found[0]):
            raise Refused("BadLength")
        return int(found[0]) if found else None

    def kind(self):
        """Return the value of Content-Type, or the default type."""
        found = self.values(b"content-type")
        if len(found) > 1:
            raise Refused("BadType")
        return type_of(found[0]) if found else "application/octet-stream"

    def waits(self, length):
        """Return whether the client waits for `100 Continue`."""
        is_asked = b"100-continue" in [value.lower() for value in self.values(b"expect")]
        return is_asked and self.minor == 1 and length > 0

    def look(self):
        """Refuse the request for causes that do not depend on its path."""
        if len(self.fields) > MOST_FIELDS:
            raise Refused("ManyFields")
        hosts = len(self.values(b"host"))
        if hosts > 1 or hosts == 0 and self.minor == 1:
            raise Refused("BadHost")
        if self.values(b"transfer-encoding"):
            raise Refused("TransferEncoding")
        self.length()

    def allowed(self):
        """Return the methods that the path allows."""
        if self.path.startswith(RESOURCE):
            name_of(self.path[len(RESOURCE) :])
            return OF_RESOURCES
        if self.path in (b"/publish", b"/group"):
            return OF_PUBLISH
        if not is_document(self.path):
            raise Refused("NoSuchDocument")
        return OF_DOCUMENTS


class Judge:
    """Answers requests to a source, one per connection."""

    def __init__(self, source):
        self.source = source

    def answer(self, sent, now):
        """Return the response to these bytes at a moment. The client ends its side after them."""
        if not sent:
            return b""
        date, request, allowed = date_of(now), None, ()
        try:
            head, rest = head_within(sent)
            parsed = request_heads.head_of(head)
            if parsed is None:
                raise Refused("BadHead")
            request = Request(parsed, rest)
            request.look()
            methods = request.allowed()
            if request.method not in methods:
                allowed = methods
                raise Refused("BadMethod")
            if request.method == "PUT":
                return self.put(request, date, now)
            if request.path == b"/group":
                return self.group(request, date, now)
            return response(*self.answer_parts(request, date, now), is_head=request.method == "HEAD")
        except Refused as refusal:
            is_head = request is not None and request.method == "HEAD"
            return response(STATUS_OF[refusal.word], date, "text/plain", f"{refusal.word}\n".encode(), allowed, is_head)

    def answer_parts(self, request, date, now):
        """Return the status, the date, the type and the body of the response to a request without a body."""
        if request.method == "POST":
            return 200, date, "text/plain", self.source.publish(now).encode() + b"\n"
        if not request.path.startswith(RESOURCE):
            return 200, date, "application/xml", self.source.document(request.path)
        name = request.path[len(RESOURCE) :].decode()
        if request.method == "DELETE":
            self.source.delete(name, now)
            return 204, date, "", b""
        body, kind = self.source.resource(name)
        return 200, date, kind, body

    def group(self, request, date, now):
        """Return the response to a group, with `100 Continue` before its body is read."""
        length = request.length()
        if length is None:
            raise Refused("NoLength")
        if length > LONGEST_BODY:
            raise Refused("TooLong")
        before = CONTINUE if request.waits(length) else b""
        try:
            if len(request.rest) < length:
                raise Refused("ShortBody")
            items = [line_judge.item_of(line) for line in line_judge.lines_of(request.rest[:length])]
            return before + response(200, date, "text/plain", self.source.group(items, now).encode() + b"\n")
        except Refused as refusal:
            return before + response(STATUS_OF[refusal.word], date, "text/plain", f"{refusal.word}\n".encode())

    def put(self, request, date, now):
        """Return the response to a PUT, with `100 Continue` before the source is asked."""
        name, length = request.path[len(RESOURCE) :].decode(), request.length()
        if length is None:
            raise Refused("NoLength")
        kind = request.kind()
        if length > LONGEST_BODY:
            raise Refused("TooLong")
        before = CONTINUE if request.waits(length) else b""
        body = request.rest[:length] if len(request.rest) >= length else None
        try:
            is_new = self.source.put(name, kind, length, body, now).startswith("created")
            return before + response(201 if is_new else 204, date, "", b"")
        except Refused as refusal:
            return before + response(STATUS_OF[refusal.word], date, "text/plain", f"{refusal.word}\n".encode())
