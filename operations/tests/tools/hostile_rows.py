"""List lies of a source in one response, and run the command within limits (test_hostile.py, test_any_hostile.py)."""
from __future__ import annotations

import gzip
import hashlib
import os
import pathlib
import re
import resource
import subprocess
from collections.abc import Callable, Sequence

import pytest

from operations.tests.mirror.mirrors import DIRECT
from operations.tests.tools import COMMAND
from operations.tests.tools.hostile_source import HEAD, MOMENT, Liar, answered, dripping, entry, flooding, in_parts

# A change of a source that makes it lie.
Lie = Callable[[Liar], object]
# Limits of a run: sent bytes, processor and elapsed seconds, bytes of memory (address space).
SENT, PROCESSOR, SECONDS, MEMORY = 16 << 20, 10, 60, 700 << 20
# The most requests for one path, with a patience of half a second.
ASKED = 12
ENTITIES = "".join(f'<!ENTITY {b} "{f"&{a};" * 10}">' for a, b in zip("abcdefgh", "bcdefghi"))
BOMB = f'<!DOCTYPE a [<!ENTITY a "aaaaaaaaaa">{ENTITIES}]>'
RESOURCES, DESCRIPTION = "/resourcelist.xml", "/.well-known/resourcesync"


def with_dtd(text: bytes, dtd: str, inside: str) -> bytes:
    """Return a document with a document type, and a text in its first entry."""
    first, rest = text.decode().split("\n", 1)
    return f"{first}\n{dtd}{rest.replace('<loc>', '<loc>' + inside, 1)}".encode()


def body_of(answer: bytes) -> bytes:
    """Return the body of a response."""
    return answer.partition(b"\r\n\r\n")[2]


def resource_list(make: Callable[[str], list[str]]) -> Lie:
    """Return a lie: a Resource List of a correct entry, which makes it a Ropepeach's, and entries from the base."""

    def lie(liar: Liar) -> None:
        """Serve the list."""
        liar.documents({"/resource/first": b"body"})
        liar.resources([entry(f"{liar.base}/resource/first"), *make(liar.base)])

    return lie


def at(path: str, answer: object) -> Lie:
    """Return a lie with this response for a path."""
    return lambda liar: liar.answers.update({path: answer})


def document(path: str, change: Callable[[bytes], bytes]) -> Lie:
    """Return a lie that changes the text of a document."""
    return lambda liar: liar.documents({path: change(body_of(liar.answers[path]))})


def short_entry(base: str, number: int) -> str:
    """Return an entry short enough for 60,000 in a document."""
    return (f'<url><loc>{base}/resource/{number}</loc><lastmod>{MOMENT}</lastmod><rs:md hash="md5:{"0" * 32}" '
            'length="0"/></url>')


def parts(liar: Liar) -> None:
    """Serve an index of two parts with 30,000 entries each."""
    in_parts(liar, [entry(f"{liar.base}/resource/{number}", hashes="md5:" + "0" * 32) for number in range(60_000)],
             30_000)


def redirected(liar: Liar) -> None:
    """Redirect a resource to another host name of this machine."""
    elsewhere = liar.base.replace("127.0.0.1", "localhost") + "/elsewhere"
    liar.answers["/resource/a"] = answered(b"", "302 Found", f"Location: {elsewhere}\r\n")
    liar.documents({"/elsewhere": b"body"})


def digests(right: str) -> str:
    """Return digests of `body`, of which only the given one is correct."""
    both = {"md5": hashlib.md5(b"body").hexdigest(), "sha-256": hashlib.sha256(b"body").hexdigest()}
    return " ".join(f"{kind}:{digest if kind == right else '0' * len(digest)}" for kind, digest in both.items())


def escaping(name: str) -> Lie:
    """Return a lie whose Resource List has a name that leads out of the folder."""
    return resource_list(lambda base: [entry(f"{base}/resource/{name}")])


FILE = '<!DOCTYPE a [<!ENTITY i SYSTEM "file:///etc/passwd">]>'
ELSEWHERE = '<!DOCTYPE a SYSTEM "http://127.0.0.1:9/a.dtd">'
CHUNKED, PACKED = "Transfer-Encoding: chunked\r\n", "Content-Encoding: gzip\r\n"
# The lies, and texts of the message.
ROWS = {
    "entities that grow": (document(RESOURCES, lambda text: with_dtd(text, BOMB, "&i;")),
                           "refused, as it is no document: DTDForbidden"),
    "a file of this machine": (document(RESOURCES, lambda text: with_dtd(text, FILE, "&i;")), "DTDForbidden"),
    "a list of another namespace": (document(RESOURCES, lambda text: text.replace(b"sitemap/0.9", b"sitemap/0.84")),
                                    "is of the namespace"),
    "entries of another namespace": (
        document(RESOURCES, lambda text: re.sub(rb"<(/?)url>", rb"<\1o:url>", text).replace(
            b"<urlset", b'<urlset xmlns:o="urn:o"')),
        "its url is of the namespace 'urn:o'"),
    "entries of no namespace": (document(RESOURCES, lambda text: text.replace(b"<url>", b'<url xmlns="">')),
                                "is of the namespace ''"),
    "terms of another namespace": (document(RESOURCES, lambda text: text.replace(b"org/rs/terms/", b"org/rs/terms")),
                                   "its md is of the namespace"),
    "another document": (
        document(RESOURCES, lambda text: re.sub(rb"<(/?)urlset", rb"<\1o:list", text).replace(
            b"<o:list ", b'<o:list xmlns:o="urn:o" ')),
        "no document of Sitemap 0.9"),
    "no XML": (document(RESOURCES, lambda text: b"<html><br></html>"), "refused, as it is no document: ParseError"),
    "an encoding that nobody knows": (document(RESOURCES, lambda text: text.replace(b"UTF-8", b"UTV-8")),
                                      "refused, as it is no document: LookupError"),
    "an encoding that is none of a text": (document(RESOURCES, lambda text: text.replace(b"UTF-8", b"hex")),
                                           "refused, as it is no document"),
    "bytes that are no text": (document(RESOURCES, lambda text: text + b"\xff\xfe"), "refused, as it is no document"),
    "60,000 entries": (resource_list(lambda base: [short_entry(base, number) for number in range(60_000)]),
                       "more than 50,000 entries"),
    "60,000 entries in two parts": (parts, "more than 50,000 entries"),
    "60,000 parts": (lambda liar: liar.resources(["<sitemap><loc>a</loc></sitemap>"] * 60_000, "sitemapindex"),
                     "more than 50,000 entries"),
    "a deep document": (document(RESOURCES, lambda text: HEAD.format("urlset").encode() + b"<a>" * 1_000_000),
                        "more than 50,000 entries"),
    "a long document": (at(RESOURCES, answered(b"", length=10_485_761)), "has 10,485,761 bytes, more than 10,485,760"),
    "a document without end": (at(RESOURCES, flooding(answered(b"", length=""))), "has more than 10,485,760 bytes"),
    "another host": (resource_list(lambda base: [entry("http://127.0.0.1:9/resource/a")]),
                     "127.0.0.1:9/resource/a: refused, as it is no resource below"),
    "a host that begins alike": (resource_list(lambda base: [entry(f"{base}0/resource/a")]),
                                 "refused, as it is no resource below"),
    "a file of this machine as a place": (resource_list(lambda base: [entry("file:///etc/passwd")]),
                                          "refused, as it is no resource below"),
    "a part elsewhere": (lambda liar: liar.resources(["<sitemap><loc>http://127.0.0.1:9/0.xml</loc></sitemap>"],
                                                     "sitemapindex"),
                         "refused, as it is not below the base"),
    "a list elsewhere": (
        document("/capabilitylist.xml", lambda text: re.sub(rb"http://[^<]*/changelist",
                                                            b"http://127.0.0.1:9/changelist", text)),
        "its host is not allowed"),
    "dots": (escaping("../outside"), "resource/../outside: refused"),
    "dots within": (escaping("b/../../../outside"), "refused, as it is no resource"),
    "dots as references": (escaping("&#46;&#46;/outside"), "resource/../outside: refused"),
    "one dot": (escaping("./a"), "refused, as it is no resource"),
    "no segment": (escaping("/etc/outside"), "refused, as it is no resource"),
    "the state": (escaping("#state"), "refused, as it is no resource"),
    "a backslash": (escaping("..\\outside"), "refused, as it is no resource"),
    "a byte of zero": (escaping("a%0"), "refused, as it is no resource"),
    "a long name": (escaping("n" * 241), "refused, as it is no resource"),
    "no length": (resource_list(lambda base: [entry(f"{base}/resource/a", length="")]),
                  "refused, as it is listed with no length"),
    "a length without end": (resource_list(lambda base: [entry(f"{base}/resource/a", length="9" * 30)]),
                             "refused, as it is listed with no length"),
    "a long length": (resource_list(lambda base: [entry(f"{base}/resource/a", length=16_777_217)]), "16 MiB at most"),
    "no digest": (resource_list(lambda base: [entry(f"{base}/resource/a", hashes="crc:1")]),
                  "or no digest that is known"),
    "a wrong digest": (resource_list(lambda base: [entry(f"{base}/resource/a", hashes="md5:12")]),
                       "or no digest that is known"),
    "a body longer than told": (at("/resource/a", answered(b"body and more")),
                                "has 13 bytes, more than 4: it is listed with fewer"),
    "a body without end": (at("/resource/a", flooding(answered(b"", length=""))),
                           "has more than 4 bytes: it is listed with fewer"),
    "a body of chunks without end": (
        at("/resource/a", flooding(answered(b"", fields=CHUNKED, length=""), b"10000\r\n" + bytes(65_536) + b"\r\n")),
        "more than 4 bytes"),
    "a shorter body": (at("/resource/a", answered(b"bod")), "/resource/a: has other bytes than listed"),
    "other bytes": (at("/resource/a", answered(b"doby")),
                    "the source changed meanwhile, or its lists are wrong: run it again"),
    "another SHA-256": (resource_list(lambda base: [entry(f"{base}/resource/a", hashes=digests("md5"))]),
                        "/resource/a: has other bytes than listed"),
    "another MD5": (resource_list(lambda base: [entry(f"{base}/resource/a", hashes=digests("sha-256"))]),
                    "/resource/a: has other bytes than listed"),
    "a packed body": (at("/resource/a", answered(gzip.compress(b"")[:4], fields=PACKED)),
                      "has other bytes than listed"),
    "a body that is cut": (at("/resource/a", answered(b"bo", length=4)), "no answer for 0.5 seconds"),
    "a redirect of a resource": (redirected, "302 Found: redirects are not followed"),
    "a redirect of the description": (at(DESCRIPTION,
                                         answered(b"", "301 Moved", "Location: https://elsewhere.example/\r\n")),
                                      "not followed, to 'https://elsewhere.example/'"),
    "a redirect to a file": (at("/resource/a", answered(b"", "302 Found", "Location: file:///etc/passwd\r\n")),
                             "redirects are not followed"),
    "a slow body": (at("/resource/a", dripping(answered(b"", length=4), b"")), "took longer than 2 seconds"),
    "a body that drips": (at("/changelist.xml", dripping(answered(b"", length=1_000), b"x")),
                          "took longer than 2 seconds"),
    "a head that drips": (at("/changelist.xml", dripping(b"HTTP/1.1 200 OK\r\n", b"A")), "took longer than 2 seconds"),
    "a head without end": (at("/changelist.xml", flooding(b"HTTP/1.1 200 OK\r\n", b"A: b\r\n" * 100)),
                           "no answer for 0.5 seconds"),
    "a line without end": (at("/changelist.xml", flooding(b"HTTP/1.1 200 ")), "no answer for 0.5 seconds"),
    "no HTTP": (at("/changelist.xml", b"SSH-2.0-OpenSSH\r\n\r\n"), "no answer for 0.5 seconds"),
    "a refusal without end": (at("/resource/a", flooding(answered(b"", "404 Not Found", length=""))), "404 Not Found"),
    "words for a terminal": (at("/resource/a", answered(b"", "404 \x1b[2J\x9b31m")), "/resource/a: 404 ?[2J?31m"),
    "a name for a terminal": (escaping("\x9b31m"), "resource/?31m: refused"),
    "an odd moment": (document(RESOURCES, lambda text: text.replace(MOMENT.encode(), b"2000-02-30")),
                      "refused, as it is no moment"),
    "a name twice": (resource_list(lambda base: [entry(f"{base}/resource/a"), entry(f"{base}/resource/b"),
                                                 entry(f"{base}/resource/a", b"other")]),
                     "refused, as its Resource List has a twice"),
    "a name twice alike": (resource_list(lambda base: [entry(f"{base}/resource/a"), entry(f"{base}/resource/a")]),
                           "has a twice"),
    "a name that is no ASCII": (escaping("\xe9"), "resource/\xe9: refused, as it is no resource"),
    "a list that is no ASCII": (
        document("/capabilitylist.xml", lambda text: text.replace(b"/changelist.xml", "/changelist\xe9".encode())),
        "visible ASCII characters alone"),
    "a list with a tab": (
        document("/capabilitylist.xml", lambda text: text.replace(b"/changelist.xml", b"/change&#9;list")),
        "/change?list: refused, as an address has visible"),
    "a list with a space": (
        document("/capabilitylist.xml", lambda text: text.replace(b"/changelist.xml", b"/change list")),
        "visible ASCII"),
    "a line of ours": (escaping("a\nropepeach mirror: all is well"),
                       "resource/a?ropepeach mirror: all is well: refused"),
    "a line of ours in an answer": (at("/resource/a", answered(b"", "302 Found", "Location: a\x85\x0bb\r\n")),
                                    "redirects are not followed, to"),
    "a list that is gone": (lambda liar: liar.answers.pop("/changelist.xml"), "times, and each time lost a part"),
    "a list that is another's": (
        document("/changelist.xml", lambda text: text.replace(MOMENT.encode(), b"2000-02-29T00:00:00.002Z")),
        "times, and each time too early"),
    "many sources": (document(
        DESCRIPTION, lambda text: text.replace(b"</urlset>", text.split(b"\n")[3] + b"</urlset>")), "names 2 sources"),
}
# Names that stay files within the folder, as `%` is never decoded.
HARMLESS = {"dots that are encoded": "%2e%2e/%2e%2e/outside", "a slash that is encoded": "..%2F..%2Foutside",
            "a lower case": "a%c3%9c"}


def limited() -> None:
    """Set the limits of a run, in its own process."""
    resource.setrlimit(resource.RLIMIT_AS, (MEMORY, MEMORY))
    resource.setrlimit(resource.RLIMIT_CPU, (PROCESSOR, PROCESSOR))


def run(words: Sequence[str], room: str | pathlib.Path) -> tuple[int, str]:
    """Run the command within limits; return its exit status and its messages."""
    try:
        process = subprocess.run([*COMMAND, *words, "--patience", "0.5", "--max-time", "2"],
                                 cwd=room, capture_output=True, text=True,
                                 env=os.environ | DIRECT, timeout=SECONDS, preexec_fn=limited)
    except subprocess.TimeoutExpired:
        pytest.fail(f"not done within {SECONDS} seconds")
    assert "Traceback" not in process.stderr, process.stderr
    return process.returncode, process.stderr


def below(room: str | pathlib.Path) -> list[str]:
    """Return the paths of all files below a folder."""
    return sorted(str(path.relative_to(room)) for path in pathlib.Path(room).rglob("*") if path.is_file())
