"""Tests of the published documents, read by independent programs.

A script of a few hundred commands shows all documents several times. xmllint and xml.etree read them. A destination in
this file gathers the Resource List (through its index, if it has one) and the Change List, applies the changes after
the `at` of the list, and must then have exactly the resources of a model in this file, with their lengths, digests (by
hashlib) and types.
"""
import hashlib
import random
import subprocess
import xml.etree.ElementTree as ElementTree
from collections.abc import Iterator
from dataclasses import dataclass, field
from pathlib import Path

import pytest

BASE = "http://127.0.0.1:8080"
LIMIT = 5
# The bytes of the disk: room for some hundred changes and resources.
SIZE = 262_144
SITEMAP = "{http://www.sitemaps.org/schemas/sitemap/0.9}"
RS = "{http://www.openarchives.org/rs/terms/}"
NAMES = ["a", "b/c", "x&y", "o'k", "x&amp;y", "%2E", "p(1)", "q;r=s,t", "m@h:1", "~u_v-w.x", "e!$*+", "long" + "n" * 60]
TYPES = ["text/plain", 'text/html; charset="utf-8"', "a/b; x=<y>&'z'", "application/octet-stream"]


Facts = tuple[str, str, str]
Documents = dict[str, bytes]


@dataclass
class Model:
    """A plain model of the resources and of the published ones."""

    resources: dict[str, Facts] = field(default_factory=dict)
    listed: dict[str, Facts] = field(default_factory=dict)

    def apply(self, words: list[str]) -> None:
        """Execute the command of these words."""
        if words[0] == "put":
            body = b"" if words[2] == "-" else bytes.fromhex(words[2])
            self.resources[words[1]] = facts(body, words[3])
        elif words[0] == "delete":
            self.resources.pop(words[1], None)
        elif words[0] == "publish":
            self.listed = dict(self.resources)


def facts(body: bytes, kind: str) -> Facts:
    """Return the digests, the length and the type of a resource."""
    digest = f"md5:{hashlib.md5(body).hexdigest()} sha-256:{hashlib.sha256(body).hexdigest()}"
    return (digest, str(len(body)), kind)


def script(seed: int, count: int) -> Iterator[list[str]]:
    """Yield commands as lists of words: put, delete and publish in a fixed random order."""
    # Few names, so that they are often put again or deleted, and short bodies.
    rng = random.Random(seed)
    for _ in range(count):
        name = rng.choice(NAMES) + (str(rng.randrange(4)) if rng.random() < 0.7 else "")
        choice = rng.random()
        if choice < 0.62:
            body = bytes(rng.randrange(256) for _ in range(rng.choice([0, 1, 3, 40])))
            yield ["put", name, body.hex() or "-", rng.choice(TYPES)]
        elif choice < 0.85:
            yield ["delete", name]
        else:
            yield ["publish"]


class Answers:
    """The answers in order; shown documents are read by their length."""

    def __init__(self, output: bytes) -> None:
        self.output, self.at = output, 0

    def line(self) -> str:
        """Return the next line of the output."""
        end = self.output.index(b"\n", self.at)
        text, self.at = self.output[self.at:end], end + 1
        return text.decode()

    def document(self) -> bytes | None:
        """Return the next document of the output, or None for a refusal."""
        first = self.line()
        if not first.startswith("bytes "):
            return None
        length = int(first[6:])
        text, self.at = self.output[self.at:self.at + length], self.at + length + 1
        return text


def text_of(url: ElementTree.Element) -> str:
    """Return the text of the location of an element."""
    loc = url.find(SITEMAP + "loc")
    assert loc is not None and loc.text
    return loc.text


def md_of(element: ElementTree.Element) -> dict[str, str]:
    """Return the attributes of the metadata of an element."""
    md = element.find(RS + "md")
    assert md is not None
    return md.attrib


def name_of(url: ElementTree.Element) -> str:
    """Return the name of the resource of an element, whose location is below the base."""
    loc = text_of(url)
    prefix = BASE + "/resource/"
    assert loc.startswith(prefix)
    return loc[len(prefix):]


def facts_of(url: ElementTree.Element) -> Facts:
    """Return the facts of the resource of an element."""
    attributes = md_of(url)
    return (attributes["hash"], attributes["length"], attributes["type"])


def part_paths(document: bytes) -> list[str]:
    """Return the paths of the parts that an index points to."""
    root = ElementTree.fromstring(document)
    return [text_of(element)[len(BASE):] for element in root.findall(SITEMAP + "sitemap")]


def gather(head: bytes, parts: Documents) -> tuple[dict[str, str], list[ElementTree.Element]]:
    """Return the metadata of a list, and its children or those of all parts that its index names."""
    root = ElementTree.fromstring(head)
    if root.tag == SITEMAP + "urlset":
        return md_of(root), root.findall(SITEMAP + "url")
    urls: list[ElementTree.Element] = []
    for path in part_paths(head):
        urls += ElementTree.fromstring(parts[path]).findall(SITEMAP + "url")
    return md_of(root), urls


def mirror(documents: Documents) -> tuple[dict[str, Facts], dict[str, Facts]]:
    """Return the resources of a destination after the Resource List, and after the Change List."""
    mine: dict[str, Facts] = {}
    attributes, urls = gather(documents["/resourcelist.xml"], documents)
    for url in urls:
        mine[name_of(url)] = facts_of(url)
    listed = dict(mine)
    bounds, changes = gather(documents["/changelist.xml"], documents)
    assert bounds["from"] <= attributes["at"], "the Change List begins after the Resource List"
    for url in changes:
        md = md_of(url)
        if md["datetime"] <= attributes["at"]:
            continue
        if md["change"] == "deleted":
            mine.pop(name_of(url), None)
        else:
            mine[name_of(url)] = facts_of(url)
    return listed, mine


@dataclass
class ClosedParts:
    """The closed parts of the Change List so far: a part does not change until it is dropped for good."""

    texts: Documents = field(default_factory=dict)
    dropped: set[str] = field(default_factory=set)

    def look(self, path: str, text: bytes | None) -> None:
        """Check the answer at the path of a part: a part, or a refusal."""
        if text is None:
            self.dropped |= {path} & self.texts.keys()
            return
        assert path not in self.dropped and self.texts.get(path, text) == text, f"{path} is another part now"
        if md_of(ElementTree.fromstring(text)).get("until"):
            self.texts[path] = text


HEADS = ["/.well-known/resourcesync", "/capabilitylist.xml", "/resourcelist.xml", "/changelist.xml"]


def paths(publications: int, changes: int) -> list[str]:
    """Return the paths of all documents, and of some missing parts."""
    return [*HEADS, *(f"/resourcelist/{publications}/{part}.xml" for part in range(len(NAMES) * 5 // LIMIT + 2)),
            *(f"/changelist/{part}.xml" for part in range(changes // LIMIT + 2))]


@dataclass
class Visit:
    """Some commands, and the documents shown after them."""

    commands: list[list[str]]
    paths: list[str]

    def lines(self) -> list[str]:
        """Return the lines of a script."""
        return [*(" ".join(words) for words in self.commands), *(f"show {path}" for path in self.paths)]


def visits(commands: list[list[str]]) -> list[Visit]:
    """Return these commands with a visit after every 40th."""
    found = []
    for at in range(0, len(commands), 40):
        before = commands[: at + 40]
        publications = sum(words[0] == "publish" for words in before)
        found.append(Visit(commands[at : at + 40], paths(publications, len(before) - publications)))
    return found


def do(commands: list[list[str]], answers: Answers, model: Model) -> None:
    """Check the answers to commands, of which only a delete of a missing resource may be refused."""
    for words in commands:
        answer = answers.line()
        assert not answer.startswith("refused") or (words[0] == "delete" and answer == "refused NotHeld"), answer
        model.apply(words)


def shown(paths_of: list[str], answers: Answers, closed: ClosedParts) -> Documents:
    """Return the documents of a visit, parsed by xml.etree."""
    documents = {}
    for path in paths_of:
        text = answers.document()
        if path.startswith("/changelist/"):
            closed.look(path, text)
        if text is not None:
            documents[path] = text
            ElementTree.fromstring(text)
    return documents


def looked_at(program: str) -> list[bytes]:
    """Run the script, compare a destination with the model at every visit, and return all documents."""
    plan = visits(list(script(20261122, 400)))
    text = "".join(f"{line}\n" for visit in plan for line in visit.lines())
    words = [program, "mem", str(SIZE), BASE, str(LIMIT)]
    finished = subprocess.run(words, input=text.encode(), capture_output=True, timeout=120)
    assert finished.returncode == 0, finished.stderr
    answers, model, closed, found = Answers(finished.stdout), Model(), ClosedParts(), list[bytes]()
    for number, visit in enumerate(plan):
        do(visit.commands, answers, model)
        documents = shown(visit.paths, answers, closed)
        assert mirror(documents) == (model.listed, model.resources), f"visit {number}"
        found += documents.values()
    assert closed.dropped, "no part of the Change List was dropped, so this test shows too little"
    return found


@pytest.mark.plain
def test_a_destination_has_the_held_resources(program: str) -> None:
    assert len(looked_at(program)) > 100


@pytest.mark.plain
@pytest.mark.needs("xmllint")
def test_xmllint_reads_all_documents(program: str, room: Path) -> None:
    files = []
    for number, text in enumerate(looked_at(program)):
        (room / f"{number}.xml").write_bytes(text)
        files.append(f"{number}.xml")
    for start in range(0, len(files), 200):
        words = ["xmllint", "--noout", *files[start:start + 200]]
        finished = subprocess.run(words, cwd=room, capture_output=True, check=False)
        assert finished.returncode == 0, finished.stderr.decode(errors="replace")[:2000]
