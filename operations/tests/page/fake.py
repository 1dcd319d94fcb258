"""Make fake sources, which may lie, from Python values. The documents follow docs/DOCUMENTS.md."""
import dataclasses
import hashlib
import random
from collections.abc import Callable
from xml.sax.saxutils import escape, quoteattr

from tests.reading.crash_model import HEAD, SPACES, moment_text

Answer = tuple[int, str, bytes]
FORMATTED = 0
# The moment of the first change of fake sources: 2026-03-01T00:00:00.000Z.
BEGUN = 1_772_323_200_000
HOUR = 3_600_000
LARGE = 50_000
WORDS = ("annals archive atlas bulletin diary folio journal ledger letters map minutes notes papers "
         "proceedings record register report review").split()
KINDS = [("pdf", "application/pdf"), ("xml", "application/xml"), ("html", "text/html; charset=utf-8"),
         ("png", "image/png"), ("csv", "text/csv")]


@dataclasses.dataclass(frozen=True)
class Entry:
    """An entry of a list: `change` is empty in a Resource List."""

    name: str
    moment: int
    change: str = ""
    kind: str = "text/plain"
    length: int = 0
    hash: str = ""

    def text(self, base: str) -> str:
        """Return the text of an entry, or of a document."""
        gone = self.change == "deleted"
        change = (f" change={quoteattr(self.change)} datetime={quoteattr(moment_text(self.moment))}"
                  if self.change else "")
        facts = "" if gone else f' hash="{self.hash}" length="{self.length}" type={quoteattr(self.kind)}'
        lastmod = "" if gone else f"<lastmod>{moment_text(self.moment)}</lastmod>"
        return f"<url><loc>{escape(f'{base}/resource/{self.name}')}</loc>{lastmod}<rs:md{change}{facts}/></url>\n"


def entry_of(name: str, body: bytes, moment: int, change: str = "", kind: str = "text/plain") -> Entry:
    """Return an entry with the length and digests of a body."""
    return Entry(name, moment, change, kind, len(body), hash_of(body))


def hash_of(body: bytes) -> str:
    """Return the digests of a body as lists have them."""
    return f"md5:{hashlib.md5(body).hexdigest()} sha-256:{hashlib.sha256(body).hexdigest()}"


@dataclasses.dataclass
class Fake:
    """A source at a base: its lists, and its served bodies, which may differ from the lists."""

    base: str
    listed: list[Entry] = dataclasses.field(default_factory=list)
    changes: list[Entry] = dataclasses.field(default_factory=list)
    at: int = FORMATTED
    publication: int = 1
    limit: int = 4_000
    bodies: dict[str, tuple[str, bytes | None]] = dataclasses.field(default_factory=dict)
    refusal: Answer | None = None

    def documents(self) -> dict[str, bytes]:
        """Return the documents by path."""
        lists = "".join(f'<url><loc>{self.base}/{name}.xml</loc><rs:md capability="{name}"/></url>\n'
                        for name in ("resourcelist", "changelist"))
        capabilities = self.text("urlset", 'capability="capabilitylist"', lists)
        found = {"/.well-known/resourcesync": description(self.base), "/capabilitylist.xml": capabilities}
        at = f'at="{moment_text(self.at)}"'
        self.add(found, "resourcelist", f"/resourcelist/{self.publication}/", at,
                 [(chunk, at) for chunk in chunks(self.listed, self.limit)])
        ends = [FORMATTED] + [chunk[-1].moment for chunk in chunks(self.changes, self.limit)]
        bounds = [f'from="{moment_text(start)}"'
                  + (f' until="{moment_text(chunk[-1].moment)}"' if len(chunk) == self.limit else "")
                  for start, chunk in zip(ends, chunks(self.changes, self.limit))]
        self.add(found, "changelist", "/changelist/", f'from="{moment_text(FORMATTED)}"',
                 list(zip(chunks(self.changes, self.limit), bounds)))
        return {path: text.encode() for path, text in found.items()}

    def add(self, found: dict[str, str], name: str, place: str, facts: str,
            parts: list[tuple[list[Entry], str]]) -> None:
        """Add a list of one document, or of parts with an index."""
        texts = [(self.entries(items), bounds) for items, bounds in parts]
        head = f'capability="{name}" {facts}'
        if len(texts) < 2:
            found[f"/{name}.xml"] = self.text("urlset", head, texts[0][0] if texts else "")
            return
        found[f"/{name}.xml"] = self.text("sitemapindex", head, "".join(
            f"<sitemap><loc>{self.base}{place}{number}.xml</loc><rs:md {bounds}/></sitemap>\n" for number,
            (_, bounds) in enumerate(texts)))
        for number, (text, bounds) in enumerate(texts):
            found[f"{place}{number}.xml"] = self.text("urlset", f'capability="{name}" {bounds}', text)

    def entries(self, items: list[Entry]) -> str:
        """Return the entries of a list."""
        return "".join(item.text(self.base) for item in items)

    def text(self, root: str, facts: str, children: str) -> str:
        """Return the text of an entry, or of a document."""
        return f"{HEAD}<{root} {SPACES}>\n<rs:md {facts}/>\n{children}</{root}>\n"

    def answer(self) -> Callable[[str], Answer]:
        """Return the function that maps a path to a response."""
        documents = self.documents()

        def answer(path: str) -> Answer:
            if self.refusal:
                return self.refusal
            if path in documents:
                return 200, "application/xml", documents[path]
            kind, body = self.bodies.get(path.removeprefix("/resource/"), ("", None))
            return (404, "text/plain", b"NoSuchDocument\n") if body is None else (200, kind, body)

        return answer


def description(*bases: str) -> str:
    """Return a Source Description that names the Capability Lists of these bases."""
    links = "".join(f'<url><loc>{base}/capabilitylist.xml</loc><rs:md capability="capabilitylist"/></url>\n'
                    for base in bases)
    return f'{HEAD}<urlset {SPACES}>\n<rs:md capability="description"/>\n{links}</urlset>\n'


def chunks(items: list[Entry], limit: int) -> list[list[Entry]]:
    """Return the parts of a list."""
    return [items[at : at + limit] for at in range(0, len(items), limit)]


def published(fake: Fake, moment: int) -> Fake:
    """Publish the result of the changes: the Resource List in the byte order of the names."""
    current: dict[str, Entry] = {}
    for change in fake.changes:
        current.pop(change.name, None)
        if change.change != "deleted":
            current[change.name] = dataclasses.replace(change, change="")
    fake.listed, fake.at = [current[name] for name in sorted(current, key=str.encode)], moment
    return fake


def archive(base: str, number: int, seed: int = 1, begun: int = BEGUN) -> Fake:
    """Return a source of some hundred resources, put in the working hours of weeks; some were updated, some deleted."""
    chance, fake, moment = random.Random(seed), Fake(base, publication=7, limit=1_000), begun
    kinds: dict[str, str] = {}
    while len(kinds) < number:
        moment += int(chance.expovariate(1 / (HOUR * (0.15 if chance.random() < 0.9 else 60)))) + 1
        ending, kind = chance.choice(KINDS)
        folder, year, word = chance.choice(WORDS), chance.randrange(1880, 2026), chance.choice(WORDS)
        name = f"{folder}/{year}/{word}-{chance.randrange(1, 100):02}.{ending}"
        if kinds and chance.random() < 0.2:
            name = chance.choice(list(kinds))
        is_gone = name in kinds and chance.random() < 0.25
        change = "deleted" if is_gone else "updated" if name in kinds else "created"
        body = chance.randbytes(int(chance.lognormvariate(7.5, 1.2)))
        fake.changes.append(Entry(name, moment, "deleted") if is_gone
                            else entry_of(name, body, moment, change, kinds.get(name, kind)))
        kinds.pop(name, None) if is_gone else kinds.setdefault(name, kind)
        fake.bodies[name] = (kinds.get(name, kind), None if is_gone else body)
        if len(fake.changes) % (number // 3) == 0:
            moment += 1
            published(fake, moment)
    return fake


def large(base: str) -> Fake:
    """Return a source with the most resources and changes. All names occur once; 10% are put after the publication."""
    digest = hash_of(b"")

    def name(number: int) -> str:
        folder, word = WORDS[number % len(WORDS)], WORDS[number // 7 % len(WORDS)]
        return f"{folder}/{number * 7919 % LARGE:05}/{word}.{KINDS[number % 5][0]}"

    changes = [Entry(name(number), BEGUN + number * 47_000, "created", KINDS[number % 5][1],
                     number * 31 % 900_000, digest)
               for number in range(LARGE)]
    fake = published(Fake(base, changes=changes[: LARGE * 9 // 10], publication=3), BEGUN
                     + LARGE * 9 // 10 * 47_000 - 1)
    fake.changes = changes
    return fake


def lying(base: str) -> Fake:
    """Return a source with two wrong bodies: one differs in a byte, the other in its length."""
    fake = archive(base, 60)
    for entry, change in zip(fake.listed[:2],
                             (lambda body: body[:-1] + bytes([body[-1] ^ 1]), lambda body: body + b"x")):
        fake.bodies[entry.name] = (entry.kind, change(fake.bodies[entry.name][1]))
    return fake


def current(fake: Fake) -> list[Entry]:
    """Return the last entries of the source's resources."""
    found = {}
    for change in fake.changes:
        found[change.name] = change
    return [entry for entry in found.values() if entry.change != "deleted"]
