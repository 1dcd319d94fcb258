"""The documents of a source after a list of commands, written from docs/SCRIPT.md and docs/DOCUMENTS.md.

The model is slow and shares nothing with the program: a state is a few Python values, a command returns the next state,
and every document is written from the state alone.
"""
import dataclasses
import datetime
import hashlib
import os

HEAD = '<?xml version="1.0" encoding="UTF-8"?>\n'
SPACES = (
    'xmlns="http://www.sitemaps.org/schemas/sitemap/0.9" '
    'xmlns:rs="http://www.openarchives.org/rs/terms/"'
)
CHANGES = 'capability="changelist" '
REFERENCES = {"&": "&amp;", "'": "&apos;", '"': "&quot;", ">": "&gt;", "<": "&lt;"}


def moment_text(moment):
    """Return a moment (milliseconds since 1970) as a W3C Datetime."""
    time = datetime.datetime(1970, 1, 1) + datetime.timedelta(milliseconds=moment)
    return time.isoformat(timespec="milliseconds") + "Z"


def escaped(text):
    """Escape the special characters of a text."""
    return text.translate(str.maketrans(REFERENCES))


@dataclasses.dataclass(frozen=True)
class Entry:
    """The facts of a resource, and the moment of its last change."""

    kind: str
    length: int
    hash: str
    moment: int

    def attributes(self):
        """Return the attributes of the entry in a document."""
        return f'hash="{self.hash}" length="{self.length}" type="{escaped(self.kind)}"'


def entry_of(kind, body, moment):
    """Return the entry of a body that was put at a moment."""
    digests = f"md5:{hashlib.md5(body).hexdigest()} sha-256:{hashlib.sha256(body).hexdigest()}"
    return Entry(kind, len(body), digests, moment)


@dataclasses.dataclass(frozen=True)
class Change:
    """A change. `entry` is None for a deletion."""

    what: str
    name: str
    moment: int
    entry: Entry | None


@dataclasses.dataclass(frozen=True)
class State:
    """An immutable source: the held resources, the changes and the latest publication.

    `first` is the number of the first kept part of the changes, and `begin` the moment of the last dropped change, or
    of formatting.
    """

    base: str
    limit: int
    last: int = 0
    held: dict = dataclasses.field(default_factory=dict)
    changes: tuple = ()
    number: int = 0
    at: int = 0
    listed: dict = dataclasses.field(default_factory=dict)
    first: int = 0
    begin: int = 0

    def after(self, line, now):
        """Return the answer to a line and the next state, or None for the state if the line is refused.

        A group is one line that includes all of its lines.
        """
        if line.startswith("group "):
            return self.after_group(line.split("\n")[1:], now)
        words = line.split(" ", 3)
        moment = max(now, self.last + 1)
        if words[0] == "put":
            body = b"" if words[2] == "-" else bytes.fromhex(words[2])
            return self.after_put(words[1], body, words[3], moment)
        if words[0] == "delete":
            return self.after_delete(words[1], moment)
        return self.after_publish(moment)

    def entries(self):
        """Return the entries of the held resources."""
        return {name: entry for name, (_, entry) in self.held.items()}

    def after_put(self, name, body, kind, moment):
        """Return the answer to a put at a moment, and the next state."""
        what = "updated" if name in self.held else "created"
        entry = entry_of(kind, body, moment)
        changes = self.changes + (Change(what, name, moment, entry),)
        resources = {**self.held, name: (body, entry)}
        then = dataclasses.replace(self, last=moment, held=resources, changes=changes)
        return f"{what} {moment_text(moment)}", then

    def after_delete(self, name, moment):
        """Return the answer to a delete at a moment, and the next state unless the delete is refused."""
        if name not in self.held:
            return "refused NotHeld", None
        resources = {other: value for other, value in self.held.items() if other != name}
        changes = self.changes + (Change("deleted", name, moment, None),)
        then = dataclasses.replace(self, last=moment, held=resources, changes=changes)
        return f"deleted {moment_text(moment)}", then

    def after_group(self, lines, now):
        """Return the answer to a group of lines, and the next state unless the group is refused."""
        then = self
        for line in lines:
            answer, then = then.after(line, now)
            if then is None:
                return answer, None
        return f"grouped {len(lines)} {moment_text(max(now, self.last + 1))}", then

    def dropped_parts(self):
        """Return the number of parts that the next publication drops: full parts that end by the latest publication."""
        return sum(change.moment <= self.at for change in self.changes) // self.limit

    def after_publish(self, moment):
        """Return the answer to a publication at a moment, and the next state."""
        count = self.dropped_parts()
        gone, remaining = self.changes[: count * self.limit], self.changes[count * self.limit :]
        begin = gone[-1].moment if gone else self.begin
        facts = {"last": moment, "number": self.number + 1, "at": moment, "listed": self.entries()}
        then = dataclasses.replace(self, **facts, changes=remaining, first=self.first + count, begin=begin)
        return f"published {then.number} {moment_text(moment)}", then

    def status(self):
        """Return the answer to `status`."""
        counts = f"resources {len(self.held)} changes {len(self.changes)} publication {self.number}"
        return f"{counts} last {moment_text(self.last)}\n".encode()


def run(state, lines):
    """Return the answers to the lines, all states, and the number of commands applied after 0, 1, 2, ... lines."""
    now, answers, states, made = 0, [], [state], [0]
    for line in lines:
        if line.startswith("at "):
            now, answer, then = int(line[3:]), "ok", None
        else:
            answer, then = states[-1].after(line, now)
        answers.append(answer)
        states += [then] if then else []
        made.append(len(states) - 1)
    return answers, states, made


def document(root, links, facts, children):
    """Return the text of a document."""
    lines = [f'<rs:ln rel="{rel}" href="{href}"/>' for rel, href in links]
    lines += [f"<rs:md {facts}/>", *children]
    return f"{HEAD}<{root} {SPACES}>\n" + "".join(line + "\n" for line in lines) + f"</{root}>\n"


def resource(base, name, entry):
    """Return the element of a resource in a list."""
    place, time = f"<loc>{base}/resource/{escaped(name)}</loc>", moment_text(entry.moment)
    return f"<url>{place}<lastmod>{time}</lastmod><rs:md {entry.attributes()}/></url>"


def changed(base, change):
    """Return the element of a change in a list."""
    place, time = f"<loc>{base}/resource/{escaped(change.name)}</loc>", moment_text(change.moment)
    facts = f'change="{change.what}" datetime="{time}"'
    if change.entry is None:
        return f"<url>{place}<rs:md {facts}/></url>"
    facts = f"{facts} {change.entry.attributes()}"
    return f"<url>{place}<lastmod>{time}</lastmod><rs:md {facts}/></url>"


def chunks(items, limit):
    """Cut the items into parts of `limit` items; the last part may be shorter."""
    return [items[at : at + limit] for at in range(0, len(items), limit)]


def pointed(base, path, facts):
    """Return the element of a part in an index."""
    return f"<sitemap><loc>{base}{path}</loc><rs:md {facts}/></sitemap>"


def resource_documents(state):
    """Return the Resource List, or its index and its parts."""
    base, up = state.base, ("up", state.base + "/capabilitylist.xml")
    at = f'at="{moment_text(state.at)}"'
    facts = f'capability="resourcelist" {at}'
    names = sorted(state.listed, key=str.encode)
    parts = chunks([resource(base, name, state.listed[name]) for name in names], state.limit)
    if len(parts) <= 1:
        return {"/resourcelist.xml": document("urlset", [up], facts, sum(parts, []))}
    paths = [f"/resourcelist/{state.number}/{k}.xml" for k in range(len(parts))]
    index = document("sitemapindex", [up], facts, [pointed(base, path, at) for path in paths])
    links = [up, ("index", base + "/resourcelist.xml")]
    texts = [document("urlset", links, facts, part) for part in parts]
    return {"/resourcelist.xml": index, **dict(zip(paths, texts))}


def change_documents(state):
    """Return the Change List, or its index and its parts."""
    base, up = state.base, ("up", state.base + "/capabilitylist.xml")
    begin = f'from="{moment_text(state.begin)}"'
    parts = chunks(state.changes, state.limit)
    if len(parts) <= 1:
        children = [changed(base, change) for change in state.changes]
        return {"/changelist.xml": document("urlset", [up], CHANGES + begin, children)}
    links, found, index, bound = [up, ("index", base + "/changelist.xml")], {}, [], begin
    for k, part in enumerate(parts, state.first):
        end = moment_text(part[-1].moment)
        facts = bound + (f' until="{end}"' if len(part) == state.limit else "")
        path, bound = f"/changelist/{k}.xml", f'from="{end}"'
        children = [changed(base, change) for change in part]
        found[path] = document("urlset", links, CHANGES + facts, children)
        index.append(pointed(base, path, facts))
    return {"/changelist.xml": document("sitemapindex", [up], CHANGES + begin, index), **found}


def documents(state):
    """Return all documents of the state by path."""
    base = state.base

    def capability(name):
        return f'<url><loc>{base}/{name}.xml</loc><rs:md capability="{name}"/></url>'

    described, facts = "/.well-known/resourcesync", 'capability="capabilitylist"'
    capabilities = capability("capabilitylist")
    lists = [capability("resourcelist"), capability("changelist")]
    return {
        described: document("urlset", [], 'capability="description"', [capabilities]),
        "/capabilitylist.xml": document("urlset", [("up", base + described)], facts, lists),
        **resource_documents(state),
        **change_documents(state),
    }


class Questions:
    """A script that queries everything in some states, and these states by their answers."""

    def __init__(self, states):
        served = [all_served(state) for state in states]
        self.paths = sorted({path for paths in served for path in paths})
        self.script = b"status\n" + "".join(f"show {path}\n" for path in self.paths).encode()
        answers = map(self.answer, states, served)
        self.states = {answer: number for number, answer in enumerate(answers)}

    def answer(self, state, served):
        """Return the answers to the questions in this state."""
        return state.status() + b"".join(shown(path, served.get(path)) for path in self.paths)

    def difference(self, output):
        """Return the difference between an output that fits no state and the expected output with the same counts."""
        counts = output.partition(b"\n")[0]
        for answer, number in self.states.items():
            if answer.startswith(counts + b"\n"):
                at = len(os.path.commonprefix([answer, output]))
                found, wanted = (text[at : at + 40] for text in (output, answer))
                return f"the counts of {number} commands, but {found!r}, not {wanted!r}"
        return f"the counts of no state: {counts[:100]!r}"

    def shown_in(self, output):
        """Return the shown bodies and documents of an output by path, without refusals."""
        found, at = {}, output.index(b"\n") + 1
        for path in self.paths:
            end = output.index(b"\n", at) + 1
            is_shown = output.startswith(b"bytes ", at)
            length = int(output[at + 6 : end]) if is_shown else 0
            if is_shown:
                found[path] = output[end : end + length]
            at = end + length + is_shown
        return found


def all_served(state):
    """Return all documents and bodies by path."""
    texts = {path: text.encode() for path, text in documents(state).items()}
    return {**texts, **{f"/resource/{name}": body for name, (body, _) in state.held.items()}}


def shown(path, served):
    """Return the answer to a `show` of a path."""
    if served is not None:
        return b"bytes %d\n%s\n" % (len(served), served)
    return b"refused NotHeld\n" if path.startswith("/resource/") else b"refused NoSuchDocument\n"
