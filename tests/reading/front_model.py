"""A source as a front sees it: the answer to every command and every shown path, by docs/SCRIPT.md and docs/HTTP.md.

crash_model.py provides the state and the texts of its documents, disk_judge.py the rules of names and media types. All
three are written from the pages, independent of the program.
"""
import re

from tests.reading import crash_model
from tests.reading.disk_formats import BLOCK
from tests.reading.disk_judge import LAST_MOMENT, LONGEST_BODY, MOST_ITEMS, NAME, TYPE, is_lawful

# The last number of a publication, and the greatest number of the first kept part of the changes.
LAST_NUMBER, LAST_PART = 2**64 - 1, LAST_MOMENT
MOST_GROUPED = 16
RESOURCE = b"/resource/"
NUMBER = rb"(0|[1-9][0-9]*)"
HEADS = rb"/(?:\.well-known/resourcesync|capabilitylist\.xml|resourcelist\.xml|changelist\.xml)"
PARTS = rb"/resourcelist/" + NUMBER + rb"/" + NUMBER + rb"\.xml|/changelist/" + NUMBER + rb"\.xml"
DOCUMENT = re.compile(HEADS + rb"|" + PARTS)


class Refused(Exception):
    """A refusal, by its word."""

    @property
    def word(self):
        """Return the word of the refusal."""
        return self.args[0]


def is_document(path):
    """Return whether this is the path of a document, existing or not, with numbers of at most 64 bits."""
    found = DOCUMENT.fullmatch(path)
    return found is not None and all(int(number) < 2**64 for number in found.groups() if number)


def name_of(text):
    """Return the name if it is lawful; otherwise refuse it."""
    if not is_lawful(NAME, 1, 240, text):
        raise Refused("BadName")
    return text.decode()


def type_of(text):
    """Return the media type if it is lawful; otherwise refuse it."""
    if not is_lawful(TYPE, 3, 100, text):
        raise Refused("BadType")
    return text.decode()


class Source:
    """A source that commands change."""

    def __init__(self, state, size):
        """Take a state and the disk's size in bytes. Only a body larger than its whole blocks is refused as Full."""
        self.state, self.size, self.texts = state, size, None

    def become(self, state):
        """Replace the state."""
        self.state, self.texts = state, None

    def moment(self, now):
        """Return the moment of the next accepted command."""
        if self.state.last >= LAST_MOMENT:
            raise Refused("Exhausted")
        return max(now, self.state.last + 1)

    def put(self, name, kind, length, body, now):
        """Return the kind of the change and its moment. `body` is None if fewer bytes arrived than announced."""
        if length > LONGEST_BODY:
            raise Refused("TooLong")
        if name not in self.state.held and len(self.state.held) >= MOST_ITEMS:
            raise Refused("TooManyResources")
        if len(self.state.changes) >= MOST_ITEMS:
            raise Refused("TooManyChanges")
        moment = self.moment(now)
        if length > self.size // BLOCK * BLOCK:
            raise Refused("Full")
        if body is None:
            raise Refused("ShortBody")
        answer, state = self.state.after_put(name, body, kind, moment)
        self.become(state)
        return answer

    def delete(self, name, now):
        """Return the answer to a delete."""
        if name not in self.state.held:
            raise Refused("NotHeld")
        if len(self.state.changes) >= MOST_ITEMS:
            raise Refused("TooManyChanges")
        answer, state = self.state.after_delete(name, self.moment(now))
        self.become(state)
        return answer

    def group(self, items, now):
        """Return the answer to a group of items. An item has a name, and for a put also a type and a body."""
        if not 1 <= len(items) <= MOST_GROUPED:
            raise Refused("BadGroup")
        then, answers = Source(self.state, 2 * LONGEST_BODY), []
        for name, *put in items:
            answers.append(then.put(name, put[0], len(put[1]), put[1], now) if put else then.delete(name, now))
        written = [item for at, item in enumerate(items)
                   if item[1:] and item[0] not in {name for name, *_ in items[at + 1 :]}]
        if any(len(body) > self.size // BLOCK * BLOCK for _, _, body in written):
            raise Refused("Full")
        self.become(then.state)
        return f"grouped {len(items)} {answers[0].split()[1]}"

    def publish(self, now):
        """Return the answer to a publication."""
        moment = self.moment(now)
        if self.state.number >= LAST_NUMBER or self.state.first + self.state.dropped_parts() > LAST_PART:
            raise Refused("Exhausted")
        answer, state = self.state.after("publish", moment)
        self.become(state)
        return answer

    def resource(self, name):
        """Return the bytes of a resource, and its type."""
        if name not in self.state.held:
            raise Refused("NotHeld")
        body, entry = self.state.held[name]
        return body, entry.kind

    def document(self, path):
        """Return the text of the document at a path."""
        if self.texts is None:
            self.texts = crash_model.documents(self.state)
        text = self.texts.get(path.decode("latin-1"))
        if text is None:
            raise Refused("NoSuchDocument")
        return text.encode()
