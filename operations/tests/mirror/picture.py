"""Draw a source, a destination that mirrors it between its commands, and the state that the mirror then has.

The built program serves a source on a file with a stopped clock, so every moment is one millisecond after the moment
before. `ropepeach mirror` runs on a folder; some commands go to the source before some of its requests. After both runs
the folder must equal the source at the reported moment, byte for byte; otherwise no picture is drawn.
"""
import collections
import contextlib
import http.client
import os
import pathlib
import subprocess

from operations.tests.mirror.mirrors import SECONDS, files_of
from operations.tests.mirror.within import engine_of
from ropepeach.http.client import Client
from tests.pictures.svg import FILLS, INK, SOFT, Picture
from tests.program import STILL_CLOCK, Differs, interposed
from tests.served_source import free_port

# Commands before the first run, and commands before the request of a number, counted over both runs.
BEFORE = [("PUT", "a", "1"), ("PUT", "b", "1"), ("POST", "", "")]
COMMANDS = {4: [("PUT", "a", "2"), ("DELETE", "b", "")], 7: [("PUT", "c", "1")]}
# The paths of documents. A destination finds the lists by the first two.
FINDING = ["/.well-known/resourcesync", "/capabilitylist.xml"]
LISTS = {"/resourcelist.xml": "Resource List", "/changelist.xml": "Change List"}
# A command with its moment and the resources after it; a fetch with its path and its result; the end of a run with the
# moment that it reported.
Command = collections.namedtuple("Command", "text moment resources")
Fetch = collections.namedtuple("Fetch", "path body")
End = collections.namedtuple("End", "until")


class Story:
    """The events between a source and a destination, column by column."""

    def __init__(self, port, changed):
        self.port, self.changed = port, changed
        self.columns, self.resources, self.states, self.requests = [], {}, {}, 0

    def command(self, method, name, value):
        """Send one command, and record the resources after it."""
        path = f"/resource/{name}" if name else "/publish"
        connection = http.client.HTTPConnection("127.0.0.1", self.port, timeout=SECONDS)
        with contextlib.closing(connection):
            connection.request(method, path, value.encode(), {"Content-Type": "text/plain"})
            response = connection.getresponse()
            response.read()
        if response.status not in (200, 201, 204):
            raise Differs(f"{method} {path} was answered {response.status}")
        text = {"PUT": f"put {name} = {value}", "DELETE": f"delete {name}", "POST": "publish"}[method]
        others = {key: old for key, old in self.resources.items() if key != name}
        self.resources = others | {name: value} if method == "PUT" else others
        moment = f"2000-02-29T00:00:00.{len(self.states):03d}Z"
        self.states[moment] = self.resources
        self.columns.append(Command(text, moment, self.resources))

    def ask(self, asking, path, limit):
        """Answer a destination's request after the commands that precede it, and record it."""
        for arguments in COMMANDS.get(self.requests, []):
            self.command(*arguments)
        self.requests += 1
        answer = asking("GET", path, limit=limit)
        body = answer.body.decode() if path.startswith("/resource/") else ""
        self.columns.append(Fetch(path, body if answer.status == 200 else str(answer.status)))
        return answer

    def run(self, base, folder):
        """Run the destination, and compare the folder with the state at the reported moment."""
        client = Client(base)
        asking = client.ask
        client.ask = lambda method, path, limit: self.ask(asking, path, limit)
        engine = engine_of(client, folder)
        try:
            engine.go(engine.folder.until is None)
            until = engine.folder.until
        finally:
            engine.folder.close()
        self.changed(pathlib.Path(folder))
        found = files_of(pathlib.Path(folder))
        if found != {name: value.encode() for name, value in self.states[until].items()}:
            raise Differs(f"the folder has {found}, and at {until} {self.states[until]} was held")
        self.columns.append(End(until))


@contextlib.contextmanager
def served(program, room):
    """Yield the port of a new source that is served with a stopped clock."""
    port, file = free_port(), pathlib.Path(room, "mirrored.disk")
    file.unlink(missing_ok=True)
    words = [program, "format", file, "65536", f"http://127.0.0.1:{port}", "1000"]
    subprocess.run(words, check=True, capture_output=True)
    words, still = [program, "serve", file, str(port), "1000"], interposed(room, "clock", STILL_CLOCK)
    with subprocess.Popen(words, stdout=subprocess.PIPE, env=still) as server:
        try:
            server.stdout.readline()
            yield port
        finally:
            server.kill()


def story(program, room, changed):
    """Return all columns from real runs."""
    with served(program, room) as port:
        events = Story(port, changed)
        for arguments in BEFORE:
            events.command(*arguments)
        for _ in range(2):
            events.run(f"http://127.0.0.1:{port}", os.path.join(room, "mirror"))
    return events.columns


TOLD = ["Above, the commands of a source, each with the point of its history that it makes. Below, what a destination "
        "fetches meanwhile.", "A run ends at the point where the source was when its Change List was last read "
        "(dashed); later commands are for the next run."]
# Positions in the picture, and the widths of columns.
SOURCE, HISTORY, ABOVE, FETCHES, BELOW, RIGHT = 122, 172, 234, 316, 378, 870
WIDE, WIDEST = 46, 62


def spelled(resources):
    """Return resources as the picture writes them."""
    return [f"{name} = {value}" for name, value in sorted(resources.items())]


def placed(columns):
    """Return the columns with the middles of their places. The two fetches that find the lists are one column."""
    found, x = [], 30
    for column in columns:
        if isinstance(column, Fetch) and column.path == FINDING[1]:
            continue
        width = WIDEST if isinstance(column, End) else WIDE
        found.append((x + width / 2, column))
        x += width
    return found


def draw_command(picture, x, command, number):
    """Draw a command above, and below it the point of the history that it makes."""
    what, _, of = command.text.partition(" ")
    picture.lines(x, SOURCE, [what, of] if of else ["", what], 12, anchor="middle")
    picture.element("circle", cx=x, cy=HISTORY, r=10, fill=FILLS["dir"], stroke=INK)
    picture.text(x, HISTORY + 4, str(number), 11, "middle", True)
    picture.lines(x, HISTORY + 28, spelled(command.resources), 11, anchor="middle", is_code=True)


def draw_fetch(picture, x, fetch):
    """Draw a fetch below: the path, and the content of a resource."""
    picture.box(x - 5, FETCHES - 5, 10, 10, FILLS["rec"], INK)
    name = fetch.path.removeprefix("/resource/")
    lines = [f"get {name}", fetch.body if fetch.body == "404" else f"{name} = {fetch.body}"]
    if fetch.path in FINDING:
        lines = ["finds", "the lists"]
    elif fetch.path in LISTS:
        lines = LISTS[fetch.path].split(" ")
    picture.lines(x, FETCHES + 24, lines, 10, anchor="middle")


def draw_end(picture, x, number, point, read):
    """Draw the end of a run, with an arrow to the point of the mirror, and the last read of the Change List."""
    lane = ABOVE + 14 * point[0] % 28
    picture.line(read, FETCHES - 6, read, HISTORY, SOFT, stroke_dasharray="3,3")
    picture.arrow([(x, FETCHES - 8), (x, lane + 14), (point[1], lane + 14), (point[1], ABOVE - 6)], stroke_width=1.5)
    picture.element("circle", cx=x, cy=FETCHES, r=8, fill=FILLS["pub"], stroke=INK)
    picture.lines(x, FETCHES + 24, ["the mirror", f"is point {number}"], 10, anchor="middle", font_weight="bold")


def draw_run(picture, begin, end, text):
    """Draw a bracket below the fetches of a run."""
    picture.element("path", d=f"M{begin:.1f} {BELOW - 6}V{BELOW}H{end:.1f}V{BELOW - 6}", fill="none", stroke=SOFT)
    picture.text((begin + end) / 2, BELOW + 16, text, 12, "middle", fill=SOFT)


def as_it_is(folder):
    """Leave a mirror unchanged."""


def draw(program, room, changed=as_it_is):
    """Return the picture; `changed` may change the mirror after each run."""
    columns = story(program, room, changed)
    picture = Picture(900, 408, "A destination between the commands of a source", description(columns))
    picture.text(30, 34, "A destination between the commands of a source", 17, font_weight="bold")
    picture.lines(30, 56, TOLD, 12, fill=SOFT)
    picture.text(30, 102, "the source", 12, font_weight="bold")
    picture.text(30, FETCHES - 18, "the destination", 12, font_weight="bold")
    picture.line(30, HISTORY, RIGHT, HISTORY, INK)
    picture.line(30, FETCHES, RIGHT, FETCHES, INK)
    points, begin, read, runs = {}, None, None, iter(["first run: a baseline", "second run: an increment"])
    for x, column in placed(columns):
        if isinstance(column, Command):
            points[column.moment] = (len(points) + 1, x)
            draw_command(picture, x, column, len(points))
        elif isinstance(column, Fetch):
            begin, read = begin or x, x if LISTS.get(column.path) == "Change List" else read
            draw_fetch(picture, x, column)
        else:
            draw_end(picture, x, points[column.until][0], points[column.until], read)
            draw_run(picture, begin - 12, x + 12, next(runs))
            begin = None
    return picture


def description(columns):
    """Return the picture in words."""
    events, points = [], {}
    for column in columns:
        if isinstance(column, Command):
            points[column.moment] = len(points) + 1
            resources = " and ".join(spelled(column.resources)) or "nothing"
            events.append(f"the source does {column.text}, point {points[column.moment]}, and holds {resources}")
        elif isinstance(column, Fetch):
            events.append(f"the destination fetches {column.path}{', which is ' + column.body if column.body else ''}")
        else:
            events.append(f"the run ends, and the mirror is point {points[column.until]}")
    return "A time line, from left to right: " + "; ".join(events) + "."
