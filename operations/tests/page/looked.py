"""Give tests of the page a folder, the program, a browser, and fake sources behind nginx with the page."""
import contextlib
import http.client
import itertools
import pathlib
import re
import subprocess
from collections.abc import Callable, Iterator
from contextlib import AbstractContextManager
from email.message import Message

import pytest

from operations.tests.page.browser import Asking, Browser
from operations.tests.page.fake import Fake
from operations.tests.page.site import site
from operations.tests.tools.lists_server import Server, serving
from tests.served_source import free_port

SECONDS = 20
# Marks of modules of tests of the page, which share their browsers.
IN_BROWSER = [pytest.mark.needs("chromium", "chromedriver", "nginx"), pytest.mark.xdist_group("page"),
              pytest.mark.timeout(300)]
# Seeds of random tests; the long form draws more.
SEEDS = pytest.mark.parametrize("seed", [1, *(pytest.param(seed, marks=pytest.mark.long) for seed in range(2, 12))])
# A change of the page: the site caches no list here, so checks need not wait for a fresh one.
SOON = "checks.js", "OLDEST = 2_500", "OLDEST = 100"


def exchanged(text: str, old: str, new: str) -> str:
    """Replace the only occurrence of an old text in a text."""
    assert text.count(old) == 1, f"{old!r} is there {text.count(old)} times"
    return text.replace(old, new)


def replaced(file: pathlib.Path, old: str, new: str) -> None:
    """Replace the only occurrence of an old text in a file."""
    file.write_text(exchanged(file.read_text(), old, new))


def request(port: int, method: str, path: str, body: bytes | None = None,
            **fields: str) -> tuple[int, Message, bytes]:
    """Return the status of a response, its headers, and its body."""
    connection = http.client.HTTPConnection("127.0.0.1", port, timeout=SECONDS)
    try:
        connection.request(method, path, body, fields)
        answer = connection.getresponse()
        return answer.status, answer.headers, answer.read()
    finally:
        connection.close()


def put(port: int, name: str, body: bytes, kind: str = "text/plain") -> None:
    """Put a resource."""
    assert request(port, "PUT", f"/resource/{name}", body, **{"Content-Type": kind})[0] in (201, 204), f"put {name}"


Change = Callable[[str], str]


def unchanged(settings: str) -> str:
    """Return the installed settings of nginx unchanged."""
    return settings


class Shown:
    """A page and its source, which a test can replace."""

    def __init__(self, base: str, fake: Fake, server: Server) -> None:
        self.base, self.fake, self.server = base, fake, server

    def is_now(self, fake: Fake) -> None:
        """Replace the source."""
        self.fake, self.server.answer = fake, fake.answer()


class Looked:
    """A folder, the program, and a browser. `edit` changes the page."""

    def __init__(self, program: str, room: pathlib.Path, browser: Asking, is_long: bool = False) -> None:
        self.program, self.room, self.browser = program, room, browser
        self.edit: Callable[[pathlib.Path], None] = lambda page: None
        self.numbers = itertools.count()
        # The long form also measures elapsed time.
        self.is_long = is_long

    @property
    def chromium(self) -> Browser:
        """Return the browser, for commands that only Chromium has."""
        assert isinstance(self.browser, Browser)
        return self.browser

    def site(self, behind: int, port: int = 0, change: Change = unchanged,
             certificate: str = "") -> AbstractContextManager[int]:
        """Run nginx with the page in front of a port."""
        return site(self.room, behind, port, change, self.edit, certificate)

    @contextlib.contextmanager
    def hurried(self, file: str, old: str, new: str) -> Iterator[None]:
        """Change a constant of the page, to shorten its waits."""
        before = self.edit

        def edit(page: pathlib.Path) -> None:
            before(page)
            replaced(page / file, old, new)

        self.edit = edit
        try:
            yield
        finally:
            self.edit = before

    @contextlib.contextmanager
    def fake(self, make: Callable[[str], Fake], change: Change = unchanged, base: str = "", port: int = 0,
             certificate: str = "") -> Iterator[Shown]:
        """Run a fake source, made by a function of its base, behind nginx, with TLS if there is a certificate."""
        port = port or free_port()
        fake = make(base or f"http{'s' * bool(certificate)}://127.0.0.1:{port}")
        with serving(fake.answer()) as server, self.site(int(server.url.rpartition(":")[2]), port, change,
                                                         certificate):
            yield Shown(fake.base, fake, server)

    @contextlib.contextmanager
    def source(self, fill: Callable[[int], None],
               limit: int = 3) -> Iterator[tuple[str, pathlib.Path, subprocess.Popen[bytes]]]:
        """Run the program behind nginx, filled by a function of the port; return its base, file and process."""
        port, disk = free_port(), self.room / f"{next(self.numbers)}.disk"
        base = f"http://127.0.0.1:{port}"
        subprocess.run([self.program, "format", disk, str(4 << 20), base, str(limit)], check=True,
                       capture_output=True, timeout=SECONDS)
        with subprocess.Popen([self.program, "serve", disk, "0", "1000000"],
                              stdout=subprocess.PIPE) as server:
            try:
                assert server.stdout
                behind = int(server.stdout.readline().rpartition(b":")[2])
                with self.site(behind, port):
                    fill(port)
                    yield base, disk, server
            finally:
                server.kill()

    def status(self, disk: pathlib.Path) -> tuple[str, ...]:
        """Return the figures of `status` of a file, after its server has ended."""
        status = subprocess.run([self.program, "run", disk], input=b"status\n", capture_output=True, check=True,
                                timeout=SECONDS).stdout.decode()
        found = re.fullmatch(r"resources (\d+) changes (\d+) publication (\d+) last (\S+)\n", status)
        assert found, f"the status: {status[:200]!r}"
        return found.groups()

    def is_well(self) -> None:
        """Check that no script of the page failed, its policy refused no request, and no text of a source ran."""
        assert self.browser.faults() == {"faults": [], "refused": [], "ran": []}
