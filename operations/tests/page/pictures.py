"""Draw the pictures of the page in operations/docs/pictures: eight states of a fake source, in a window and on a
telephone. The source has a host name that the browser resolves to loopback.
"""
import dataclasses
import io
import pathlib
import time
from collections.abc import Callable

from PIL import Image

from operations.tests.page import fake as fakes
from operations.tests.page.browser import NARROW, Browser
from operations.tests.page.looked import SOON, Looked, Shown, exchanged
from tests.program import ROOT, room_in_memory
from tests.served_source import free_port

FOLDER = ROOT / "operations/docs/pictures"
BASE = "http://archive.example.org"
WINDOW = (1_080, 600)
COLOURS, MOST_BYTES = 112, 50_000
DECODED = ["%E8%AB%96%E6%96%87/%E8%A6%81%E6%97%A8%202026.pdf", "letters/M%C3%BCller%201911.pdf",
           "letters/%E2%80%AEfdp.exe"]
CLOSED, DOWN, NONE = (503, "text/plain", b"Closed\n"), (502, "text/html", b"x"), (404, "text/plain",
                                                                                  b"NoSuchDocument\n")
CHOSEN = f"location.hash = '#search=letters/&resource={DECODED[1].replace('%', '%25')}'"
VIEW = "document.activeElement.blur(); document.querySelector('.holdings').scrollIntoView()"


def archive(base: str) -> fakes.Fake:
    """Return a source whose last change was two hours ago, with names in several scripts."""
    last = fakes.archive(base, 620).changes[-1].moment
    fake = fakes.archive(base, 620, begun=time.time_ns() // 1_000_000 - (last - fakes.BEGUN) - 2 * fakes.HOUR)
    begun = fake.changes[-1].moment
    for number, name in enumerate(DECODED, 1):
        body = name.encode() * 40 * number
        fake.changes.append(fakes.entry_of(name, body, begun + number * 60_000, "created", "application/pdf"))
        fake.bodies[name] = ("application/pdf", body)
    return fakes.published(fake, begun + 300_000)


def unlawful(fake: fakes.Fake) -> fakes.Fake:
    """Return the source with a name that mirrors refuse."""
    last = fake.changes[-1].moment
    changes = [*fake.changes, fakes.entry_of("letters/../../etc/passwd", b"body", last + 400_000, "created")]
    return fakes.published(dataclasses.replace(fake, changes=changes), last + 500_000)


def damaged(fake: fakes.Fake) -> fakes.Fake:
    """Return the source with a byte changed in every thirtieth body."""
    bad = {name: (kind, body and body[:-1] + bytes([body[-1] ^ 1])) for name,
           (kind, body) in [*fake.bodies.items()][::30]}
    return dataclasses.replace(fake, bodies=fake.bodies | bad)


def with_host_name(settings: str) -> str:
    """Return the settings of nginx for the host name."""
    return exchanged(settings, "server_name 127.0.0.1;", f"server_name {BASE.removeprefix('http://')};")


def again(browser: Browser) -> None:
    """Reload the lists."""
    browser.click("again")


def choose(browser: Browser) -> None:
    """Search, choose one resource, and check it."""
    browser.run(CHOSEN)
    browser.until("return document.querySelector('.card h3')", "the card")
    browser.click("check")
    browser.until("return document.querySelector('[data-part=outcome]').dataset.kind === 'agrees'",
                  "the check")
    browser.run(VIEW)


def check(browser: Browser) -> None:
    """Check a hundred resources."""
    browser.click("check-some")
    browser.state("Disagrees")
    browser.until("return document.querySelector('[data-part=bar]').hidden", "the end of the checks")


@dataclasses.dataclass(frozen=True)
class Picture:
    """A state: its file, its word, the change of the source after the page opens, and the steps of a reader."""

    name: str
    word: str
    become: Callable[[fakes.Fake], fakes.Fake] = lambda fake: fake
    act: Callable[[Browser], None] = again
    scheme: str = "light"
    window: tuple[int, int] = WINDOW


def refusing(refusal: tuple[int, str, bytes]) -> Callable[[fakes.Fake], fakes.Fake]:
    """Return a function that makes a source send this response to every request."""
    return lambda fake: dataclasses.replace(fake, refusal=refusal)


PICTURES = [
    Picture("open", "Open"), Picture("empty", "Empty", lambda fake: fakes.Fake(fake.base)),
    Picture("closed", "Closed", refusing(CLOSED), scheme="dark"),
    Picture("unreachable", "Unreachable", refusing(DOWN)), Picture("gone", "Gone", refusing(NONE)),
    Picture("disagrees", "Disagrees", damaged, check),
    Picture("refused", "Not mirrorable", unlawful),
    Picture("resource", "Open", act=choose, scheme="dark", window=(1_280, 600)),
]


def taken(browser: Browser, name: str) -> None:
    """Write a picture of the view, with few colours."""
    image = Image.open(io.BytesIO(browser.picture())).convert("RGB").quantize(COLOURS,
                                                                              dither=Image.Dither.NONE)
    place = FOLDER / f"page-{name}.png"
    image.save(place, optimize=True)
    if place.stat().st_size > MOST_BYTES:
        raise ValueError(f"{name} has {place.stat().st_size} bytes, more than {MOST_BYTES}")
    print(f"{place.name}: {place.stat().st_size} bytes", flush=True)


def drawn(browser: Browser, shown: Shown, fake: fakes.Fake, picture: Picture) -> None:
    """Draw the pictures of one state."""
    for size, ending in ((picture.window, ""), (NARROW, "-phone")):
        shown.is_now(fake)
        browser.open("about:blank")
        browser.open(f"{shown.base}/", size, picture.scheme)
        browser.state("Open")
        shown.is_now(picture.become(fake))
        picture.act(browser)
        browser.state(picture.word)
        browser.run("document.activeElement.blur()")
        taken(browser, f"{picture.name}{ending}")


def draw(program: str) -> int:
    """Draw all pictures; return the exit status."""
    port = free_port()
    with room_in_memory("page-") as room:
        place = f"--host-resolver-rules=MAP archive.example.org:80 127.0.0.1:{port}"
        browser = Browser(room, place, f"--unsafely-treat-insecure-origin-as-secure={BASE}")
        try:
            look = Looked(program, pathlib.Path(room), browser)
            with look.hurried(*SOON), look.fake(archive, with_host_name, BASE, port) as shown:
                fake = shown.fake
                for picture in PICTURES:
                    drawn(browser, shown, fake, picture)
        finally:
            browser.close()
    return 0
