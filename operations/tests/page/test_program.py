"""Test the page with the program: its figures, and bodies on the same host."""
import signal

from operations.tests.page import scripts
from operations.tests.page.browser import Asking
from operations.tests.page.looked import IN_BROWSER, SECONDS, Looked, put, request
from operations.tests.tools.lists_server import serving

pytestmark = IN_BROWSER

# Bodies that a browser would run, or show as another type. Browsers interpret the last types in two ways.
RAN = "document.documentElement.id = 'ran'"
SCRIPT, DRAWING = f"<script>{RAN}</script>", f'<svg xmlns="http://www.w3.org/2000/svg"><script>{RAN}</script></svg>'
BODIES = {
    "evil.html": ("text/html", f'<title>still</title>{SCRIPT}<img src=x onerror="{RAN}">'),
    "evil.svg": ("image/svg+xml", DRAWING),
    "evil.xml": ("application/xml", DRAWING), "two": ("text/plain;a,text/html", SCRIPT),
    "upper": ("Text/HTML; charset=utf-8", SCRIPT),
    "sniffed": ("text/plain", f"<html>{SCRIPT}"),
}
# Files of the page.
FILES = {"/": "text/html", "/?a": "text/html", "/site/main.js": "text/javascript",
         "/site/style.css": "text/css", "/site/mark.svg": "image/svg+xml"}
# Names that nginx would decode to paths of the page's files.
LIKE_THE_PAGE = ["a%2F..%2F..%2Fsite%2Fmain.js", "a%2F..%2F..%2F", "a%2F..%2F..%2F@page",
                 "a%2F..%2F..%2Findex.html", "site/main.js"]


def filled(port: int) -> None:
    """Put ten resources in parts, publish, and make a change of every kind."""
    for number in range(10):
        put(port, f"papers/{number}.txt", f"paper {number}".encode() * (number + 1))
    assert request(port, "POST", "/publish")[0] == 200
    put(port, "papers/3.txt", b"anew")
    put(port, "papers/new.csv", b"a,b\n1,2\n", "text/csv")
    assert request(port, "DELETE", "/resource/papers/0.txt")[0] == 204


def figures(browser: Asking) -> tuple[str, str, str, str, str]:
    """Return the page's figures, without separators and units."""
    def number(part: str) -> str:
        return browser.text(part).replace(",", "").removesuffix(" bytes")

    size = number("bytes") or number("size")
    return number("resources"), size, number("changes"), browser.text("published-age"), browser.text("changed")


def test_the_figures_are_those_of_status(look: Looked) -> None:
    """The page shows the figures of `status`; bytes are those of the bodies."""
    browser = look.chromium
    with look.source(filled) as (base, disk, server):
        browser.open(f"{base}/")
        browser.state("Open")
        found, rows = figures(browser), browser.run(scripts.ROWS, "resources")
        browser.click("check-some")
        browser.until("return /; .* in/.test(document.querySelector(`[data-part='checked']`).textContent)",
                      "the end of the checks")
        assert browser.text("checked").partition(";")[0] == "10 agree"
        look.is_well()
        server.kill()
        server.wait(SECONDS)
        resources, changes, publication, last = look.status(disk)
        size = sum(len(f"paper {number}") * (number + 1) for number in range(1, 10)
                   if number != 3) + len("anew") + len("a,b\n1,2\n")
        wanted = resources, str(size), changes, f"number {publication}, just now", last[:19].replace("T", " ")
        assert found[:3] + (found[3].partition(", ")[0] + ", just now", found[4]) == wanted
        assert [row[0] for row in rows] == [f"papers/{number}.txt" for number in range(1, 10)] + ["papers/new.csv"]


def test_an_empty_source_is_shown(look: Looked) -> None:
    """The page of an empty source shows no resource and no publication."""
    browser = look.chromium
    with look.source(lambda port: None) as (base, _, _):
        browser.open(f"{base}/")
        browser.state("Empty")
        found = [browser.text(part) for part in ("resources", "size", "changes", "changed", "published")]
        assert found == ["0", "0 bytes", "0", "never", "never"]
        assert browser.text("filling") == f"ropepeach fill FOLDER {base}"
        assert not browser.run("return document.querySelector('.source .banner').checkVisibility()")
        assert browser.run("return document.querySelector('[data-part=copyfilling]').checkVisibility()")
        for kind, is_shown in (("filling", True), ("checking", False), ("timeline", False),
                               ("holdings", False)):
            is_seen = browser.run("return document.querySelector(`.${arguments[0]}`).checkVisibility()", kind)
            assert is_seen == is_shown, f"{kind} is shown"
        for button in ("check-some", "again"):
            browser.click(button)
        browser.state("Empty")
        put(int(base.rpartition(":")[2]), "first", b"a body")
        browser.click("again")
        browser.state("Open")
        assert browser.run("return document.querySelector('.checking').checkVisibility()")
        look.is_well()


def bare(path: str) -> tuple[int, str, bytes]:
    """Return the response of a server that adds no fields to a body."""
    kind, body = BODIES.get(path.removeprefix("/"), ("text/plain", ""))
    return 200, kind, body.encode()


def test_no_body_runs_in_the_browser(look: Looked) -> None:
    """No body of any type runs. Documents and PDF have no sandbox, and every response has nosniff."""
    def fill(port: int) -> None:
        for name, (kind, body) in BODIES.items():
            put(port, name, body.encode(), kind)
        put(port, "paper.pdf", b"%PDF-1.4", "application/pdf")

    with serving(bare) as server:
        # A server without the site's fields: a browser runs all bodies but the last, so this test can detect a run.
        for name in BODIES:
            look.chromium.driver.get(f"{server.url}/{name}")
            found = look.chromium.run("return document.documentElement.id")
            assert found == ("ran" if name != "sniffed" else ""), f"{name} without the site"
    with look.source(fill) as (base, _, _):
        port = int(base.rpartition(":")[2])
        for name in BODIES:
            status, fields, _ = request(port, "GET", f"/resource/{name}")
            sent = status, fields["Content-Security-Policy"], fields["X-Content-Type-Options"]
            assert sent == (200, "sandbox", "nosniff"), name
            look.chromium.driver.get(f"{base}/resource/{name}")
            assert look.chromium.run("return document.documentElement.id") == "", f"{name} ran"
        for path in ("/resource/paper.pdf", "/changelist.xml", "/.well-known/resourcesync"):
            status, fields, _ = request(port, "GET", path)
            sent = status, fields["Content-Security-Policy"], fields["X-Content-Type-Options"]
            assert sent == (200, None, "nosniff"), path
        page = request(port, "GET", "/")[1]
        own = f"default-src 'none'; script-src {base}/site/; style-src {base}/site/;"
        for words in (own, "base-uri 'none'", "form-action 'none'", "frame-ancestors 'none'"):
            assert words in (page["Content-Security-Policy"] or ""), f"the page's policy has {words}"
        assert not ("unsafe" in page["Content-Security-Policy"])


def test_no_resource_replaces_a_file_of_the_page(look: Looked) -> None:
    """The path of a file leads to the page, even if the decoded name of a resource equals it."""
    def fill(port: int) -> None:
        for number, name in enumerate(LIKE_THE_PAGE):
            put(port, name, b"%d" % number)

    with look.source(fill) as (base, _, _):
        port = int(base.rpartition(":")[2])
        for number, name in enumerate(LIKE_THE_PAGE):
            status, fields, body = request(port, "GET", f"/resource/{name}")
            assert (status, body, fields["Content-Security-Policy"]) == (200, b"%d" % number, "sandbox"), name
        for path, kind in FILES.items():
            status, fields, _ = request(port, "GET", path)
            assert (status, fields["Content-Type"].partition(";")[0]) == (200, kind), path
        for path in ("/site/", "/site/none.js", "/site/..%2Findex.html", "/@page", "/index.html"):
            assert request(port, "GET", path)[0] == 404, path
        assert request(port, "POST", "/")[0] == 405


def test_a_person_gets_a_page_where_nothing_is_held(look: Looked) -> None:
    """A client that names text/html gets a page with the name and a search for it; others get the program's word."""
    name = "a%22%3Cb/%C3%BC'&c"
    with look.source(lambda port: put(port, "held.txt", b"held")) as (base, _, _):
        port = int(base.rpartition(":")[2])
        for accept in ("*/*", ""):
            status, fields, body = request(port, "GET", f"/resource/{name}", Accept=accept)
            assert (status, body, fields["Vary"]) == (404, b"NotHeld\n", "Accept"), accept
        status, fields, body = request(port, "GET", f"/resource/{name}", Accept="text/html,*/*;q=0.8")
        assert (status, fields["Content-Type"].partition(";")[0], fields["Vary"]) == (404, "text/html", "Accept")
        page = body.decode()
        assert "a%22%3Cb/%C3%BC" in page and "'&c" not in page
        assert "default-src 'none'" in (fields["Content-Security-Policy"] or "")
        status, fields, body = request(port, "GET", "/resource/held.txt", Accept="text/html")
        assert (status, body, fields["Content-Security-Policy"], fields["Vary"]) == (200, b"held", "sandbox", None)
        assert request(port, "GET", "/site/missing.html")[0] == 404
        look.chromium.driver.get(f"{base}/resource/none/M%C3%BCller")
        look.chromium.run("document.querySelector('a').click()")
        look.chromium.equals("#search=none/M%C3%BCller", "return location.hash")
        look.chromium.equals("none/Müller", "return document.querySelector('[data-part=search]')?.value ?? ''")


def test_changes_and_the_end_of_a_source_are_shown(look: Looked) -> None:
    """The page polls: it shows new changes, and keeps the last figures after the program ends."""
    browser = look.chromium
    with look.hurried("main.js", "EVERY = 30_000", "EVERY = 300"), look.source(filled) as (base, _, server):
        browser.open(f"{base}/")
        browser.state("Open")
        server.send_signal(signal.SIGSTOP)
        browser.until("return document.querySelector(`[data-part='again']`).ariaDisabled === 'true'",
                      "a reading that waits")
        server.send_signal(signal.SIGCONT)
        put(int(base.rpartition(":")[2]), "late", b"late")
        browser.until("return document.querySelector(`[data-part='resources']`).textContent === '11'",
                      "the new resource")
        server.kill()
        server.wait(SECONDS)
        browser.state("Unreachable")
        assert browser.text("resources") == "11"
        assert "502" in browser.text("why")
        look.is_well()
