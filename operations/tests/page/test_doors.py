"""Test attacks of hostile pages on a source through its site, and the requests and scripts of the page itself."""
import contextlib
import itertools
import shutil

from operations.tests.collection.host import Host, request as request_source
from operations.tests.page import fake as fakes
from operations.tests.page.browser import Asking
from operations.tests.page.looked import IN_BROWSER, Looked, put, request
from operations.tests.page.site import PAGE
from operations.tests.tools.lists_server import serving

pytestmark = IN_BROWSER

# A hostile page, which writes the results of its requests into its title.
ASKS = """<title>begun</title><script>
document.title = "running";
const tries = [%s];
Promise.all(tries.map(([path, more]) => fetch(path, more).then((it) => it.status || "sent", () => "failed")))
  .then((them) => { document.title = `ended ${them.join(" ")}`; });
</script>"""
DELETE = '["%s/resource/treasure", {method: "DELETE"}]'
# Requests without a preflight: a browser sends them at once, and hides the response.
SIMPLE = """["%(base)s/group", {method: "POST", mode: "no-cors", body: "put csrf 6869 text/html\\ndelete treasure\\n"}],
["%(base)s/publish", {method: "POST", mode: "no-cors", body: ""}]"""
# A host name that the test browsers resolve to this machine (operations/tests/page/browser.py).
STRANGE_NAME = "rebound.example"
# Length of the longest bodies; the number of them that the page fetches unasked.
LONGEST, FETCHED, MANY = 16_777_216, 4, 7
ENDED = "return document.querySelector(`[data-part='checked']`).textContent.includes(' in ')"


def ended(browser: Asking) -> str:
    """Return the title of a hostile page, which has the results of its requests: `begun` if its script did not run."""
    whole = "return document.readyState === 'complete' && document.title !== 'running'"
    browser.until(whole, "the end of the requests")
    return str(browser.run("return document.title"))


def test_a_deposited_page_changes_nothing(look: Looked) -> None:
    """A page deposited in a collection changes no source, even if a reader opens it from a near address."""
    room = look.room / f"doors-{next(look.numbers)}"
    room.mkdir()
    with contextlib.chdir(room), Host(look.program, room, ["s1", "s2"]) as host:
        page = ASKS % ", ".join(DELETE % base for base in ("/s1", "/s2"))
        for name, server in host.sources.items():
            request_source(server.url, "/resource/treasure", "PUT", name.encode())
        put(host.sources["s1"].port, "paper.html", page.encode(), "text/html")
        look.chromium.driver.get(f"{host.address}/s1/resource/paper.html")
        title = ended(look.chromium)
        for name, server in host.sources.items():
            assert title == "begun"
            assert request(server.port, "GET", "/resource/treasure")[::2] == (200, name.encode()), name


def test_pages_of_other_hosts_change_nothing(look: Looked) -> None:
    """A page of another host, or of another port, changes no source, even if a reader opens it from a near address."""
    with look.source(lambda port: put(port, "treasure", b"here")) as (base, _, _):
        text = ASKS % f"{SIMPLE % {'base': base}}, {DELETE % base}"
        with serving(lambda path: (200, "text/html", text.encode())) as server:
            for address in (server.url, server.url.replace("127.0.0.1", "localhost")):
                look.chromium.driver.get(f"{address}/evil.html")
                assert ended(look.chromium)[:5] == "ended"
                port = int(base.rpartition(":")[2])
                assert request(port, "GET", "/resource/treasure")[::2] == (200, b"here")
                assert request(port, "GET", "/resource/csrf")[0] == 404


def test_a_rebound_host_name_gets_nothing(look: Looked) -> None:
    """A page of another host name that resolves to the site (DNS rebinding) can neither read nor write."""
    with look.source(lambda port: put(port, "treasure", b"here")) as (base, _, _):
        port = int(base.rpartition(":")[2])
        look.chromium.driver.get(f"http://{STRANGE_NAME}:{port}/")
        found = look.chromium.run_slowly("""
            const [done] = arguments;
            const status = (more) => fetch("/resource/treasure", more).then((it) => it.status, () => "failed");
            Promise.all([status({}), status({method: "DELETE"}), status({method: "PUT", body: "x"})]).then(done);""")
        assert set(found) <= {421, "failed"}, f"what a page of that name gets, {found}"
        assert request(port, "GET", "/resource/treasure")[::2] == (200, b"here")


def test_the_page_runs_no_script_and_no_style_of_a_depositor(look: Looked) -> None:
    """The page runs no script and applies no style that is a resource of the same host."""
    def fill(port: int) -> None:
        put(port, "evil.js", b"window.ran.push('a resource')", "text/javascript")
        put(port, "evil.css", b"body { display: none }", "text/css")

    with look.source(fill) as (base, _, _):
        look.chromium.open(f"{base}/")
        look.chromium.state("Open")
        look.is_well()
        for element, where, ending in (("script", "src", "js"), ("link", "href", "css")):
            look.chromium.run_slowly("""
                const [element, where, address, done] = arguments, it = document.createElement(element);
                it.onload = it.onerror = () => done();
                it.rel = "stylesheet";
                it[where] = address;
                document.head.append(it);""", element, where, f"{base}/resource/evil.{ending}")
        found = look.chromium.faults()
        refused = sorted(line.partition(" ")[0] for line in found["refused"])
        assert (refused, found["ran"]) == (["script-src-elem", "style-src-elem"], [])


def large(base: str) -> fakes.Fake:
    """Return a source of the longest bodies."""
    fake, body = fakes.Fake(base), bytes(LONGEST)
    for number in range(MANY):
        fake.changes.append(fakes.entry_of(f"{number}", body, fakes.BEGUN + number, "created", "a/b"))
        fake.bodies[f"{number}"] = ("a/b", body)
    return fakes.published(fake, fakes.BEGUN + 100)


def test_a_check_fetches_at_most_64_mib_unasked(look: Looked) -> None:
    """The page offers to check the other bodies, with their number and bytes."""
    with look.fake(large) as shown:
        look.chromium.open(f"{shown.base}/")
        look.chromium.state("Open")
        look.chromium.click("check-some")
        look.chromium.until(ENDED, "the end of the checks")
        assert sum("/resource/" in path for path in shown.server.paths()) == FETCHED
        assert look.chromium.text("check-rest") == f"Check the other {MANY - FETCHED} (50.3 MB)"
        assert look.chromium.text("checked").partition(" in ")[0] == f"{FETCHED} agree; 67.1 MB"
        is_hidden = look.chromium.run("""
            const button = document.querySelector("[data-part='check-rest']");
            button.click();
            return button.hidden;""")
        assert is_hidden
        others = f"return /^{MANY - FETCHED} agree;/.test(document.querySelector(`[data-part='checked']`).textContent)"
        look.chromium.until(others, "the end of the others")
        found = sorted(path for path in shown.server.paths() if "/resource/" in path)
        assert found == [f"/resource/{number}" for number in range(MANY)]
        is_hidden = look.chromium.run("return document.querySelector(`[data-part='check-rest']`).hidden")
        assert is_hidden
        look.is_well()


def opens_a_tab(browser: Asking, address: str) -> None:
    """Check that the addresses of a source, of a search in it and of its base open its tab."""
    tab = "return document.querySelector('.tab[aria-selected=true]')?.textContent"
    browser.open(f"{address}/s2/")
    browser.equals("s2", tab)
    browser.equals("1.txt", "return document.querySelector('#panel-2 .resources .row')?.firstChild.textContent")
    browser.open("about:blank")
    browser.open(f"{address}/#source=s2&search=1.txt")
    found = "return [...document.querySelectorAll('#panel-2 .resources .row')].map((it) => it.firstChild.textContent)"
    browser.equals(["1.txt"], found)
    assert browser.run(tab) == "s2"


def test_a_collection_below_one_host_is_shown(look: Looked) -> None:
    """The page shows sources, one or many, whose bases are paths of its own host."""
    for names in (["s1", "s2"], ["s1"]):
        room = look.room / f"doors-{next(look.numbers)}"
        shutil.copytree(PAGE, room / "page")
        look.edit(room / "page")
        with contextlib.chdir(room), Host(look.program, room, names, page=room / "page") as host:
            thrice = itertools.chain.from_iterable(host.sources.values() for _ in range(3))
            for number, server in enumerate(thrice):
                put(server.port, f"{number}.txt", b"a body")
            look.chromium.open(f"{host.address}/")
            if len(names) == 1:
                look.chromium.state("Open")
                assert look.chromium.text("resources") == "3"
            else:
                look.chromium.until("return document.querySelector('.sums')", "the sums")
                both = "return document.querySelectorAll('.sums .tone[data-tone=good]').length === 2"
                look.chromium.until(both, "both are open")
                figures = look.chromium.text("resources"), look.chromium.text("size")
                assert figures == ("6", "36 bytes")
                opens_a_tab(look.chromium, host.address)
            look.is_well()
