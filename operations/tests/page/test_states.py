"""Test the page with hostile, lying, closed, missing and multiple fake sources."""
import dataclasses
import json
import re
import threading
from collections.abc import Callable
from pathlib import Path

import pytest

from operations.tests.page import fake as fakes, scripts
from operations.tests.page.browser import Asking
from operations.tests.page.fake import current
from operations.tests.page.looked import IN_BROWSER, SECONDS, SOON, Looked, Shown, exchanged
from operations.tests.system import install_shared
from operations.tests.tools.lists_server import always, serving
from tests.served_source import free_port

pytestmark = IN_BROWSER

# The texts of two parts of a panel.
WHY, CHECKED = (f"document.querySelector(`[data-part='{part}']`).textContent" for part in ("why", "checked"))
# Names and types with markup, great length, or characters that reverse text. The program accepts only valid ones.
HOSTILE = [
    ("<img src=x onerror=\"window.ran.push('name')\">", "<img src=x onerror=\"window.ran.push('type')\">"),
    ("\"'><script>window.ran.push('script')</script>",
     "text/html\"><script>window.ran.push('type')</script>"),
    ("a&amp;lt;b&lt;c", "text/x;a=\"'&amp;\""), ("\u202egpj.exe", "text/\u202eplain"),
    ("\u05e9\u05dc\u05d5\u05dd/\u05e2", "text/\u200fplain"),
    ("l" * 2_000, "text/" + "t" * 2_000),
    ("javascript:window.ran.push('url')", "javascript:window.ran.push('url')"), ("../../up", "a/b"),
    ("\U0001f600\u00e9", "a/\u00e9"), ("__proto__", "__proto__"), ("constructor", "toString"),
    ("hasOwnProperty", "valueOf"),
]
# The list shows a media type without its parameters.
LABELS = {"text/x;a=\"'&amp;\"": "text/x"}
# Characters that reverse text are shown as escaped bytes of UTF-8.
TURNING = {"\u202egpj.exe": "%E2%80%AEgpj.exe", "text/\u202eplain": "text/%E2%80%AEplain",
           "text/\u200fplain": "text/%E2%80%8Fplain"}


def hostile(base: str) -> fakes.Fake:
    """Return a source whose names and types have HTML, quotes and characters that reverse text."""
    fake = fakes.Fake(base)
    for number, (name, kind) in enumerate(HOSTILE):
        fake.changes.append(fakes.entry_of(name, b"body", fakes.BEGUN + number, "created", kind))
    return fakes.published(fake, fakes.BEGUN + 100)


def test_markup_in_names_and_types_is_shown_as_text(look: Looked) -> None:
    """No markup runs, and no element is wider than the page."""
    browser = look.chromium
    wanted = {TURNING.get(name, name): TURNING.get(kind, kind) for name, kind in HOSTILE}
    with look.fake(hostile) as shown:
        browser.open(f"{shown.base}/", (1280, 2_000))
        browser.state("Not mirrorable")
        assert "../../up" in browser.text("why")
        labels = sorted((name, LABELS.get(kind, kind)) for name, kind in wanted.items())
        assert sorted(tuple(row[:2]) for row in browser.run(scripts.ROWS, "resources")) == labels
        for number, name in enumerate(browser.run(scripts.ROWS, "resources")):
            browser.run("document.querySelectorAll('.resources .row')[arguments[0]].click()", number)
            assert browser.text("name") == name[0]
            assert browser.text("type") == wanted[name[0]]
        browser.click("check-some")
        browser.until("return /; .* in/.test(document.querySelector(`[data-part='checked']`).textContent)",
                      "the end of the checks")
        assert browser.run(scripts.STRANGE) == 0
        assert browser.run(scripts.WIDER) == []
        look.is_well()


# Single replacements in a document that make it invalid XML, the same document in other words, or another document.
BROKEN = [("</url>", ""), ("</loc>", "</lac>"), ("<url>", "<url><url>"), ("</urlset>", "</urlset><a/>"),
          ("</urlset>", "</urlset>a"),
          ("</urlset>", ""), ("capability=", "x="), ("capability=", 'capability="a" capability='),
          ("&lt;", "<"), ("&lt;", "&no;"),
          ("&lt;", "&#0;"), ("&lt;", "&"),
          ("<rs:md", "<rs:md<"), ("/resource/", "/resource/<!-- a -- b -->"), ("<urlset", "<urlset x"),
          ("0.9", "0.8"), ("&lt;", "&#x3c;"),
          ("&lt;", "&#60;"), ("<loc>", "<!-- a --><loc>"), ("<loc>", "<loc >"), ('change="', "change = \n\""),
          ("<?xml", "<?xml?>\n<?xml")]


def referring(base: str) -> list[bytes]:
    """Return the documents of a source whose names and types have references."""
    fake = fakes.Fake(base)
    pairs = [("a&b", "a/b"), ("<c", "a/b"), ("d", "a/b;c=&<"), ("e", "a/b;c='d'"), ("f", 'a/b;c="d"')]
    fake.changes = [fakes.entry_of(name, b"body", fakes.BEGUN + at, "created", kind)
                    for at, (name, kind) in enumerate(pairs)]
    return [*fakes.published(fake, fakes.BEGUN + 100).documents().values()]


def test_the_page_reads_documents_as_the_browser_s_xml_parser_does(look: Looked) -> None:
    """The page and the browser's parser accept the same documents, and read the same texts."""
    with look.fake(hostile) as shown:
        look.chromium.open(f"{shown.base}/")
        look.chromium.state("Not mirrorable")
        archive = dataclasses.replace(fakes.archive(shown.base, 30), limit=10).documents().values()
        texts = [text.decode() for text in [*shown.fake.documents().values(), *archive, *referring(shown.base)]]
        right = shown.fake.documents()["/changelist.xml"].decode()
        texts += [right.replace(old, new, 1) for old, new in BROKEN] + [right[: len(right) // 2], "", "<a",
                                                                        "a"]
        found = look.chromium.run_slowly(scripts.READ_TWICE, texts)
        assert found["differing"] == []
        assert (found["read"] > 12, found["refused"] > 12) == (True, True)


def test_damaged_bodies_are_named(look: Looked) -> None:
    """The card, the list and the state name damaged bodies, unless they were put again meanwhile."""
    browser = look.chromium
    with look.hurried(*SOON), look.fake(fakes.lying) as shown:
        browser.open(f"{shown.base}/")
        browser.state("Open")
        browser.run("document.querySelectorAll('.resources .row')[0].click()")
        browser.click("check")
        browser.state("Disagrees")
        assert "Differs. Its SHA-256 is " in browser.text("outcome")
        browser.click("check-some")
        browser.until("return /; .* in/.test(document.querySelector(`[data-part='checked']`).textContent)",
                      "the end of the checks")
        assert "58 agree, 2 differ;" in browser.text("checked")
        assert "2 bodies are not as listed" in browser.text("why")
        assert set(browser.run(scripts.DIFFERING)) == {entry.name for entry in shown.fake.listed[:2]}
        marks = [row[4] for row in browser.run(scripts.ROWS, "resources")[:3]]
        assert marks == ["✗ differs", "✗ differs", "✓ agrees"]
        healed(browser, shown)
        look.is_well()


def healed(browser: Asking, shown: Shown) -> None:
    """Restore two bodies, and check that the page forgets their checks; then change a third before its check."""
    fake = shown.fake
    first, second, third = fake.listed[:3]
    last = fake.changes[-1].moment
    anew = [fakes.entry_of(entry.name, b"anew", last + number, "updated", entry.kind) for number,
            entry in enumerate((first, second), 1)]
    shown.is_now(dataclasses.replace(fake, changes=fake.changes + anew,
                                     bodies=fake.bodies | {entry.name: (entry.kind, b"anew") for entry in anew}))
    browser.click("again")
    browser.state("Open")
    later = fakes.entry_of(third.name, b"later", last + 3, "updated", third.kind)
    bodies = shown.fake.bodies | {third.name: (third.kind, b"later")}
    shown.is_now(dataclasses.replace(shown.fake, changes=shown.fake.changes + [later], bodies=bodies))
    browser.run("document.querySelectorAll('.resources .row')[2].click()")
    browser.click("check")
    browser.until("return /changed meanwhile/.test(document.getElementById('live').textContent)",
                  "a change meanwhile")
    browser.state("Open")


def contradicting(base: str) -> fakes.Fake:
    """Return a source whose Resource List and last change differ about a resource."""
    fake = fakes.archive(base, 60)
    fake.listed = [dataclasses.replace(fake.listed[0], length=1)] + fake.listed[1:]
    return fake


def test_lists_that_disagree_are_reported(look: Looked) -> None:
    """The page names the resource."""
    browser = look.chromium
    with look.fake(contradicting) as shown:
        browser.open(f"{shown.base}/")
        browser.state("Disagrees")
        assert f"have different facts of {shown.fake.listed[0].name}" in browser.text("why")
        good = fakes.archive(shown.base, 60)
        shown.is_now(dataclasses.replace(good, changes=good.changes[:-2] + good.changes[:-3:-1]))
        browser.click("again")
        browser.until(f"return /not in the order of its moments/.test({WHY})", "the order")
        shown.is_now(dataclasses.replace(good, changes=good.changes
                                         + [fakes.Entry("never/there", good.changes[-1].moment + 1,
                                                        "deleted")]))
        browser.click("again")
        browser.until(f"return /never\\/there as deleted/.test({WHY})", "what cannot be")
        shown.is_now(good)
        browser.click("again")
        browser.state("Open")
        look.is_well()


def test_a_closed_or_missing_source_is_reported_and_the_figures_stay(look: Looked) -> None:
    """The page reports a closed, missing, unreadable or moved source, at the beginning and later."""
    browser, closed = look.chromium, (503, "text/plain", b"Closed\n")
    with look.fake(lambda base: fakes.archive(base, 30)) as shown:
        open_one = shown.fake
        for refusal, word, words in [(closed, "Closed", "until its keeper starts it again"),
                                     ((502, "text/html", b"x"), "Unreachable", "502"),
                                     ((404, "text/html", b"x"), "Gone", "There is no source"),
                                     ((200, "application/xml", b"<a"), "Unreadable", "no document")]:
            shown.is_now(open_one)
            browser.open(f"{shown.base}/")
            browser.state("Open")
            shown.is_now(dataclasses.replace(open_one, refusal=refusal))
            browser.click("again")
            browser.state(word)
            assert words in browser.text("why")
            assert browser.text("resources") == "30"
            assert ", last read at " in browser.text("state-more")
            assert browser.run("return document.querySelector('.source').dataset.isOld") == "true"
            browser.open(f"{shown.base}/")
            browser.until("return document.getElementById('notice').textContent.startsWith(arguments[0])",
                          f"the notice {word}", word)
            assert word in browser.run("return document.getElementById('live').textContent")
        shown.is_now(dataclasses.replace(open_one, base="http://elsewhere.example"))
        browser.open(f"{shown.base}/")
        browser.state("Elsewhere")
        browser.click("again")
        browser.state("Elsewhere")
        assert browser.run("return document.querySelector('.banner a').href") == "http://elsewhere.example/"
        look.is_well()


def holding(base: str, number: int) -> fakes.Fake:
    """Return a source with a number of resources and changes."""
    changes = [fakes.entry_of(f"{at:03}", b"", fakes.BEGUN + at, "created") for at in range(number)]
    return fakes.published(fakes.Fake(base, changes=changes), fakes.BEGUN + number)


@pytest.mark.parametrize(("number", "word", "why"), [
    (90, "Open", ""), (91, "Nearly full", "91 of 100 resources."),
    (100, "Full", "100 of 100 changes kept. The operator can publish")])
def test_a_source_with_little_room_is_not_called_open(look: Looked, number: int, word: str, why: str) -> None:
    """Above 90% of the limit the state is amber, with the figure and the remedy."""
    limit = "state.js", "MOST = 50_000", "MOST = 100"
    with look.hurried(*limit), look.fake(lambda base: holding(base, number)) as shown:
        look.chromium.open(f"{shown.base}/")
        look.chromium.state(word)
        assert why in look.chromium.text("why")
        colours = """const of = (it, name) => getComputedStyle(it)[name];
            const [dot, banner] = [document.querySelector(".dot"), document.querySelector(".source .banner")];
            return [of(dot, "backgroundColor") === of(banner, "borderLeftColor"), banner.checkVisibility()];"""
        assert look.chromium.run(colours) == [bool(why), bool(why)]


def test_a_source_that_hangs_is_reported(look: Looked) -> None:
    """Without a response for some seconds the page dims the last figures, and shows their age."""
    browser, answers = look.chromium, threading.Event()
    with look.hurried("documents.js", "BEGINS = 10_000", "BEGINS = 300"), look.fake(
            lambda base: fakes.archive(base, 30)) as shown:
        browser.open(f"{shown.base}/")
        browser.state("Open")
        right = shown.server.answer
        shown.server.answer = lambda path: right(path) if answers.wait(SECONDS) else right(path)
        try:
            browser.click("again")
            browser.state("Unreachable")
            assert "No response for 0.3 s." in browser.text("why")
            assert re.search(r", last read at [\d:]+ UTC, (\d+ seconds? ago|just now)$", browser.text("state-more"))
            assert browser.run("return document.querySelector('.source').dataset.isOld") == "true"
            assert browser.text("resources") == "30"
        finally:
            answers.set()
        browser.click("again")
        browser.state("Open")


def test_the_operator_is_shown_before_the_source_answers(look: Looked) -> None:
    """A source with a status of 502 at the first visit has a title, an operator and a contact."""
    def operated(page: Path) -> None:
        texts = {"title": "Papers", "keeper": "A library", "contact": "a@b.example"}
        (page.parent / "settings/source.json").write_text(json.dumps(texts))

    look.edit = operated
    down = 502, "text/html", b"x"
    with look.fake(lambda base: dataclasses.replace(fakes.archive(base, 30), refusal=down)) as shown:
        look.chromium.open(f"{shown.base}/")
        look.chromium.until("return document.getElementById('notice').textContent.includes('502')", "the notice")
        found = look.chromium.run("""
            const parts = ["keeper", "contact"].map((it) => document.querySelector(`[data-part="${it}"]`).innerText);
            return [document.getElementById("title").textContent, ...parts];""")
        assert found == ["Papers", "A library", "a@b.example"]


@pytest.mark.needs("openssl")
def test_the_page_works_over_tls(look: Looked) -> None:
    """The page reads the lists over TLS, and checks bodies."""
    certificate = install_shared.certified(str(look.room), "server")
    with look.fake(lambda base: fakes.archive(base, 30), certificate=certificate) as shown:
        look.chromium.open(f"{shown.base}/")
        look.chromium.state("Open")
        assert look.chromium.run("return location.protocol") == "https:"
        look.chromium.click("check-some")
        look.chromium.until(f"return /^30 agree; /.test({CHECKED})", "the checks")
        look.is_well()


def test_controls_work_before_the_lists_arrive(look: Looked) -> None:
    """Controls also work for a source with only a Source Description, and for a source with a moment in month 13."""
    browser = look.chromium
    with look.fake(lambda base: fakes.archive(base, 30)) as shown:
        right = shown.server.answer
        shown.server.answer = lambda path: right(path) if path.endswith("resourcesync") else (502, "text/html", b"x")
        browser.open(f"{shown.base}/")
        browser.state("Unreachable")
        browser.run(scripts.POKED)
        look.is_well()
        shown.server.answer = right
        browser.click("again")
        browser.state("Open")
        browser.run(scripts.POKED)
        shown.server.answer = lambda path: (*right(path)[:2],
                                            right(path)[2].replace(b'datetime="2026-03', b'datetime="2026-13',
                                                                   1))
        browser.click("again")
        browser.state("Unreadable")
        look.is_well()


def test_rows_and_figures_come_with_the_first_part(look: Looked) -> None:
    """While later parts wait, the page shows the rows and figures of those that came, and a bar."""
    browser, parts = look.chromium, threading.Event()
    with look.fake(lambda base: dataclasses.replace(fakes.archive(base, 60), limit=20)) as shown:
        right = shown.server.answer

        def answer(path: str) -> fakes.Answer:
            if not path.endswith(("list.xml", "resourcesync", "/0.xml")):
                parts.wait(SECONDS)
            return right(path)

        shown.server.answer = answer
        try:
            browser.open(f"{shown.base}/")
            browser.until("return document.querySelectorAll('.resources .row').length > 5", "the first rows")
            browser.state("Reading")
            assert (browser.text("resources"), browser.text("since")) == ("20", "so far")
            bar = ("const it = document.querySelector('[data-part=reading]');"
                   "return [it.checkVisibility(), it.value > 0]")
            assert browser.run(bar) == [True, True]
            name = browser.run("""
                const row = document.querySelectorAll(".resources .row")[3];
                row.click();
                return row.querySelector("bdi").textContent;""")
        finally:
            parts.set()
        browser.state("Open")
        assert browser.text("resources") == "60"
        assert browser.text("name") == name
        look.is_well()


def test_a_collection_has_a_tab_per_source_and_sums(look: Looked) -> None:
    """The page also shows sources on other hosts, and reports a missing one."""
    browser = look.chromium

    def setting(name: str, value: str) -> Callable[[str], str]:
        line = f'map $host $rp_source_{name} {{{{ default "{{}}"; }}}}'
        return lambda settings: exchanged(settings, line.format(""), line.format(value))

    port = free_port()
    base = f"http://127.0.0.1:{port}"
    allowing = setting("collection", base)
    with (look.fake(lambda base: fakes.archive(base, 40), allowing) as one,
          look.fake(lambda base: fakes.archive(base, 25, 2), allowing) as other):
        text, sources = fakes.description(one.base, other.base).encode(), setting("sources", f"{one.base} {other.base}")
        with serving(only_described(text)) as server, look.site(int(server.url.rpartition(":")[2]), port, sources):
            one_is_gone(browser, base, one, other)
            both = "return document.querySelectorAll('.sums .tone[data-tone=good]').length === 2"
            browser.until(both, "both are read at once")
            labels = browser.run("return [...document.querySelectorAll('.sums th button')].map((it) => it.textContent)")
            assert labels == [shown.base.removeprefix("http://") for shown in (one, other)]
            assert "–" not in browser.run("return document.querySelector('.sums').textContent")
            tabs = browser.run("return [...document.querySelectorAll('[role=tab]')].map((it) => it.textContent)")
            assert tabs == ["All", *(shown.base.removeprefix("http://") for shown in (one, other))]
            size = sum(entry.length for shown in (one, other) for entry in current(shown.fake))
            assert (browser.text("resources"), browser.text("bytes")) == ("65", f"{size:,} bytes")
            searched_all(browser, one, other)
            other.server.answer = always(502, b"x", "text/html")
            sums_stay(browser)
            look.is_well()


def sums_stay(browser: Asking) -> None:
    """Check that the sums stay when one of the sources is down, and the tab of the other source works."""
    browser.run("document.querySelectorAll('[data-part=again]')[1].click()")
    browser.until("return document.querySelectorAll('.sums .tone[data-tone=bad]').length === 1", "one is gone")
    assert browser.text("resources") == "65"
    browser.run("document.querySelectorAll('[role=tab]')[1].click()")
    browser.until("return document.querySelectorAll('#panel-1 .resources .row').length > 5", "the rows of a tab")
    assert browser.run("return document.querySelector('#panel-1 svg').getBoundingClientRect().width > 500")


def one_is_gone(browser: Asking, base: str, one: Shown, other: Shown) -> None:
    """Check that a source that is down from the beginning counts neither as read nor as searched."""
    right, other.server.answer = other.server.answer, always(404, b"x", "text/html")
    browser.open(f"{base}/")
    browser.until("return document.querySelectorAll('.sums .tone[data-tone=bad]').length === 1", "one is gone")
    assert browser.text("resources") == f"{len(current(one.fake))}"
    assert browser.text("read") == "in 1 of 2 sources that were read"
    browser.run(scripts.TYPED, "search-all", "atlas")
    browser.until("return /in 1 of 2 sources$/.test(document.querySelector('[data-part=found-all]').textContent)",
                  "a search in one of two")
    other.server.answer = right
    browser.open("about:blank")
    browser.open(f"{base}/")
    browser.until("return document.querySelector('.sums')", "the sums")


def only_described(text: bytes) -> Callable[[str], fakes.Answer]:
    """Return the responses of a host with only a Source Description."""
    none = 404, "text/plain", b"NoSuchDocument\n"
    return lambda path: (200, "application/xml", text) if path == "/.well-known/resourcesync" else none


def searched_all(browser: Asking, one: Shown, other: Shown) -> None:
    """Check that a search over all sources finds names of both, and that a name opens the tab of its source."""
    wanted = sorted(entry.name for shown in (one, other) for entry in current(shown.fake) if "atlas" in entry.name)
    browser.run(scripts.TYPED, "search-all", "atlas")
    number = "return document.querySelector('[data-part=found-all]').textContent"
    browser.until(f"{number}.endsWith('in 2 of 2 sources')", "the search")
    assert sorted(row[0] for row in browser.run(scripts.ROWS, "found")) == wanted
    row = browser.run("""
        const row = [...document.querySelectorAll(".found .row")].at(-1);
        const texts = [...row.children].map((it) => it.textContent);
        row.click();
        return texts;""")
    assert row[1] == other.base.removeprefix("http://")
    browser.until("return document.querySelector('#panel-2 .card h3')?.textContent === arguments[0]",
                  "the card", row[0])
    browser.run("history.back(); document.querySelectorAll('[role=tab]')[0].click()")
