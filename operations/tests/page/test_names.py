"""Test the names that the page shows, and the addresses of resources, searches, orders, ranges and tabs."""
import json
from pathlib import Path
from urllib.parse import quote

from operations.tests.page import fake as fakes, scripts
from operations.tests.page.looked import IN_BROWSER, Looked, put
from operations.tests.page.site import ABOUT

pytestmark = IN_BROWSER

# A valid name, its shown text, and whether it is marked as still encoded.
NAMES = [
    ("%E8%AB%96%E6%96%87/%E8%A6%81%E6%97%A8%202026.pdf", "論文/要旨 2026.pdf", False),
    ("M%C3%BCller.txt", "Müller.txt", False),
    ("M%75ller.txt", "M%75ller.txt", False),
    ("a%2Fb", "a%2Fb", False),
    ("100%25", "100%25", False),
    ("%F0%9F%93%9C/scroll", "\U0001f4dc/scroll", False),
    ("%D7%A9%D7%9C%D7%95%D7%9D", "שלום", False),
    ("%3Cb%3Ebold%3C/b%3E", "<b>bold</b>", False),
    ("two%20%20blanks", "two  blanks", False),
    ("invoice%E2%80%AEfdp.exe", "invoice%E2%80%AEfdp.exe", True),
    ("%E2%81%A6isolated", "%E2%81%A6isolated", True),
    ("line%0Abreak", "line%0Abreak", True),
    ("escape%1B%5B31m", "escape%1B%5B31m", True),
    ("zero%E2%80%8Bwidth", "zero%E2%80%8Bwidth", True),
    ("no%C2%A0break", "no%C2%A0break", True),
    ("%FF%FE", "%FF%FE", True),
    ("overlong%C0%AF", "overlong%C0%AF", True),
    ("half%E8%AB", "half%E8%AB", True),
    ("surrogate%ED%A0%80", "surrogate%ED%A0%80", True),
    ("tag%F3%A0%81%81", "tag%F3%A0%81%81", True),
]
SHOWN = """return [...document.querySelectorAll(".resources .row")].map((row) =>
  [row.querySelector("bdi").textContent, row.querySelector(".name").classList.contains("is-encoded")])"""
CARD = """
const text = (part) => document.querySelector(`.card [data-part="${part}"]`);
return [text("name").textContent, text("lawful-part").hidden ? "" : text("lawful").textContent];
"""
# A clipboard that keeps the copied text.
KEPT = "navigator.clipboard.writeText = async (text) => { window.copied = text; }"


def test_names_are_shown_decoded(look: Looked) -> None:
    """The page decodes names, and finds them in both forms. A name that is not UTF-8 stays encoded, and is marked."""
    browser = look.browser

    def fill(port: int) -> None:
        for lawful, _, _ in NAMES:
            put(port, lawful, b"a body")

    with look.source(fill) as (base, _, _):
        browser.open(f"{base}/", (1_280, 1_600))
        browser.state("Open")
        wanted = [[text, is_marked] for _, text, is_marked in sorted(NAMES)]
        assert browser.run(SHOWN) == wanted
        for words, lawful in [("müller", "M%C3%BCller.txt"), ("Mu\u0308ller", "M%C3%BCller.txt"),
                              ("c3%bc", "M%C3%BCller.txt"),
                              ("要旨", NAMES[0][0]), ("%E8%A6", NAMES[0][0]), ("<B>", "%3Cb%3Ebold%3C/b%3E")]:
            browser.run(scripts.TYPED, "search", words)
            text = next(text for name, text, _ in NAMES if name == lawful)
            assert [row[0] for row in browser.run(scripts.ROWS, "resources")] == [text], f"a search for {words}"
            browser.run("document.querySelector('.resources .row').click()")
            assert browser.run(CARD) == [text, lawful]
        browser.run(KEPT)
        browser.click("copyname")
        browser.equals("%3Cb%3Ebold%3C/b%3E", "return window.copied")
        assert browser.run(scripts.STRANGE) == 0
        look.is_well()


# Names with more folders, or a longer last segment, than a row has room for; the last characters stay.
LONG = [f"{'folder/' * 22}report-2026-07.pdf", f"{'f' * 120}/{'s' * 100}-the-end-of-it.csv", "%C3%BC" * 38 + ".txt",
        "a/%F0%9F%93%9C"]
TYPES = {"application/pdf": "PDF", "text/csv;charset=utf-8": "CSV", "image/png": "image", "application/ld+json": "JSON",
         "text/plain": "text", "application/x-odd": "application/x-odd", "toString/constructor": "tostring/constructor"}
ENDS = """
return [...document.querySelectorAll(".resources .row .name")].map((it) => {
  const [cell, end] = [it, it.querySelector(".end")].map((one) => one.getBoundingClientRect());
  return [it.textContent, it.title === it.textContent, end.left >= cell.left && end.right <= cell.right + 1];
});
"""


def test_long_names_are_cut_before_their_end(look: Looked) -> None:
    """A row shows the end of a name's last segment, and has the full name and type as titles."""
    browser = look.browser

    def long(base: str) -> fakes.Fake:
        changes = [fakes.entry_of(name, b"", fakes.BEGUN + at, "created", kind)
                   for at, (name, kind) in enumerate([*((name, "a/b") for name in LONG),
                                                      *((f"type-{at}", kind) for at, kind in enumerate(TYPES))])]
        return fakes.published(fakes.Fake(base, changes=changes), fakes.BEGUN + 100)

    with look.fake(long) as shown:
        for size in ((1_440, 900), (768, 1_024), (360, 1_200)):
            browser.open("about:blank")
            browser.open(f"{shown.base}/", size)
            browser.state("Open")
            found = browser.run(ENDS)
            assert len(found) == len(LONG) + len(TYPES)
            assert [text for text, has_title, is_seen in found if not (has_title and is_seen)] == []
            folders = "[...document.querySelectorAll('.resources .folders')]"
            assert browser.run(f"return {folders}.some((it) => it.scrollWidth > it.clientWidth)")
        titles = "return [...document.querySelectorAll('.row .type')].map((it) => [it.title, it.textContent])"
        assert dict(browser.run(titles)) == {"a/b": "a/b", **TYPES}
        assert not browser.run("return document.querySelector('.resources .mark').checkVisibility()")
        browser.run("document.querySelectorAll('.resources .row')[2].click()")
        browser.click("check")
        browser.until("return document.querySelector('.resources .mark[data-kind]').checkVisibility()", "the checks")
        look.is_well()


def archive(base: str) -> fakes.Fake:
    """Return an archive with two names that need escapes in an address."""
    fake = fakes.archive(base, 60)
    last = fake.changes[-1].moment
    names = ["M%C3%BCller%20&%20Co/a+b=1;c.txt", "zz%23%3F"]
    fake.changes += [fakes.entry_of(name, b"body", last + at, "created") for at, name in enumerate(names, 1)]
    return fakes.published(fake, last + 10)


# Return the view: the chosen resource, the rows marked as chosen, the search, the order and the range.
PLACE = """
const text = (selector) => document.querySelector(selector)?.textContent ?? "";
const sorted = document.querySelector("[aria-sort]:not([aria-sort=none])");
const chosen = [...document.querySelectorAll(".resources [aria-selected=true]")];
return [text(".card h3"), chosen.map((row) => row.querySelector("bdi").textContent),
  document.querySelector("[data-part=search]").value, `${sorted.textContent} ${sorted.ariaSort}`,
  document.querySelector("[data-zoom][aria-pressed=true]")?.dataset.zoom ?? ""];
"""
CHOSEN = """
const rows = [...document.querySelectorAll(".resources .row")];
rows.find((row) => row.querySelector("bdi").textContent === arguments[0]).click();
"""
COLOURS = """
const rows = document.querySelectorAll(".resources .row");
const colours = [3, 4].map((it) => getComputedStyle(rows[it]).backgroundColor);
return colours[0] !== colours[1];
"""
FRESH = ["", [], "", "Name ascending", "recent"]


def test_a_view_has_an_address(look: Looked) -> None:
    """A search, an order, a range and a resource have an address; back, forward and a new page restore the view."""
    browser = look.browser
    with look.fake(archive) as shown:
        browser.open(f"{shown.base}/")
        browser.state("Open")
        places = [(browser.run("return location.hash"), FRESH)]

        def step(script: str, *arguments: str) -> None:
            browser.run(script, *arguments)
            places.append((browser.run("return location.hash"), browser.run(PLACE)))

        step("document.querySelector('[data-sort=length]').click()")
        step("document.querySelector('[data-sort=length]').click()")
        for letter in ("a", "at", "atlas"):
            browser.run(scripts.TYPED, "search", letter)
        step(scripts.TYPED, "search", "ü")
        step("document.querySelector('[data-zoom=whole]').click()")
        name = "Müller & Co/a+b=1;c.txt"
        step(CHOSEN, name)
        assert places[-1][1] == [name, [name], "ü", "Bytes descending", "whole"]
        assert len({fragment for fragment, _ in places}) == len(places)
        assert places[0][0] == ""
        for fragment, place in reversed(places[:-1]):
            browser.run("history.back()")
            browser.equals(fragment, "return location.hash")
            browser.equals(place, PLACE)
        for fragment, place in places[1:]:
            browser.run("history.forward()")
            browser.equals(fragment, "return location.hash")
            browser.equals(place, PLACE)
        for fragment, place in places:
            browser.open("about:blank")
            browser.open(f"{shown.base}/{fragment}")
            browser.state("Open")
            browser.equals(place, PLACE)
        look.is_well()


# Addresses from other sites, and the view at them.
STRANGE = [
    ("#resource=<img src=x onerror=window.ran.push(1)>",
     ["<img src=x onerror=window.ran.push(1)>", [], "", "Name ascending", "recent"]),
    ("#resource=%E2%80%AEgpj", ["%E2%80%AEgpj", [], "", "Name ascending", "recent"]),
    ("#sort=__proto__&range=9999-99-99T00:00:00Z..x", FRESH),
    ("#sort=-constructor&range=2026-03-02T00:00:00Z..2026-03-01T00:00:00Z",
     ["", [], "", "Name descending", "recent"]),
    ("#source=//evil.example&__proto__=x", FRESH), ("#%", FRESH), ("#main", FRESH),
    ("#search=%ff%00", ["", [], "\ufffd\0", "Name ascending", "recent"]),
]


def test_foreign_addresses_of_views_are_harmless(look: Looked) -> None:
    """The page shows texts from an address as text or not at all; rows link to their own addresses."""
    browser = look.browser
    with look.fake(archive) as shown:
        for fragment, place in STRANGE:
            browser.open("about:blank")
            browser.open(f"{shown.base}/{quote(fragment, safe='#%=&;/')}")
            browser.state("Open")
            browser.equals(place, PLACE)
            assert browser.run(scripts.STRANGE) == 0
            look.is_well()
        browser.open("about:blank")
        browser.open(f"{shown.base}/")
        browser.state("Open")
        address = browser.run("return document.querySelectorAll('.resources .row a')[2].href")
        name = browser.run(scripts.ROWS, "resources")[2][0]
        browser.open("about:blank")
        browser.open(address)
        browser.state("Open")
        browser.equals([name, [name], "", "Name ascending", "recent"], PLACE)


def test_the_chosen_row_is_marked(look: Looked) -> None:
    """A row keeps its mark in the list; a search that hides it closes its card."""
    browser = look.browser
    with look.fake(lambda base: fakes.archive(base, 60)) as shown:
        browser.open(f"{shown.base}/")
        browser.state("Open")
        names = [row[0] for row in browser.run(scripts.ROWS, "resources")]
        for number in (1, 3):
            browser.run("document.querySelectorAll('.resources .row')[arguments[0]].click()", number)
            assert browser.run(PLACE)[:2] == [names[number], [names[number]]]
        browser.until(COLOURS, "its colour is another one")
        browser.run(scripts.TYPED, "search", names[3][:6])
        assert browser.run(PLACE)[:2] == [names[3], [names[3]]]
        browser.run(scripts.TYPED, "search", f"{names[4]} no such")
        assert browser.run(PLACE)[:2] == ["", []]
        look.is_well()


# Return the title, the foot and the links that show the operator's file.
ABOUT_SHOWN = """
const shown = (it) => it.checkVisibility();
const about = document.getElementById("about");
const texts = [...about.querySelectorAll("dd")].filter(shown).map((it) => it.textContent);
return [document.getElementById("title").textContent, texts,
  [...about.querySelectorAll("a")].filter(shown).map((it) => it.href)];
"""
FILES = [
    ('{"title": "Letters of an archive", "keeper": "A library", "contact": "archive@example.org",'
     ' "licence": "CC BY 4.0", "licence_address": "https://creativecommons.org/licenses/by/4.0/"}',
     ["Letters of an archive", ["A library", "archive@example.org", "CC BY 4.0"],
      ["mailto:archive@example.org", "https://creativecommons.org/licenses/by/4.0/"]]),
    ('{"contact": "https://example.org/us"}', ["", ["https://example.org/us"], ["https://example.org/us"]]),
    ('{"title": "<b>x</b>\\u202e", "licence": "<script>window.ran.push(1)</script>",'
     ' "licence_address": "javascript:window.ran.push(2)"}',
     ["<b>x</b>%E2%80%AE", ["<script>window.ran.push(1)</script>"], []]),
    ('{"title": 7, "keeper": {"a": 1}, "contact": ["x"]}', ["", [], []]), ("[]", ["", [], []]),
    ("null", ["", [], []]), ("{", ["", [], []]),
    ('{"title": "%s"}' % ("x" * 201), ["", [], []]),
    ('{"keeper": "A", "more": "%s"}' % ("x" * 10_000), ["", [], []]), (None, ["", [], []]),
]


def test_the_page_describes_the_source_for_search_engines(look: Looked) -> None:
    """JSON-LD has the operator's texts and the lists' figures as a Dataset; no text of it ends the element."""
    browser = look.browser
    texts = {"title": "</script><b>Letters</b>", "keeper": "A library", "contact": "a@b.example",
             "licence": "CC BY 4.0"}

    def describe(page: Path) -> None:
        """Write the operator's texts."""
        page.parent.joinpath(ABOUT).write_text(json.dumps(texts))

    look.edit = describe
    with look.fake(lambda base: fakes.archive(base, 30)) as shown:
        browser.open(f"{shown.base}/")
        browser.state("Open")
        text = browser.until("return document.head.querySelector('[type=\"application/ld+json\"]')?.textContent",
                             "JSON-LD")
        found = json.loads(text)
        size = sum(entry.length for entry in fakes.current(shown.fake))
        assert "<" not in text
        assert (found["@type"], found["name"], found["url"]) == ("Dataset", texts["title"], f"{shown.base}/")
        assert found["publisher"] == {"@type": "Organization", "name": "A library", "email": "a@b.example"}
        assert (found["license"], found["size"]) == ("CC BY 4.0", f"30 resources, {size} bytes")
        assert found["distribution"]["contentUrl"] == f"{shown.base}/resourcelist.xml"
        look.is_well()


def test_the_operator_is_shown(look: Looked) -> None:
    """The operator's file gives title, name, contact and licence as text; a wrong entry is ignored."""
    browser, before = look.browser, look.edit
    for text, wanted in FILES:
        def edit(page, text=text):  # type: ignore[no-untyped-def]
            before(page)
            if text is not None:
                page.parent.joinpath(ABOUT).write_text(text)

        look.edit = edit
        try:
            with look.fake(lambda base: fakes.archive(base, 5)) as shown:
                browser.open(f"{shown.base}/")
                browser.state("Open")
                host = shown.base.removeprefix("http://")
                browser.equals([wanted[0] or host, *wanted[1:]], ABOUT_SHOWN)
                assert host in browser.run("return document.title")
                assert browser.run(scripts.STRANGE) == 0
                look.is_well()
        finally:
            look.edit = before
