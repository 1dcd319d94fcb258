"""Test the keys, names, roles and print of the page."""
import base64
import re
from typing import Any

from operations.tests.page import fake as fakes, scripts
from operations.tests.page.browser import Asking
from operations.tests.page.looked import IN_BROWSER, Looked, Shown

pytestmark = IN_BROWSER

# Roles that need a name.
NAMED = set("button link searchbox grid columnheader progressbar tab heading group region complementary "
            "DisclosureTriangle image".split())
THERE = "banner main contentinfo heading grid row gridcell columnheader searchbox status complementary region".split()


def opened(look: Looked, shown: Shown) -> None:
    """Open the page, choose a resource, check a body, and show the table."""
    browser = look.chromium
    browser.open(f"{shown.base}/")
    browser.state("Open")
    browser.run("document.querySelector('details').open = true")
    browser.run("document.querySelectorAll('.resources .row')[1].click()")
    browser.click("check")
    browser.until("return document.querySelector('[data-part=outcome]').dataset.kind === 'agrees'",
                  "the check")


def test_keys_reach_every_control(look: Looked) -> None:
    """The tab key reaches one row of a list; arrows move along the list, Enter opens, Escape returns."""
    browser = look.chromium
    with look.fake(lambda base: fakes.archive(base, 300)) as shown:
        browser.open(f"{shown.base}/")
        browser.state("Open")
        browser.run("document.querySelector('[data-zoom=whole]').click()")
        found = []
        for _ in range(70):
            browser.press("Tab", code=9)
            found.append(browser.run(scripts.FOCUSED))
            if found[-1].startswith("body") or found[-1] in found[:-1] and found[-1].startswith("a Skip"):
                break
            width = browser.run("return parseFloat(getComputedStyle(document.activeElement).outlineWidth)")
            assert width >= 2, f"the mark of {found[-1]}"
        wanted = ["a Skip to the content", "button again", "input search", "button Name", "row annals",
                  "button Zoom in", "group Time line", "summary The time line", "row 20", "button copy",
                  "a description", "a changelist", "button check-some"]
        order = [next((at for at, node in enumerate(found) if node.startswith(word)), -1) for word in wanted]
        assert -1 not in order and order == sorted(order), f"{dict(zip(wanted, order))} of {found}"
        moved(browser, shown)
        look.is_well()


TOPS = """
const wanted = [".state", ".search", ".resources .row", ".timeline", ".pair"];
return wanted.map((it) => document.querySelector(it).getBoundingClientRect()).map((it) => [it.top, it.bottom]);
"""


def test_the_first_rows_are_shown_without_scrolling(look: Looked) -> None:
    """State, search, list and changes follow one another; in a wide window Mirror and Check are next to the list."""
    browser = look.chromium
    with look.fake(lambda base: fakes.archive(base, 300)) as shown:
        for size in ((1_440, 900), (768, 1_024), (360, 740)):
            browser.open("about:blank")
            browser.open(f"{shown.base}/", size)
            browser.state("Open")
            tops = browser.run(TOPS)
            state, search, row, changes, pair = (top for top, _ in tops)
            assert state < search < row < changes, f"the order at {size[0]} pixels"
            assert (pair < row) == (size[0] > 1_200) and (pair > changes) == (size[0] <= 1_200)
            assert tops[2][1] < size[1], f"the first row at {size[0]} pixels"


def moved(browser: Asking, shown: Shown) -> None:
    """Press keys in the list, in the search, and on the time line."""
    browser.run("document.querySelector('.resources .row[tabindex=\"0\"]').focus()")
    names = sorted(name for name, (_, body) in shown.fake.bodies.items() if body is not None)
    for key, place in [("ArrowDown", 1), ("ArrowDown", 2), ("ArrowUp", 1), ("End", len(names) - 1),
                       ("Home", 0), ("PageDown", None)]:
        browser.press(key)
        row = browser.run("""
            const it = document.activeElement;
            return [it.firstChild.textContent, Number(it.getAttribute("aria-rowindex"))];""")
        assert row[0] == names[row[1] - 2], f"the row after {key}"
        assert row[1] - 2 == place if place is not None else row[1] > 8, f"the place after {key}"
    browser.press("Home")
    browser.press("Enter", "\r", 13)
    assert (browser.text("name"), browser.run("return document.activeElement.tagName")) == (names[0], "H3")
    for wanted in ("button check", "a open", "button copyname", "button back"):
        browser.press("Tab", code=9)
        assert browser.run(scripts.FOCUSED) == wanted
    browser.press("Escape", code=27)
    assert browser.run("return document.activeElement.firstChild.textContent") == names[0]
    assert browser.text("name") == ""
    browser.run("document.querySelector('[data-part=search]').focus()")
    for letter in "atlas":
        browser.press(letter, letter)
    browser.until("return document.getElementById('live').textContent.endsWith('of 300 resources')",
                  "the number of what is found")
    browser.run("document.querySelector('[data-part=field]').focus()")
    browser.press("0", "0")
    before = browser.text("summary")
    browser.press("+", "+")
    browser.until("return document.querySelector('[data-part=summary]').textContent !== arguments[0]",
                  "a shorter span", before)
    browser.press("0", "0")
    assert browser.text("summary") == before


def test_the_time_line_counts_the_changes_in_view(look: Looked) -> None:
    """The words, the table and the list of the time line have the counts of the source."""
    browser = look.chromium
    with look.fake(lambda base: fakes.archive(base, 300)) as shown:
        opened(look, shown)
        for zoom in ("whole", "in", "in", "later"):
            browser.run("document.querySelector(`[data-zoom='${arguments[0]}']`).click()", zoom)
            summary = browser.text("summary")
            number, *kinds = (int(number_text.replace(",", ""))
                              for number_text in re.findall(r"([\d,]+) (?:changes?|created|updated|deleted)", summary))
            table = browser.run(scripts.TABLE)
            rows = browser.run("return document.querySelector('.changes').getAttribute('aria-rowcount')")
            assert rows == str(number + 1), f"{zoom}: rows of the list"
            assert sum(kinds) == number, f"{zoom}: kinds"
            assert all(sum(column) >= kind for column, kind in zip(zip(*table), kinds)), zoom
            if zoom == "whole":
                every = [sum(change.change == kind for change in shown.fake.changes)
                         for kind in ("created", "updated", "deleted")]
                assert (number, kinds, [sum(row) for row in zip(*table)]) == (len(shown.fake.changes), every, every)


def test_without_javascript_the_page_says_how_to_mirror(look: Looked) -> None:
    """Without JavaScript the page has a title, its purpose, links to the four documents and a command."""
    browser = look.chromium
    with look.fake(lambda base: fakes.archive(base, 30)) as shown:
        browser.tell("Emulation.setScriptExecutionDisabled", value=True)
        try:
            browser.open(f"{shown.base}/")
            text = browser.driver.find_element("tag name", "body").text
            links = [it.get_attribute("href") for it in browser.driver.find_elements("css selector", "noscript a")]
        finally:
            browser.tell("Emulation.setScriptExecutionDisabled", value=False)
    documents = [".well-known/resourcesync", "capabilitylist.xml", "resourcelist.xml", "changelist.xml"]
    assert links == [f"{shown.base}/{path}" for path in documents]
    assert "A source to mirror" in text and "ropepeach mirror" in text
    assert "Reading" not in text and "This page reads" not in text


LOOKS = """
const look = (it) => ["backgroundColor", "color", "borderLeftWidth"].map((name) => getComputedStyle(it)[name]).join();
const pair = (selector, other) => [selector, other].map((it) => look(document.querySelector(it)));
return [pair("[aria-pressed=true]", "[aria-pressed=false]"),
  pair(".resources [aria-selected=true]", ".resources .row[aria-selected=false]")];
"""


def test_forced_colours_show_what_is_chosen_and_pressed(look: Looked) -> None:
    """With the reader's own colours a chosen row and a pressed button look unlike the others."""
    browser = look.chromium
    with look.fake(lambda base: fakes.archive(base, 60)) as shown:
        opened(look, shown)
        browser.tell("Emulation.setEmulatedMedia", media="", features=[{"name": "forced-colors", "value": "active"}])
        assert browser.run("return matchMedia('(forced-colors: active)').matches")
        browser.until("return !document.getAnimations().length", "the colours")
        assert [this != other for this, other in browser.run(LOOKS)] == [True, True]
        browser.size(1_280, 900)


def role(node: dict[str, Any]) -> str:
    """Return the role of a node of the browser's accessibility tree."""
    return str(node.get("role", {}).get("value", ""))


def name(node: dict[str, Any]) -> str:
    """Return the name of a node of the browser's accessibility tree."""
    return str(node.get("name", {}).get("value", ""))


def test_the_accessibility_tree_has_names_and_roles(look: Looked) -> None:
    """Every control has a name, and every list its rows."""
    browser = look.chromium
    with look.fake(lambda base: fakes.archive(base, 60)) as shown:
        opened(look, shown)
        nodes = [node for node in browser.tell("Accessibility.getFullAXTree")["nodes"] if not node.get("ignored")]
        bare = [role(node) for node in nodes if role(node) in NAMED and not name(node).strip()]
        assert bare == []
        found = {role(node) for node in nodes}
        assert [role_wanted for role_wanted in THERE if role_wanted not in found] == []
        names = [name(node) for node in nodes if role(node) == "row"]
        assert any("annals/" in name_read or "archive/" in name_read for name_read in names)
        levels = browser.run(scripts.LEVELS)
        assert (levels[0] == 1
             and all(then <= before + 1 for before, then in zip(levels, levels[1:])))
        assert browser.run("return document.documentElement.lang") == "en"


def test_the_printed_page_has_all_rows(look: Looked) -> None:
    """The printed page has the figures, the time line, the chosen resource and the first 100 rows, and no control."""
    browser = look.chromium
    with look.fake(lambda base: fakes.archive(base, 300)) as shown:
        opened(look, shown)
        browser.run("dispatchEvent(new Event('beforeprint'))")
        browser.size(794, 1_123, "light", "print")
        assert browser.run("return document.querySelectorAll('.resources .row').length") == 100
        assert browser.run(scripts.PRESSED) == []
        places = browser.run("""
            return [...document.querySelectorAll(".resources .row")].map((it) => it.getBoundingClientRect().top)""")
        assert all(then > before + 10 for before, then in zip(places, places[1:]))
        browser.run("dispatchEvent(new Event('afterprint'))")
        paper = base64.b64decode(browser.tell("Page.printToPDF", printBackground=False)["data"])
        pages = len(re.findall(rb"/Type\s*/Page\b(?!s)", paper))
        assert 2 <= pages <= 20
        browser.size(1_280, 900)
