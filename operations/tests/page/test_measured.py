"""Test contrast, names, roles, focus, targets, zoom and motion of the page, in Chromium and in Firefox."""
import pytest

from operations.tests.page import fake as fakes, scripts
from operations.tests.page.browser import NARROW
from operations.tests.page.looked import IN_BROWSER, SOON, Looked

pytestmark = [*IN_BROWSER, pytest.mark.parametrize(
    "look", ["chromium", pytest.param("firefox", marks=pytest.mark.needs("firefox-esr"))], indirect=True)]

# Windows in CSS pixels: 1,280 pixels enlarged to 400%, a telephone, and wider ones.
ENLARGED = (320, 256)
WINDOWS = [ENLARGED, NARROW, (768, 1_024), (1_280, 900)]
# The roles of elements for a screen reader, by their kind. (Firefox has no role for a summary.)
ROLES = {"button": {"button", "tab"}, "a": {"link"}, "input": {"searchbox"},
         "summary": {"DisclosureTriangle", ""},
         "progress": {"progressbar"}, "h1": {"heading"}, "h2": {"heading"}, "h3": {"heading"}}
USED = "button, a[href], input, summary, h1, h2, h3"
ROLED = {"[role=grid]": "grid", ".resources .row:nth-child(-n+3)": "row",
         ".resources .row:first-child > span": "gridcell",
         ".resources .heads [role=columnheader]": "columnheader", "aside": "complementary"}
ORDER = ["a Skip to the content", "button again", "input search", "button Name", "row annals", "button check", "a open",
         "button copyname", "button back", "button Zoom in", "group Time line", "summary The time line", "row ",
         "button copy", "a description", "a changelist", "button check-some"]
# The most presses of the tab key.
PRESSES = 90
SMALL = """
const seen = (it) => it.checkVisibility() && it.getClientRects().length > 0;
const wanted = arguments[0] - 0.5;
return [...document.querySelectorAll("button, input, summary, .card .actions a, .tab, .room .row")].filter(seen)
  .map((it) => [it, it.getBoundingClientRect()])
  .filter(([, { width, height }]) => width < wanted || height < wanted)
  .map(([it, { width, height }]) => `${it.localName} ${it.textContent.slice(0, 30)} ${width} x ${height}`);
"""
MOVING = """return [...document.querySelectorAll("*")].map((it) => getComputedStyle(it))
  .filter((it) => it.animationName !== "none" || /[1-9]/.test(it.transitionDuration)).length"""
MARK = """
const it = document.activeElement;
return it === document.body ? 9 : parseFloat(getComputedStyle(it).outlineWidth);
"""
OPENED = """
document.querySelector("[data-zoom=whole]").click();
document.querySelector("details").open = true;
document.querySelectorAll(".resources .row")[arguments[0]].click();
"""


def opened(look: Looked, base: str, size: tuple[int, int] = (1_280, 900)) -> None:
    """Open the page, choose a resource, check a body, and show the table."""
    browser = look.browser
    browser.open("about:blank")
    browser.open(f"{base}/", size)
    browser.state("Open")
    browser.run(OPENED, 1)
    browser.click("check")
    browser.until("return document.querySelector('[data-part=outcome]').dataset.kind === 'agrees'",
                  "the check")


def test_text_has_a_contrast_of_4_5(look: Looked) -> None:
    """Texts have a contrast of 4.5; large texts, bars and edges of controls 3, in light and dark, with faults too."""
    browser = look.browser
    lowest = 99.0
    with look.hurried(*SOON), look.fake(fakes.lying) as shown:
        for scheme in ("light", "dark"):
            browser.open("about:blank")
            browser.open(f"{shown.base}/", (1_280, 900), scheme)
            browser.state("Open")
            browser.run(OPENED, 0)
            browser.click("check")
            browser.state("Disagrees")
            found = browser.run(scripts.CONTRAST)
            # Marks of hovered and chosen rows: a body that agrees, and changes of every kind.
            browser.run("document.querySelectorAll('.resources .row')[2].click()")
            browser.click("check")
            browser.until("return document.querySelector('[aria-selected=true] .mark[data-kind=agrees]')", "a mark")
            for kind in ("created", "updated", "deleted"):
                browser.point(f".changes .row:has(.{kind})")
                found += browser.run(scripts.CONTRAST)
            browser.point(".resources .row:has([data-kind=differs])")
            found += browser.run(scripts.CONTRAST)
            assert [text for text in found if text["ratio"] < text["least"]] == [], f"too little contrast in {scheme}"
            assert len(found) > 15, f"pairs of colours in {scheme}"
            lowest = min(lowest, *(text["ratio"] for text in found if text["kind"] == "text"))
        print(f"contrast: the lowest of a text is {lowest:.2f}", flush=True)


def test_controls_and_headings_have_names_and_roles(look: Looked) -> None:
    """Lists also have rows, cells and column headers."""
    with look.fake(lambda base: fakes.archive(base, 60)) as shown:
        opened(look, shown.base)
        found = look.browser.labels(USED)
        assert [control for control in found if not control[2].strip()] == []
        assert [control for control in found if control[1] not in ROLES[control[0]]] == []
        assert len(found) > 30
        for selector, role in ROLED.items():
            labels = look.browser.labels(selector)
            assert {label[1] for label in labels} == {role}, f"roles of {selector}"
            assert role in ("gridcell",) or all(label[2].strip() for label in labels), f"names of {selector}"
        levels = look.browser.run(scripts.LEVELS)
        goes_down = all(then <= before + 1 for before, then in zip(levels, levels[1:]))
        assert levels[0] == 1 and goes_down


def test_the_tab_key_follows_the_order_of_the_page(look: Looked) -> None:
    """Every focused element has a visible mark."""
    browser = look.browser
    with look.fake(lambda base: fakes.archive(base, 300)) as shown:
        opened(look, shown.base)
        browser.run("document.activeElement.blur(); scrollTo(0, 0); getSelection().removeAllRanges()")
        browser.run("document.querySelector('.skip').focus()")
        found = [browser.run(scripts.FOCUSED)]
        while len(found) < PRESSES and found[-1] != "button check-some":
            browser.press("Tab", code=9)
            found.append(browser.run(scripts.FOCUSED))
            assert browser.run(MARK) >= 2, f"{found[-1]} has a mark"
        at = -1
        for word in ORDER:
            after = [place for place, stop in enumerate(found) if place > at and stop.startswith(word)]
            assert after, f"{word} does not come in its order: {found}"
            at = after[0]
        rows = sum(stop.startswith("row ") for stop in found)
        assert rows == 2


def test_no_element_is_wider_than_the_window(look: Looked) -> None:
    """No text is cut off at 400%, on a telephone, or in wider windows."""
    with look.fake(lambda base: fakes.archive(base, 60)) as shown:
        for size in WINDOWS:
            opened(look, shown.base, size)
            assert look.browser.run(scripts.WIDER) == [], f"what is wider than {size[0]} pixels"
            assert look.browser.run(SMALL, 24) == [], f"what is too small to press at {size[0]} pixels"


def test_controls_are_44_pixels_on_a_telephone(look: Looked) -> None:
    """Links within a sentence may be smaller than 44 pixels."""
    with look.fake(lambda base: fakes.archive(base, 60)) as shown:
        for size in (NARROW, ENLARGED):
            opened(look, shown.base, size)
            assert look.browser.run(SMALL, 44) == [], f"what is less than 44 pixels at {size[0]}"


def test_reduced_motion_stops_animations(look: Looked) -> None:
    browser = look.browser
    with look.fake(lambda base: fakes.archive(base, 60)) as shown:
        opened(look, shown.base)
        try:
            for is_still in (False, True):
                browser.still(is_still)
                browser.equals(is_still, "return matchMedia('(prefers-reduced-motion: reduce)').matches")
                assert (browser.run(MOVING) > 0) != is_still
        finally:
            browser.still(False)


def test_search_addresses_and_checks_work(look: Looked) -> None:
    """A search and a resource have addresses, the page decodes names, and checks succeed."""
    browser = look.browser
    with look.fake(decoded) as shown:
        browser.open("about:blank")
        browser.open(f"{shown.base}/")
        browser.state("Open")
        assert [row[0] for row in browser.run(scripts.ROWS, "resources")] == NAMES
        browser.run(scripts.TYPED, "search", "müll")
        browser.run("document.querySelector('.resources .row').click()")
        browser.equals("Müller.txt", "return document.querySelector('.card h3').textContent")
        browser.run("history.back()")
        browser.equals("#search=m%C3%BCll", "return location.hash")
        browser.equals("", "return document.querySelector('.card h3')?.textContent ?? ''")
        browser.run("history.forward()")
        browser.equals("Müller.txt", "return document.querySelector('.card h3').textContent")
        browser.click("check-some")
        browser.until("return /^3 agree; /.test(document.querySelector(`[data-part='checked']`).textContent)",
                      "the checks")
        look.is_well()


NAMES = ["%E2%80%AEgpj.exe", "論文.pdf", "Müller.txt"]


def decoded(base: str) -> fakes.Fake:
    """Return a source with names in UTF-8, one of them right to left."""
    fake = fakes.Fake(base)
    for number, name in enumerate(("%E2%80%AEgpj.exe", "%E8%AB%96%E6%96%87.pdf", "M%C3%BCller.txt")):
        fake.changes.append(fakes.entry_of(name, b"body", fakes.BEGUN + number, "created"))
        fake.bodies[name] = ("text/plain", b"body")
    return fakes.published(fake, fakes.BEGUN + 100)
