"""Test the range of the time line, the requests of a check and of the page, and the page on a telephone."""
from operations.tests.harness.server import Answer, Request, answer
from operations.tests.page import fake as fakes, scripts
from operations.tests.page.browser import NARROW
from operations.tests.page.fake import current
from operations.tests.page.looked import IN_BROWSER, Looked

pytestmark = IN_BROWSER

DAY = 86_400_000
RANGE = """
const off = [...document.querySelectorAll("[data-zoom][aria-disabled=true]")].map((it) => it.dataset.zoom);
const pressed = [...document.querySelectorAll("[data-zoom][aria-pressed=true]")].map((it) => it.dataset.zoom);
return [document.querySelector("[data-part=range]").textContent, pressed.join(" "), off.join(" ")];
"""


def aged(base: str, now: int) -> fakes.Fake:
    """Return a source with changes 400, 40, 29 and 1 days ago."""
    fake = fakes.Fake(base)
    for number, days in enumerate((400, 40, 29, 1)):
        fake.changes.append(fakes.entry_of(f"{days}-days", b"body", now - days * DAY + number, "created"))
    return fakes.published(fake, now - DAY + 10)


def test_the_time_line_begins_with_30_days(look: Looked) -> None:
    """The time line begins with the last 30 days, and disables buttons without an effect."""
    browser = look.browser
    browser.open("about:blank")
    now = browser.run("return Date.now()")
    with look.fake(lambda base: aged(base, now)) as shown:
        browser.open(f"{shown.base}/")
        browser.state("Open")
        assert browser.run(RANGE) == ["The last 30 days", "recent", "later"]
        assert "2 changes, 2 created, 0 updated, 0 deleted." in browser.text("summary")
        assert [row[2] for row in browser.run(scripts.ROWS, "changes")] == ["1-days", "29-days"]
        browser.run("document.querySelector('[data-zoom=whole]').click()")
        found = browser.run(RANGE)
        assert "All changes that are kept: " in found[0]
        assert found[1:] == ["whole", "earlier later out"]
        assert "4 changes," in browser.text("summary")
        browser.run("document.querySelector('[data-zoom=recent]').click()")
        browser.run("document.querySelector('[data-zoom=earlier]').click()")
        assert browser.run(RANGE)[1:] == ["", ""]
        assert [row[2] for row in browser.run(scripts.ROWS, "changes")] == ["29-days", "40-days"]
        look.is_well()
    with look.fake(lambda base: aged(base, now - 90 * DAY)) as shown:
        browser.open(f"{shown.base}/")
        browser.state("Open")
        assert browser.run(RANGE) == ["The last 30 days", "recent", "later"]
        assert browser.text("summary") == "0 changes, 0 created, 0 updated, 0 deleted. The latest came 2 months ago."
        assert not browser.run("return document.querySelector('.changes').checkVisibility()")
        look.is_well()


def test_one_range_is_pressed_if_all_changes_are_recent(look: Looked) -> None:
    """Where the last 30 days have every change, only their button is pressed."""
    look.browser.open("about:blank")
    now = look.browser.run("return Date.now()")

    def recent(base: str) -> fakes.Fake:
        changes = [fakes.entry_of("a", b"", now - DAY, "created")]
        return fakes.published(fakes.Fake(base, changes=changes), now - DAY + 1)

    with look.fake(recent) as shown:
        look.browser.open(f"{shown.base}/")
        look.browser.state("Open")
        assert look.browser.run(RANGE)[1] == "recent"


SHEET = """
const card = document.querySelector(".card"), box = card.getBoundingClientRect();
const below = Math.round(innerHeight - box.bottom);
return [card.checkVisibility(), getComputedStyle(card).position, below, box.height <= innerHeight * 0.81];
"""
# Return days and times of day that are broken into lines, or cut off.
BROKEN = """
const isBroken = (it) => it.getClientRects().length > 1 || it.getBoundingClientRect().right > innerWidth;
return [...document.querySelectorAll(".day, .figures .time, .facts .whole")]
  .filter((it) => it.checkVisibility() && isBroken(it)).map((it) => it.textContent);
"""
COVERED = """
if (document.activeElement === document.body) return false;
const box = document.activeElement.getBoundingClientRect();
const [x, y] = [box.left + Math.min(8, box.width / 2), Math.min(box.top + box.height / 2, innerHeight - 1)];
const at = document.elementFromPoint(x, y);
return Boolean(at?.closest(".card")) && !document.activeElement.closest(".card");
"""


def test_a_telephone_shows_the_card_as_a_sheet(look: Looked) -> None:
    """Escape, the sheet's button and a focus elsewhere close the card; no day is broken into lines."""
    browser = look.browser
    with look.fake(lambda base: fakes.archive(base, 60)) as shown:
        for size in (NARROW, (320, 640)):
            browser.open("about:blank")
            browser.open(f"{shown.base}/", size)
            browser.state("Open")
            assert not browser.run(SHEET)[0]
            assert browser.run(BROKEN) == []
            browser.run("document.querySelectorAll('.resources .row')[1].click()")
            assert browser.run(SHEET) == [True, "fixed", 0, True]
            assert browser.run(BROKEN) == []
            browser.click("close")
            assert not browser.run(SHEET)[0]
            browser.run("document.querySelectorAll('.resources .row')[1].click()")
            for _ in range(12):
                browser.press("Tab", code=9)
                browser.equals(False, COVERED)
            assert not browser.run(SHEET)[0]
        look.is_well()


def test_the_button_of_a_check_says_how_much_it_fetches(look: Looked) -> None:
    """The button of a check has the number of resources and of bytes."""
    browser = look.browser
    with look.fake(lambda base: fakes.archive(base, 300)) as shown:
        browser.open(f"{shown.base}/")
        browser.state("Open")
        label = browser.text("check-some")
        assert "Check 100 at random (" in label
        browser.click("check-some")
        browser.until("return /; .* in/.test(document.querySelector(`[data-part='checked']`).textContent)",
                      "the end of the checks")
        assert browser.text("checked").partition("; ")[2].partition(" in ")[0] == label.partition("(")[2].rstrip(")")
        assert sum("/resource/" in path for path in shown.server.paths()) == 100
    with look.fake(lambda base: fakes.archive(base, 30)) as shown:
        browser.open(f"{shown.base}/")
        browser.state("Open")
        size = sum(entry.length for entry in current(shown.fake))
        assert browser.text("check-some") == f"Check all 30 ({size / 1_000:.0f} kB)"


def test_lists_are_requested_with_their_etag(look: Looked) -> None:
    """The page requests lists with their ETag, and accepts 304."""
    browser, tags = look.browser, list[tuple[str, bool]]()

    def tagged(request: Request) -> Answer:
        """Answer with an ETag, or with 304."""
        status, kind, body = shown.server.answer(request.path)
        tag = f'"{abs(hash(body))}"'
        is_same = request.fields.get("if-none-match", "").removeprefix("W/") == tag
        tags.append((request.path, is_same))
        return answer(b"" if is_same else body, f"{304 if is_same else status} Said", f"ETag: {tag}",
                      f"Content-Type: {kind}", then="close")

    with look.fake(lambda base: fakes.archive(base, 300), passing) as shown:
        shown.server.handle = tagged
        for _ in range(2):
            browser.open("about:blank")
            browser.open(f"{shown.base}/")
            browser.state("Open")
            assert browser.text("resources") == "300"
        lists = [is_same for path, is_same in tags if path.endswith("list.xml")]
        assert lists == [False] * 3 + [True] * 3


def passing(site: str) -> str:
    """Return the site with conditions passed on to the source; otherwise nginx evaluates them for a cached list."""
    return site.replace("proxy_pass_request_headers off;",
                        "proxy_set_header If-None-Match $http_if_none_match;")
