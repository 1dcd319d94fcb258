"""Test the page with a source of 50,000 resources and 50,000 changes. Processor seconds have a limit; elapsed seconds
only in the long form, when few other processes run.
"""
import os
import statistics

from operations.tests.page import fake as fakes, scripts
from operations.tests.page.browser import Asking, Browser
from operations.tests.page.looked import IN_BROWSER, Looked, Shown

pytestmark = IN_BROWSER

# Limits in processor milliseconds: until the rows are shown, and per frame of scrolling.
WORK, FRAME = 2_500, 50
# The limit of the memory of the page's scripts in MiB.
HEAP = 60
# The limit in elapsed milliseconds for the best of several openings, and their number.
WHOLE, OPENINGS = 1_500, 3
COUNTS = "return ['resources', 'changes'].map((it) => document.querySelector(`[data-part='${it}']`).textContent)"


def test_50_000_resources_are_shown_without_a_pause(look: Looked) -> None:
    """Scrolling draws all rows in every frame; processor time and memory have limits."""
    browser = look.chromium
    with look.fake(fakes.large) as shown:
        measured = [opened(browser, shown) for _ in range(OPENINGS if look.is_long else 1)]
        heap = browser.heap() / 1_048_576
        assert heap <= HEAP, "MiB of the page's scripts"
        before = browser.busy()
        scrolled = browser.run_slowly(scripts.SCROLLED)
        frames = sorted(scrolled["frames"])
        frame = (browser.busy() - before) / len(frames)
        print(f"many: {len(frames)} frames while scrolling: half in {statistics.median(frames):.1f} ms, "
              f"by {frame:.1f} ms of a "
              f"processor each; {heap:.0f} MiB", flush=True)
        assert min(work for _, work in measured) <= WORK, "milliseconds of a processor for the rows"
        assert frame <= FRAME, "milliseconds of a processor for a frame"
        assert scrolled["rows"] < 80
        assert len(frames) + 1 - scrolled["drawn"] == 0
        searched(browser, shown.fake.changes)
        look.is_well()
        if look.is_long:
            by_the_clock(min(clock for clock, _ in measured))


def opened(browser: Browser, shown: Shown) -> tuple[float, float]:
    """Reload the page; return the elapsed and the processor milliseconds until its rows are shown."""
    browser.forget()
    browser.open(f"{shown.base}/")
    browser.state("Full")
    browser.equals(["50,000", "50,000"], COUNTS)
    browser.until("return window.firstRow", "the first row")
    found, work = browser.run(scripts.SHOWN), browser.busy()
    print(f"many: {found['lists']} lists; shown {found['shown'] - found['came']:.0f} ms after the last came, "
          f"{found['shown']:.0f} ms after the page began, by {work:.0f} ms of a processor", flush=True)
    return float(found["shown"]), work


def by_the_clock(milliseconds: float) -> None:
    """Compare elapsed time, unless more processes run than there are processors."""
    load, processors = os.getloadavg()[0], os.cpu_count() or 1
    if load > processors / 2:
        print(f"many: {milliseconds:.0f} ms by the clock are not compared, as {load:.0f} other processes run",
              flush=True)
    else:
        assert milliseconds <= WHOLE, "milliseconds from the page's beginning to its rows"


def searched(browser: Asking, every: list[fakes.Entry]) -> None:
    """Check that a search and an order give the right rows."""
    milliseconds = browser.run("""
        const search = document.querySelector("[data-part='search']");
        const begun = performance.now();
        search.value = "ATLAS csv";
        search.dispatchEvent(new Event("input"));
        return performance.now() - begun;""")
    wanted = sorted((item for item in every if "atlas" in item.name and "csv" in f"{item.name} {item.kind}"),
                    key=lambda item: item.name)
    assert browser.text("found") == f"{len(wanted):,} of 50,000 resources"
    assert [row[0] for row in browser.run(scripts.ROWS, "resources")[:3]] == [item.name for item in wanted[:3]]
    for _ in range(2):
        browser.run("document.querySelector('[data-sort=length]').click()")
    assert browser.run(scripts.ROWS, "resources")[0][2] == f"{max(item.length for item in wanted):,}"
    print(f"many: a search took {milliseconds:.0f} ms", flush=True)
