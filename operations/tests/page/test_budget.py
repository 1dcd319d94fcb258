"""Measure the page with 0, 3,000 and 50,000 resources in Chromium and Firefox: layout shift, the contrast of texts,
requests, bytes and the time of the first row. A value over its limit fails.
"""
import os
from collections.abc import Callable

import pytest

from operations.tests.page import fake as fakes, scripts
from operations.tests.page.looked import IN_BROWSER, Looked

pytestmark = [*IN_BROWSER, pytest.mark.parametrize(
    "look", ["chromium", pytest.param("firefox", marks=pytest.mark.needs("firefox-esr"))], indirect=True)]

WINDOWS = [(1_440, 900), (768, 1_024), (360, 740)]
# The limits: layout shift, milliseconds until the first row, files of the page.
SHIFT, FIRST, FILES = 0.05, 1_000, 32
# The limits of requests for lists and of all bytes, by the number of resources.
LISTS = {0: 4, 3_000: 12, 50_000: 32}
BYTES = {0: 200_000, 3_000: 3_000_000, 50_000: 30_000_000}
# Return the layout shift, which only Chromium knows, the requests, their bytes, and the milliseconds of the first row.
MEASURED = """
const entries = performance.getEntriesByType("resource");
const lists = entries.filter((it) => it.name.endsWith(".xml") || it.name.endsWith("resourcesync"));
const rows = performance.getEntriesByName("rows").map((it) => it.startTime);
return [lists.length, entries.length - lists.length, entries.reduce((sum, it) => sum + it.transferSize, 0),
  rows[0] ?? 0, window.shift ?? 0];
"""
OBSERVED = """
window.shift = 0;
if (!PerformanceObserver.supportedEntryTypes.includes("layout-shift")) return true;
new PerformanceObserver((list) => {
  for (const it of list.getEntries()) window.shift += it.value;
}).observe({ type: "layout-shift", buffered: true });
return true;
"""


def some(number: int) -> Callable[[str], fakes.Fake]:
    """Return a function that makes a source with a number of resources."""
    if not number:
        return fakes.Fake
    return fakes.large if number == fakes.LARGE else lambda base: fakes.archive(base, number)


@pytest.mark.parametrize("number", [0, 3_000, 50_000])
def test_the_page_keeps_within_its_limits(look: Looked, number: int) -> None:
    browser = look.browser
    word = {0: "Empty", 3_000: "Open", 50_000: "Full"}[number]
    with look.fake(some(number)) as shown:
        for size in WINDOWS:
            browser.forget()
            browser.open(f"{shown.base}/", size)
            browser.state(word)
            browser.run(OBSERVED)
            browser.until("return new Promise((go) => setTimeout(() => go(true), 300))", "the observer")
            lists, files, length, first, shift = browser.run(MEASURED)
            contrast = min(text["ratio"] for text in browser.run(scripts.CONTRAST) if text["kind"] == "text")
            print(f"budget: {number} resources at {size[0]}: shift {shift:.4f}, {lists} lists, {files} files, {length} "
                  f"bytes, first row after {first:.0f} ms, contrast {contrast:.2f}", flush=True)
            assert shift < SHIFT, "layout shift"
            assert contrast >= 4.5, "contrast"
            assert (lists <= LISTS[number], files <= FILES, length <= BYTES[number]) == (True, True, True)
            is_idle = os.getloadavg()[0] < (os.cpu_count() or 1) / 2
            assert first < FIRST or not is_idle, "milliseconds until the first row"
