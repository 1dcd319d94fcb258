"""Test the page with extreme times, sizes, lists, histories and differing bodies."""
import random
from collections.abc import Callable
from typing import Any

from operations.tests.page import fake as fakes, scripts
from operations.tests.page.fake import current
from operations.tests.page.looked import IN_BROWSER, SEEDS, SOON, Looked

pytestmark = IN_BROWSER

LARGEST, PART = 50_000, 4_000
# The number of a name's newest changes on a card.
HISTORY = 50
CHECKED = "return /; .* in/.test(document.querySelector(`[data-part='checked']`).textContent)"
# Return the page's counts of changes in spans.
COUNTED = """
const [changes, spans, done] = arguments;
import("/site/bins.js").then(({ Counted }) => {
  const counted = new Counted(changes);
  done(spans.map(([from, until]) => counted.between(from, until)));
});
"""
# Return sizes in words, and bars of spans, by the functions of the page.
WORDS = """
const [sizes, done] = arguments;
import("/site/formats.js").then(({ size }) => done(sizes.map(size)));
"""
BARS = """
const [spans, most, done] = arguments;
import("/site/bins.js").then(({ Counted, binsOf }) => {
  const counted = new Counted([]);
  done(spans.map((span) => binsOf(counted, span, most).map((it) => [it.from, it.until])));
});
"""
# Sizes have three digits and a unit, rounded to nearest; a size that would need four has the next unit.
SIZES = {0: "0 bytes", 1: "1 byte", 999: "999 bytes", 1_000: "1.00 kB", 9_994: "9.99 kB", 9_996: "10.0 kB",
         99_940: "99.9 kB", 99_960: "100 kB", 999_499: "999 kB", 999_500: "1.00 MB", 16_777_216: "16.8 MB",
         999_499_999: "999 MB", 999_500_000: "1.00 GB", 12_345_000_000: "12.3 GB", 999_500_000_000: "1.00 TB"}
# The last time of a source, and the most bars that the test requests.
LAST_TIME, MOST_BARS = 253_402_300_799_999, 60
# The number of differing bodies that the page names, and the number of all bodies.
NAMED, BODIES = 20, 40


@SEEDS
def test_a_span_of_the_time_line_has_its_changes(look: Looked, seed: int) -> None:
    """A span includes its beginning and excludes its end, with several changes at both."""
    rng, kinds = random.Random(seed), ["created", "updated", "deleted"]
    times = sorted(rng.randrange(60) for _ in range(100))
    changes = [(time, rng.choice(kinds)) for time in times]
    spans = [sorted(rng.choices(range(62), k=2)) for _ in range(300)]
    wanted = [[sum(start <= time < end and kind == change for time, change in changes) for kind in kinds]
              for start, end in spans]
    changed = [{"moment": f"1970-01-01T00:00:00.{time:03}Z", "change": kind} for time, kind in changes]
    with look.fake(lambda base: fakes.archive(base, 5)) as shown:
        look.browser.open(f"{shown.base}/")
        look.browser.state("Open")
        found = look.chromium.run_slowly(COUNTED, changed, spans)
    assert found == wanted


def test_sizes_have_three_digits(look: Looked) -> None:
    """A size that is rounded up to four digits has the next unit."""
    with look.fake(fakes.Fake) as shown:
        look.browser.open(f"{shown.base}/")
        found = look.chromium.run_slowly(WORDS, list(SIZES))
    assert dict(zip(SIZES, found)) == SIZES


@SEEDS
def test_the_bars_cover_the_whole_span(look: Looked, seed: int) -> None:
    """The bars have equal widths; at most one more is made than requested."""
    rng = random.Random(seed)
    spans = [[0, LAST_TIME]]
    for _ in range(200):
        width = int(20 * (LAST_TIME / 20) ** rng.random())
        start = rng.randrange(LAST_TIME - width + 1)
        spans.append([start, start + width])
    with look.fake(fakes.Fake) as shown:
        look.browser.open(f"{shown.base}/")
        found = look.chromium.run_slowly(BARS, spans, MOST_BARS)
    for (start, end), bars in zip(spans, found, strict=True):
        what = f"bars of {start} to {end}"
        assert 0 < len(bars) <= MOST_BARS + 1, f"{what}: their number"
        assert bars[0][0] <= start and bars[-1][1] >= end, f"{what}: the ends"
        assert [begin for begin, _ in bars[1:]] == [until for _, until in bars[:-1]], f"{what}: one behind the other"
        assert len({until - begin for begin, until in bars}) == 1, f"{what}: their widths"


def test_twenty_differing_resources_are_named(look: Looked) -> None:
    """The page names 20 differing resources, and the number of the others."""
    browser = look.chromium

    def differing(base: str, number: int) -> fakes.Fake:
        fake = fakes.archive(base, BODIES)
        for entry in current(fake)[:number]:
            fake.bodies[entry.name] = (entry.kind, b"other")
        return fake

    with look.hurried(*SOON), look.fake(lambda base: differing(base, NAMED)) as shown:
        for number, last in ((NAMED, ""), (NAMED + 1, "And 1 more."), (NAMED + 3, "And 3 more.")):
            shown.is_now(differing(shown.base, number))
            browser.open("about:blank")
            browser.open(f"{shown.base}/")
            browser.state("Open")
            browser.click("check-some")
            browser.until(CHECKED, "the end of the checks")
            assert f"{BODIES - number} agree, {number} differ;" in browser.text("checked")
            lines = browser.run("return [...document.querySelectorAll('.differing li')].map((it) => it.textContent)")
            assert len(browser.run(scripts.DIFFERING)) == NAMED
            assert lines[NAMED:] == ([last] if last else [])


def dotted(base: str) -> fakes.Fake:
    """Return a source with names that a browser changes in a request."""
    fake = fakes.Fake(base)
    for number, name in enumerate(("%2E%2E/%2e/up", "a/%2e%2E/b", "a/x%2Ey", "plain")):
        fake.changes.append(fakes.entry_of(name, b"body", fakes.BEGUN + number, "created"))
        fake.bodies[name] = ("text/plain", b"body")
    return fakes.published(fake, fakes.BEGUN + 100)


def test_names_with_dot_segments_are_not_requested(look: Looked) -> None:
    """A browser would request another name, so the page says that these names are not checked."""
    browser = look.browser
    with look.fake(dotted) as shown:
        browser.open(f"{shown.base}/")
        browser.state("Open")
        shown.server.requests.clear()
        browser.click("check-some")
        browser.until(CHECKED, "the end of the checks")
        found = sorted(path for path in shown.server.paths() if path.startswith("/resource"))
        assert found == ["/resource/a/x%2Ey", "/resource/plain"]
        assert "2 agree, 2 not checked;" in browser.text("checked")
        marks = [row[4] for row in browser.run(scripts.ROWS, "resources")]
        assert marks == ["not checked", "not checked", "✓ agrees", "✓ agrees"]


def in_parts(base: str, number: int) -> Callable[[str], fakes.Answer]:
    """Return the responses of a source whose Resource List has this many entries, in parts."""
    fake = fakes.Fake(base)
    index, parts = [], {}
    for at in range(0, number, PART):
        items = [fakes.entry_of(f"{number:05}", b"", fakes.BEGUN) for number in range(at, min(at + PART, number))]
        path = f"/resourcelist/1/{at // PART}.xml"
        parts[path] = fake.text("urlset", "", fake.entries(items)).encode()
        index.append(f"<sitemap><loc>{base}{path}</loc><rs:md/></sitemap>\n")
    facts = 'capability="resourcelist" at="2026-03-02T00:00:00.000Z"'
    parts["/resourcelist.xml"] = fake.text("sitemapindex", facts, "".join(index)).encode()
    right = fake.answer()
    return lambda path: (200, "application/xml", parts[path]) if path in parts else right(path)


def test_a_list_has_at_most_50_000_entries(look: Looked) -> None:
    """The page refuses a list whose parts have more than 50,000 entries together."""
    browser = look.browser
    with look.fake(fakes.Fake) as shown:
        for number, word in ((LARGEST, "Full"), (LARGEST + 1, "Unreadable")):
            shown.server.answer = in_parts(shown.base, number)
            browser.open("about:blank")
            browser.open(f"{shown.base}/")
            browser.state(word)
        assert "has more than 50000 entries" in browser.text("why")
        assert browser.text("resources") == "–"


def test_a_long_history_is_cut(look: Looked) -> None:
    """A card has the newest 50 changes of a name, and the number of earlier ones."""
    browser = look.browser

    def changed(base: str, number: int) -> fakes.Fake:
        fake = fakes.Fake(base, bodies={"a": ("text/plain", b"body")})
        fake.changes = [fakes.entry_of("a", b"body", fakes.BEGUN + at * 1_000, "updated" if at else "created")
                        for at in range(number)]
        return fakes.published(fake, fakes.BEGUN + number * 1_000)

    def shown_history() -> Any:
        return browser.run("return [...document.querySelectorAll('.history time')].map((it) => it.textContent)")

    with look.fake(lambda base: changed(base, HISTORY)) as shown:
        for number, words in ((HISTORY, "The list has every"), (HISTORY + 1, "And 1 earlier."),
                              (HISTORY + 20, "And 20 earlier.")):
            shown.is_now(changed(shown.base, number))
            browser.open("about:blank")
            browser.open(f"{shown.base}/#resource=a")
            browser.state("Open")
            times = shown_history()
            assert len(times) == HISTORY
            assert times[0].endswith(f"{(number - 1) // 60:02}:{(number - 1) % 60:02}")
            assert browser.text("earlier").startswith(words)


def late(base: str) -> fakes.Fake:
    """Return a source with resources whose days differ in other time zones."""
    fake = fakes.Fake(base)
    for number, hour in enumerate((0, 23)):
        fake.changes.append(fakes.entry_of(f"{number}", b"body", fakes.BEGUN + hour * fakes.HOUR + 1_000, "created"))
    return fakes.published(fake, fakes.BEGUN + 24 * fakes.HOUR)


def test_moments_are_shown_in_utc(look: Looked) -> None:
    """The page shows the same day and time of day in every time zone of a reader."""
    browser = look.chromium
    try:
        with look.fake(late) as shown:
            for zone in ("Pacific/Kiritimati", "Pacific/Pago_Pago"):
                browser.tell("Emulation.setTimezoneOverride", timezoneId=zone)
                browser.open("about:blank")
                browser.open(f"{shown.base}/#range=all&resource=1")
                browser.state("Open")
                rows = [row[3] for row in browser.run(scripts.ROWS, "resources")]
                assert rows == ["2026-03-01"] * 2, f"days in {zone}"
                changes = [row[0] for row in browser.run(scripts.ROWS, "changes")]
                assert changes == ["2026-03-01 23:00:01", "2026-03-01 00:00:01"], f"changes in {zone}"
                assert "2026-03-01 23:00:01.000" in browser.text("moment")
                assert browser.text("changed") == "2026-03-01 23:00:01"
    finally:
        browser.tell("Emulation.setTimezoneOverride", timezoneId="")
