"""Test the search, the folders and types, and the export of the page's list."""
import csv
import io
import json

from operations.tests.page import fake as fakes, scripts
from operations.tests.page.fake import current
from operations.tests.page.looked import IN_BROWSER, Looked

pytestmark = IN_BROWSER

CHIPS = "return [...document.querySelectorAll(`[data-part='${arguments[0]}'] button`)].map((it) => it.textContent)"
PRESS = """[...document.querySelectorAll(`[data-part="${arguments[0]}"] button`)]
  .find((it) => it.dataset.key === arguments[1]).click()"""
FOUND = "return document.querySelector('[data-part=found]').textContent"
# Keep the text of a file that the page saves.
SAVED = """
URL.createObjectURL = (blob) => { blob.text().then((text) => { window.saved = [blob.type, text]; }); return "#"; };
HTMLAnchorElement.prototype.click = function () { window.savedAs = this.download; };
"""
# Names and types that are markup, formulas, or reverse text.
HOSTILE = [("=cmd()", "=1+1"), ("@a/<b>x</b>", "text/plain"), ("a/\u202egpj", 'x/y;a="b"'), ("f" * 240, "-1/+2"),
           ("a,b\"c/d", "text/csv")]


def names(look: Looked) -> list[str]:
    """Return the names in the list."""
    return [row[0] for row in look.browser.run(scripts.ROWS, "resources")]


def test_a_search_takes_patterns_digests_and_letters_without_diacritics(look: Looked) -> None:
    """`*.pdf`, a SHA-256 or its first 8 digits and `muller` find a resource; a slash focuses the search."""
    browser = look.browser

    def make(base: str) -> fakes.Fake:
        changes = [fakes.entry_of(name, name.encode(), fakes.BEGUN + at, "created", "a/b") for at, name in enumerate(
            ("M%C3%BCller.txt", "a/report.pdf", "a/report.pdf.txt", "b/Minutes-1.csv"))]
        return fakes.published(fakes.Fake(base, changes=changes), fakes.BEGUN + 100)

    with look.fake(make) as shown:
        browser.open(f"{shown.base}/")
        browser.state("Open")
        report = next(entry for entry in shown.fake.listed if entry.name == "a/report.pdf")
        digest = report.hash.partition("sha-256:")[2]
        for words, wanted in [("muller", ["Müller.txt"]), ("MÜLLER", ["Müller.txt"]), ("*.pdf", ["a/report.pdf"]),
                              ("min*.csv", ["b/Minutes-1.csv"]), ("report*", ["a/report.pdf", "a/report.pdf.txt"]),
                              (digest, ["a/report.pdf"]), (digest[:8].upper(), ["a/report.pdf"]), (digest[:7], [])]:
            browser.run(scripts.TYPED, "search", words)
            assert names(look) == wanted, words
        assert browser.run("return document.querySelector('[data-part=nothing]').checkVisibility()")
        assert not browser.run("return document.querySelector('.resources').checkVisibility()")
        browser.click("clear")
        assert len(names(look)) == 4
        assert browser.run("return document.activeElement.dataset.part") == "search"
        browser.run("document.activeElement.blur()")
        browser.press("/", "/")
        assert browser.run("return document.activeElement.dataset.part") == "search"
        assert browser.run("return document.activeElement.value") == ""
        look.is_well()


def test_folders_and_types_narrow_the_list(look: Looked) -> None:
    """Folders and types have counts and addresses; together with the search they narrow the list."""
    browser = look.browser
    with look.fake(lambda base: fakes.archive(base, 300)) as shown:
        browser.open(f"{shown.base}/")
        browser.state("Open")
        held = current(shown.fake)
        folder = held[0].name.partition("/")[0]
        inside = [entry for entry in held if entry.name.startswith(f"{folder}/")]
        assert f"{folder} {len(inside)}" in browser.run(CHIPS, "folders")
        browser.run(PRESS, "folders", f"{folder}/")
        assert browser.run(FOUND) == f"{len(inside)} of 300 resources"
        pdf = sorted(entry.name for entry in inside if entry.kind == "application/pdf")
        assert f"PDF {len(pdf)}" in browser.run(CHIPS, "types")
        browser.run(PRESS, "types", "PDF")
        assert names(look) == pdf
        assert browser.run("return location.hash") == f"#folder={folder}/&type=PDF"
        assert browser.run(CHIPS, "folders")[:2] == ["All folders", folder]
        browser.run("history.back()")
        browser.equals(f"{len(inside)} of 300 resources", FOUND)
        browser.open("about:blank")
        browser.open(f"{shown.base}/#folder={folder}/&type=PDF")
        browser.state("Open")
        assert names(look) == pdf
        browser.run(PRESS, "folders", "")
        browser.run(PRESS, "types", "PDF")
        assert browser.run(FOUND) == "300 resources"
        look.is_well()


def hostile(base: str) -> fakes.Fake:
    """Return a source with hostile names and types."""
    changes = [fakes.entry_of(name, b"body", fakes.BEGUN + at, "created", kind)
               for at, (name, kind) in enumerate(HOSTILE)]
    return fakes.published(fakes.Fake(base, changes=changes), fakes.BEGUN + 100)


def test_the_shown_list_is_exported(look: Looked) -> None:
    """CSV and JSON have the listed facts; no cell of CSV is a formula, and no character reverses text."""
    browser = look.browser
    with look.fake(hostile) as shown:
        browser.open(f"{shown.base}/")
        browser.state("Not mirrorable")
        browser.run(SAVED)
        browser.click("json")
        kind, text = browser.until("return window.saved", "the JSON")
        found = json.loads(text)
        shown_names = [entry.name.replace("\u202e", "%E2%80%AE") for entry in shown.fake.listed]
        assert kind == "application/json" and [it["name"] for it in found] == shown_names
        facts = next(it for it in found if it["name"] == "=cmd()")
        body = fakes.hash_of(b"body")
        assert f"md5:{facts['md5']} sha-256:{facts['sha256']}" == body
        assert (facts["length"], facts["type"], facts["address"]) == (4, "=1+1", f"{shown.base}/resource/=cmd()")
        browser.run("window.saved = null")
        browser.click("csv")
        kind, text = browser.until("return window.saved", "the CSV")
        head, *rows = list(csv.reader(io.StringIO(text, newline="")))
        assert (kind, head, len(rows)) == ("text/csv", list(facts), len(HOSTILE))
        assert [cell for row in rows for cell in row if cell[:1] in "=+-@" and cell] == []
        assert {row[0].removeprefix("'") for row in rows} == set(shown_names)
        assert "\u202e" not in text
        browser.run(scripts.TYPED, "search", "text/csv")
        browser.run("window.saved = null")
        browser.click("csv")
        assert len(browser.until("return window.saved", "the CSV")[1].splitlines()) == 2
        assert browser.run(scripts.STRANGE) == 0
        look.is_well()
