"""Compare the page with a model of a few lines, with random sources."""
from __future__ import annotations

import dataclasses
import random
import re
import threading
from collections.abc import Callable

from operations.tests.page import fake as fakes, scripts
from operations.tests.page.looked import IN_BROWSER, SEEDS, SOON, Looked, Shown
from tests.reading.crash_model import moment_text

pytestmark = IN_BROWSER

# A response of a source to a path: a status, a type and a body.
Answer = tuple[int, str, bytes]
Answering = Callable[[str], Answer]
SOURCES = 5
# Valid names, some of which XML must escape.
NAMES = ["a", "b/c", "o'k", "x&y", "(1)", "papers/1.txt", "papers/2.txt", "q;r,t", "~u", "m@h:1"]
# The types of bodies, and the words that the list shows.
KINDS = {"text/plain": "text", "application/pdf": "PDF", "a/b;c='d'": "a/b"}
LIES = ["bit", "longer", "shorter", "gone"]
AGAIN = """document.querySelector("[data-part='again'], [data-part='anew']").click()"""
CHECKED = "return /; .* in/.test(document.querySelector(`[data-part='checked']`).textContent)"
UNCHECKED = "document.querySelector(`[data-part='checked']`).textContent = ''"
FIGURE = """const part = document.querySelector(`[data-part='${arguments[0]}']`);
return part.textContent.replaceAll(',', '') === arguments[1]"""
BYTES = """const text = (it) => document.querySelector(`[data-part='${it}']`).textContent.trim();
return (text('bytes') || text('size')).replace(/s$/, '') === arguments[0]"""
TOLD = """const parts = document.querySelectorAll('#notice, [data-part=state-word], [data-part=why]');
const all = [...parts].map((it) => it.textContent).join(' ');
return all.trim() && !/Reading/.test(all) ? all : ''"""


@dataclasses.dataclass
class Spelled(fakes.Fake):
    """A source that writes the apostrophe of a name as the program does."""

    def documents(self) -> dict[str, bytes]:
        """Return the documents by path."""
        return {path: text.replace(b"o'k", b"o&apos;k") for path, text in super().documents().items()}


def drawn(base: str, rng: random.Random) -> fakes.Fake:
    """Return a source with a random history and lists in parts at times, which serves the bodies that it lists."""
    source, moment = Spelled(base, limit=rng.choice([2, 3, 5, 100])), fakes.BEGUN + rng.randrange(fakes.HOUR)
    for _ in range(rng.randrange(1, 25)):
        moment += rng.randrange(1, fakes.HOUR)
        name, body = rng.choice(NAMES), rng.randbytes(rng.choice([0, 1, 9, 900, 3_000]))
        is_held = source.bodies.get(name, ("", None))[1] is not None
        if is_held and rng.random() < 0.3:
            source.changes.append(fakes.Entry(name, moment, "deleted"))
            source.bodies[name] = ("", None)
        else:
            kind, change = rng.choice([*KINDS]), "updated" if is_held else "created"
            source.changes.append(fakes.entry_of(name, body, moment, change, kind))
            source.bodies[name] = (kind, body)
        if rng.random() < 0.2:
            moment += 1
            source.publication += 1
            fakes.published(source, moment)
    return source


def resources_of(source: fakes.Fake) -> dict[str, tuple[str, bytes]]:
    """Return the types and bodies of a source's resources by name."""
    return {name: (kind, body) for name, (kind, body) in source.bodies.items() if body is not None}


def lying(source: fakes.Fake, rng: random.Random) -> set[str]:
    """Replace the bodies of some names; return these names."""
    names = sorted(resources_of(source))
    chosen = set(rng.sample(names, rng.randrange(min(3, len(names)) + 1)))
    for name in sorted(chosen):
        kind, body = source.bodies[name]
        assert body is not None
        wrong: dict[str, bytes | None] = {"longer": body + b"x", "shorter": body[:-1], "gone": None}
        wrong["bit"] = body[:-1] + bytes([body[-1] ^ 1]) if body else b"x"
        source.bodies[name] = (kind, wrong[rng.choice(LIES) if body else "longer"])
    return chosen


def shown_rows(look: Looked) -> list[list[str]]:
    """Return the cells of the rows of resources."""
    found: list[list[str]] = look.browser.run(scripts.ROWS, "resources")
    return found


def figures_are_right(look: Looked, source: fakes.Fake) -> None:
    """Check the figures and the rows of resources."""
    own, browser = resources_of(source), look.browser
    for part, figure in (("resources", len(own)), ("changes", len(source.changes))):
        browser.until(FIGURE, f"{part}: {figure}", part, str(figure))
    size = sum(len(body) for _, body in own.values())
    browser.until(BYTES, f"{size} bytes", f"{size:,} byte")
    wanted = [[name, KINDS[own[name][0]], f"{len(own[name][1]):,}"] for name in sorted(own)]
    assert [row[:3] for row in shown_rows(look)] == wanted


def marks_are_right(look: Looked, source: fakes.Fake, wrong: set[str]) -> None:
    """Check all bodies in the page; compare the counts, the marks, the names above them and the state."""
    browser, names = look.browser, resources_of(source).keys() | wrong
    browser.run(UNCHECKED)
    browser.click("check-some")
    browser.until(CHECKED, "the end of the checks")
    browser.state("Disagrees" if wrong else "Open")
    found = re.match(r"(\d+) agrees?(?:, (\d+) differs?)?;", browser.text("checked"))
    assert (found and (int(found[1]), int(found[2] or 0))) == (len(names) - len(wrong), len(wrong))
    assert sorted(browser.run(scripts.DIFFERING)) == sorted(wrong)
    marks = {row[0]: "differs" in row[4] for row in shown_rows(look)}
    assert marks == {name: name in wrong for name in names}


def healed(look: Looked, shown: Shown, source: fakes.Fake, wrong: set[str]) -> None:
    """Restore the wrong bodies, and check that they have no mark."""
    last = max([source.at, *(change.moment for change in source.changes)])
    kinds = {change.name: change.kind for change in source.changes}
    anew = [fakes.entry_of(name, b"anew", last + number, "updated", kinds[name])
            for number, name in enumerate(sorted(wrong), 1)]
    bodies = source.bodies | {entry.name: (entry.kind, b"anew") for entry in anew}
    shown.is_now(dataclasses.replace(source, changes=source.changes + anew, bodies=bodies))
    look.browser.run(AGAIN)
    figures_are_right(look, shown.fake)
    look.browser.state("Open")
    marked = {row[0] for row in shown_rows(look) if "differs" in row[4] or "agrees" in row[4]}
    assert marked & wrong == set()


@SEEDS
def test_random_sources_are_shown_as_a_model_says(look: Looked, seed: int) -> None:
    """The page shows the figures, rows, marks and states of the model."""
    rng = random.Random(seed)
    with look.hurried(*SOON), look.fake(lambda base: drawn(base, rng)) as shown:
        look.browser.open(f"{shown.base}/")
        for _ in range(SOURCES):
            look.browser.state("Open")
            figures_are_right(look, shown.fake)
            served = dataclasses.replace(shown.fake, bodies=dict(shown.fake.bodies))
            wrong = lying(served, rng)
            shown.is_now(served)
            marks_are_right(look, served, wrong)
            healed(look, shown, served, wrong)
            shown.is_now(drawn(shown.base, rng))
            look.browser.run(AGAIN)
        look.is_well()


def test_an_open_part_that_grows_is_read_again(look: Looked) -> None:
    """The page always reads the open part of the Change List again, at the same address."""
    changes = [fakes.entry_of(f"{number}", b"body", fakes.BEGUN + number, "created") for number in range(6)]
    bodies: dict[str, tuple[str, bytes | None]] = {change.name: ("text/plain", b"body") for change in changes}
    with look.fake(lambda base: fakes.Fake(base, changes=changes[:4], limit=3, bodies=bodies)) as shown:
        look.browser.open(f"{shown.base}/")
        look.browser.state("Open")
        for count in (4, 5, 6):
            shown.is_now(dataclasses.replace(shown.fake, changes=changes[:count]))
            look.browser.run(AGAIN)
            look.browser.until(FIGURE, f"{count} changes", "changes", str(count))
            assert [row[0] for row in shown_rows(look)] == [f"{number}" for number in range(count)]


def test_kept_parts_are_compared_with_every_change_list(look: Looked) -> None:
    """The page compares a cached part of the Resource List with the current Change List."""
    listed = [fakes.entry_of(f"{number}", b"body", fakes.BEGUN + number) for number in range(4)]
    changes = [dataclasses.replace(entry, change="created") for entry in listed]
    wrong = [dataclasses.replace(changes[0], length=1), *changes[1:]]
    at = fakes.BEGUN + 100
    with look.fake(lambda base: fakes.Fake(base, listed, wrong, at, limit=2)) as shown:
        look.browser.open(f"{shown.base}/")
        look.browser.state("Disagrees")
        # (the source has dropped its first change from the Change List)
        shown.is_now(dataclasses.replace(shown.fake, changes=changes[1:]))
        look.browser.run(AGAIN)
        look.browser.state("Open")
        look.is_well()


def is_told(look: Looked, what: str, shown: Shown, answer: Answering, words: str = "") -> None:
    """Check that the page is neither `Open` nor `Closed`, and shows these words."""
    shown.server.answer = answer
    look.browser.open(f"{shown.base}/")
    text = look.browser.until(TOLD, what)
    assert (bool(re.search(r"\b(Open|Closed)\b", text)), words in text) == (False, True), f"{what}: {text}"


def apart(source: fakes.Fake) -> Answering:
    """Return the responses of a source that dropped the changes between the publication and the Change List."""
    later = [change for change in source.changes if change.moment > source.at + 1]
    answer: Answering = dataclasses.replace(source, changes=later).answer()
    begin = f'from="{moment_text(source.at + 1)}"'.encode()

    def answered(path: str) -> Answer:
        status, kind, body = answer(path)
        is_list = path == "/changelist.xml"
        return status, kind, re.sub(rb'from="1970[^"]*"', begin, body) if is_list else body

    return answered


def test_wrong_responses_are_reported(look: Looked) -> None:
    """The page reports a redirect, an address near the base, a gap between the lists, another MD5, an invalid moment,
    and full memory.
    """
    with look.fake(lambda base: fakes.archive(base, 30)) as shown:
        right: Answering = shown.fake.answer()
        base, lists = shown.base, right("/resourcelist.xml")

        def instead(path: str, answer: Answer) -> Answering:
            return lambda requested: answer if requested == path else right(requested)

        def exchanged(path: str, old: str, new: str) -> Answering:
            status, kind, body = right(path)
            assert old.encode() in body, f"{old} in {path}"
            return instead(path, (status, kind, body.replace(old.encode(), new.encode(), 1)))

        moved = instead("/resourcelist.xml", (302, f"text/plain\r\nLocation: {base}/other.xml", b""))
        is_told(look, "a redirect", shown, lambda requested: lists if requested == "/other.xml" else moved(requested))
        beside = exchanged("/capabilitylist.xml", f"{base}/resourcelist.xml", f"{base}1/resourcelist.xml")
        is_told(look, "beside the base", shown, beside, "is not below its base")
        is_told(look, "lists apart", shown, apart(shown.fake))
        first = shown.fake.listed[0]
        other = exchanged("/resourcelist.xml", first.hash.split()[0], f"md5:{'0' * 32}")
        is_told(look, "another MD5", shown, other, first.name)
        for moment in ("2026-02-29", "2026-13-01", "2026-04-31"):
            fault = exchanged("/resourcelist.xml", moment_text(first.moment)[:10], moment)
            is_told(look, f"no day: {moment}", shown, fault, "is no moment")
        is_told(look, "no memory", shown, instead("/changelist.xml", (503, "text/plain", b"NoMemory\n")))


def test_a_check_of_an_old_body_does_not_mark_the_new_one(look: Looked) -> None:
    """A resource that is put and listed again during a check of its old body has no mark."""
    with look.hurried(*SOON), look.fake(lambda base: fakes.archive(base, 30)) as shown:
        look.browser.open(f"{shown.base}/")
        look.browser.state("Open")
        begun, goes_on, name = threading.Event(), threading.Event(), shown.fake.listed[0].name
        assert shown_rows(look)[0][0] == name
        right: Answering = shown.fake.answer()

        def late(path: str) -> Answer:
            if path == f"/resource/{name}":
                begun.set()
                goes_on.wait(20)
            return right(path)

        shown.server.answer = late
        look.browser.run("document.querySelectorAll('.resources .row')[0].click()")
        look.browser.click("check")
        assert begun.wait(20)
        kind, last = shown.fake.bodies[name][0], shown.fake.changes[-1].moment
        changes = [*shown.fake.changes, fakes.entry_of(name, b"anew", last + 1, "updated", kind)]
        bodies = shown.fake.bodies | {name: (kind, b"anew")}
        shown.is_now(dataclasses.replace(shown.fake, changes=changes, bodies=bodies))
        look.browser.run(AGAIN)
        look.browser.until(FIGURE, "the new list", "changes", str(len(changes)))
        goes_on.set()
        ended = "return document.getElementById('live').textContent.includes(arguments[0])"
        look.browser.until(ended, "the end of the check", name)
        assert shown_rows(look)[0][4] == ""


def test_two_checks_of_many_resources_draw_different_ones(look: Looked) -> None:
    with look.fake(lambda base: fakes.archive(base, 300)) as shown:
        look.browser.open(f"{shown.base}/")
        look.browser.state("Open")
        sets = []
        for _ in range(2):
            shown.server.requests.clear()
            look.browser.run(UNCHECKED)
            look.browser.click("check-some")
            look.browser.until(CHECKED, "the end of the checks")
            sets.append({path for path in shown.server.paths() if path.startswith("/resource/")})
        assert [len(found) for found in sets] == [100, 100]
        assert not (sets[0] == sets[1])
