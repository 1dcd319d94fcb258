"""Draw the pictures of a folder of pages from runs of the built program, and compare them byte for byte.

A picture is plain SVG: known elements only, a title and a description, no references to other files, and no text wider
than the picture by an estimate; and a page shows it. The check first draws wrong recordings and folders, which must be
refused or give another picture.
"""

import argparse
import os
import subprocess
import tempfile
import xml.etree.ElementTree as ElementTree
from collections.abc import Callable
from dataclasses import dataclass
from pathlib import Path

from tests.pictures.svg import Picture
from tests.program import PROGRAM, Differs

SVG = "{http://www.w3.org/2000/svg}"
ELEMENTS = {"svg", "title", "desc", "rect", "line", "text", "path", "circle", "polyline", "polygon"}
FAULTS = (Differs, OSError, ValueError, LookupError, StopIteration, subprocess.SubprocessError)
# A function that draws a picture of a run of a program in a folder; its third argument introduces a mistake.
Draw = Callable[..., Picture]
Change = Callable[..., object]


def compare(what: str, wanted: str, drawn: str) -> None:
    """Report the first line that differs."""
    if wanted == drawn:
        return
    olds, news = wanted.split("\n"), drawn.split("\n")
    pairs = enumerate(zip(olds, news))
    at = next((at for at, (old, new) in pairs if old != new), min(len(olds), len(news)) - 1)
    differing = f"wanted {olds[at][:150]!r}, found {news[at][:150]!r}"
    raise Differs(f"{what}: line {at + 1}: {differing}; `make pictures` draws it anew")


def look_at_form(name: str, picture: Picture) -> None:
    """Check that a picture is plain SVG, and that all its texts fit."""
    root = ElementTree.fromstring(picture.spelled())
    names = {element.tag.removeprefix(SVG) for element in root.iter()}
    if names - ELEMENTS:
        raise Differs(f"{name}: it has elements {sorted(names - ELEMENTS)}")
    if [element.tag for element in root[:2]] != [SVG + "title", SVG + "desc"] or not (root[0].text and root[1].text):
        raise Differs(f"{name}: it begins without a title and a description")
    attributes = [pair for element in root.iter() for pair in element.attrib.items()]
    if any("href" in attribute or "url(" in value for attribute, value in attributes):
        raise Differs(f"{name}: it takes something from elsewhere")
    for text, left, right, top, bottom in picture.texts:
        if left < 0 or top < 0 or right > picture.width or bottom > picture.height:
            raise Differs(f"{name}: {text!r} leaves the picture")


def notices_a_wide_text() -> bool:
    """Return whether the check notices a text that leaves its picture."""
    wide = Picture(100, 50, "a title", "a description")
    wide.text(60, 20, "too long for it")
    try:
        look_at_form("wide", wide)
    except Differs:
        return True
    return False


@dataclass(frozen=True)
class Album:
    """The pictures of a folder of pages, kept in its subfolder pictures/."""

    name: str
    pages: Path
    # The functions that draw the pictures, by name.
    draws: dict[str, Draw]
    # The mistakes, and the pictures that must show them.
    wrong: list[tuple[str, Change]]
    # The exceptions by which a drawing refuses.
    faults: tuple[type[Exception], ...]

    def path(self, name: str) -> Path:
        """Return the path of a picture."""
        return self.pages / "pictures" / name

    def drawn(self, program: str) -> dict[str, Picture]:
        """Draw all pictures from runs in a temporary folder; return them by name."""
        with tempfile.TemporaryDirectory(prefix="pictures-") as room:
            return {name: draw(program, room) for name, draw in self.draws.items()}

    def is_shown(self, name: str) -> bool:
        """Return whether a page shows a picture with alternative text."""
        place = f"](pictures/{name})"
        texts = [page.read_text() for page in self.pages.glob("*.md")]
        return any(place in text and f"![{place}" not in text for text in texts)

    def is_noticed(self, program: str, name: str, change: Change) -> bool:
        """Return whether a mistake is refused, or gives another picture than the kept one."""
        with tempfile.TemporaryDirectory(prefix="pictures-") as room:
            try:
                picture = self.draws[name](program, room, change)
                return bool(picture.spelled() != self.path(name).read_text())
            except self.faults:
                return True

    def look(self, program: str) -> list[str]:
        """Return the faults of the pictures."""
        blind = [change.__name__ for name, change in self.wrong if not self.is_noticed(program, name, change)]
        blind += [] if notices_a_wide_text() else ["a text that leaves its picture"]
        failed = [f"{change} is not noticed, and this test is blind" for change in blind]
        try:
            for name, picture in self.drawn(program).items():
                look_at_form(name, picture)
                if not self.is_shown(name):
                    raise Differs(f"{name}: no page of {self.pages.name}/ shows it")
                compare(name, self.path(name).read_text(), picture.spelled())
        except self.faults as fault:
            failed.append(f"{type(fault).__name__} {fault}")
        return failed

    def main(self) -> int:
        """Check the pictures, or overwrite them with --draw; return the exit status."""
        words = argparse.ArgumentParser(prog=self.name)
        words.add_argument("program", nargs="?", default=PROGRAM)
        words.add_argument("--draw", action="store_true")
        arguments = words.parse_args()
        program = os.path.abspath(arguments.program)
        if arguments.draw:
            for name, picture in self.drawn(program).items():
                self.path(name).write_text(picture.spelled())
                print(f"drawn: {self.path(name)}")
            return 0
        failed = self.look(program)
        print("".join(f"{self.name}: {fault}\n" for fault in failed), end="")
        counts = f"{len(self.draws)} drawn anew, {len(self.wrong) + 1} wrong ones made up"
        print(f"{self.name}: {counts}, {len(failed) or 'nothing'} other than it has to be")
        return 1 if failed else 0
