"""Run `ropepeach mirror` on static files, and compare the folder."""
import os
import pathlib

from operations.tests.tools.running import ropepeach
from operations.tests.tools.static_source import STYLES, Static, Style, facts, md, url

FILES = {"a.txt": b"one", "d/b?x=1&y=2": b"two", "c": b"", "d": b"three"}
# A style with only addresses, and a style of lists as a Ropepeach's, except for their names.
BARE, WHOLE = STYLES["hyrax"], STYLES["dumps"]


def entries(count: int) -> int:
    """Return the number of entries of a large source: ENTRIES of the environment, or this default."""
    return int(os.environ.get("ENTRIES", count))


def mirrored(site: Static, *words: str, status: int = 0, says: str = "", path: str = "", into: str = "m") -> str:
    """Run the mirror, check its exit status and a part of its output or messages, and return its output."""
    found, output, messages = ropepeach("mirror", site.base + path, into, *words)
    assert "Traceback" not in messages, messages
    assert found == status, messages
    assert says in messages + output
    return output


def place(site: Static, path: str) -> str:
    """Return the path in the folder of a path of the source, as the manual says."""
    *above, last = path.split("/")
    end = last.replace("?", "!3F") if last else "!"
    return "/".join(["http+" + site.base.removeprefix("http://"), *above[1:], end])


def holds(site: Static, style: Style, files: dict[str, bytes], into: str = "m") -> None:
    """Check that a folder has exactly these files of a source, in addition to the mirror's own."""
    paths = {place(site, style.resources + name): body for name, body in files.items()}
    aside = {name: f"{name}#" if any(path.startswith(f"{name}/") for path in paths) else name for name in paths}
    found = {str(path.relative_to(into)): path.read_bytes() for path in pathlib.Path(into).rglob("*")
             if path.is_file()}
    own = {name for name in found if name in ("#state", "#known", "#known-later")}
    assert {name: body for name, body in found.items() if name not in own} == {
        aside[name]: body for name, body in paths.items()}
    assert own - {"#known-later"} == {"#state", "#known"}


def listed(style: Style, site: Static, name: str, word: str, at: str, body: bytes = b"") -> str:
    """Return a change of a Change List."""
    inner = md(change=word,
               datetime=at) if word == "deleted" else facts(style, body, change=word, datetime=at)
    return url(f"{site.base}{style.resources}{name}", "" if word == "deleted" else at, inner)
