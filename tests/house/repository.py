"""The files of the repository, and the words, flags and targets of its sources, against which pages are checked."""

import fnmatch
import os
import re
from collections.abc import Iterator
from pathlib import Path

SOURCES = ["crates/*/src/**/*.rt", "crates/*/specs/**/*.antt", "crates/*/proofs/*.antt", "crates.txt", "packages.txt"]
SOURCES += ["tests/house/words.txt", "statement/kit_words.txt", "Makefile", "operations/Makefile", "examples/*"]
SOURCES += ["operations/*", "operations/install/*", "operations/install/site/*", "debian/*", "pyproject.toml",
            "MANIFEST.in"]
SOURCES += [f"{folder}/**/*.py" for folder in ("bench", "gate", "operations", "rattle", "rust", "statement", "tests")]
# The files with targets of `make`.
MAKEFILES = ["Makefile", "operations/Makefile"]
SOURCES += ["rust/*/src/*.rs", "rust/*/Cargo.toml"]
COMMENT, WORD, FLAG = re.compile(
    r"(?m)(?<!\S)(?://|--(?=\s)).*"), re.compile(r"[^\W\d]\w*"), re.compile(r"(?<![\w-])--[a-z][a-z-]*")
FENCE, SPAN = re.compile(r"(?ms)^ *```(\w*)\n(.*?)^ *```"), re.compile(r"(?<!`)`([^`]+)`(?!`)")


def found_below(root: Path) -> Iterator[str]:
    """Yield all files and folders except build results."""
    for top, folders, files in os.walk(root):
        folders[:] = [folder for folder in folders if folder not in (".git", "out", "__pycache__")]
        yield from (os.path.relpath(Path(top, name), root) for name in [*folders, *files])


def read(file: Path) -> str:
    """Return the text of a source; code and definitions lose their comments."""
    text = file.read_text(errors="replace")
    return COMMENT.sub("", text) if file.suffix in (".rt", ".antt") else text


def blanked(kind: re.Pattern[str], text: str) -> str:
    """Return a text with the matches replaced by spaces, so that all other characters keep their places."""
    return kind.sub(lambda found: re.sub(r"\S", " ", found[0]), text)


def prose(text: str) -> str:
    """Return a page without its blocks of code."""
    return blanked(FENCE, text)


class Repository:
    """The files of a repository, and the words, flags and targets of its sources."""

    def __init__(self, root: Path) -> None:
        self.root = root
        # Every path and every end of a path, with and without its suffix.
        ends = {"/".join(parts[at:]) for parts in (path.split("/") for path in found_below(root))
                for at in range(len(parts))}
        self.ends = ends | {end.rpartition(".")[0] for end in ends if "." in end}
        self.sources = {path: read(path) for kind in SOURCES for path in sorted(root.glob(kind))
                        if path.is_file() and "out" not in path.parts}
        self.words = {word for text in [*self.sources.values(), *self.ends] for word in WORD.findall(text)}
        self.flags = {flag for text in self.sources.values() for flag in FLAG.findall(text)}
        rules = "".join(file.read_text() for file in (root / name for name in MAKEFILES) if file.is_file())
        # Every subcommand of `ropepeach` has a manual page.
        pages = root.glob("operations/install/ropepeach-*.1")
        self.subcommands = {page.stem.removeprefix("ropepeach-") for page in pages}
        self.targets = {target for line in re.findall(r"(?m)^([\w -]+):", rules) for target in line.split()}

    def texts(self, *crates: str) -> list[str]:
        """Return the texts of code and definitions of these crates, or of all crates if none is named."""
        own = {self.root / "crates" / crate for crate in crates} or {self.root / "crates"}
        return [text for path, text in self.sources.items() if own & set(path.parents) and "proofs" not in path.parts]

    def has(self, path: str) -> bool:
        """Return whether a file or folder ends in this path; a part in capitals matches any name."""
        wanted = re.sub(r"(?<![\w.])[A-Z][A-Z_]+(?!\w|\.md)", "*", path)
        return path in self.ends or "*" in wanted and bool(fnmatch.filter(self.ends, wanted))
