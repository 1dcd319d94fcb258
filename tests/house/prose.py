"""Count the words that plain technical English seldom needs, by kind of prose: pages, docstrings, comments, specs."""

import ast
import io
import re
import subprocess
import tokenize
from collections import defaultdict
from collections.abc import Iterator
from pathlib import Path

# Words in one pattern share one limit.
MARKERS = {
    "what": re.compile(r"(?i)\bwhat\b(?! is new)"),
    "each": re.compile(r"(?i)\beach\b"),
    "stand, tell, beside": re.compile(r"(?i)\b(?:stands?|stood|tells?|told|beside|behind|anew)\b"),
}
WORD = re.compile(r"[A-Za-z][A-Za-z'-]+")
DESCRIBED = (ast.Module, ast.ClassDef, ast.FunctionDef, ast.AsyncFunctionDef)
# Texts, with the kind of their prose.
Prose = Iterator[tuple[str, str]]


def of_python(path: Path, text: str) -> Prose:
    """Yield the docstrings and the comments of a file of Python."""
    room = "tests" if "tests" in path.parts else "code"
    described = [node for node in ast.walk(ast.parse(text)) if isinstance(node, DESCRIBED)]
    yield f"docstrings of {room}", "\n".join(ast.get_docstring(node) or "" for node in described)
    tokens = tokenize.generate_tokens(io.StringIO(text).readline)
    comments = (token.string.lstrip("# ") for token in tokens if token.type == tokenize.COMMENT)
    yield f"comments of {room}", "\n".join(comments)


def of_page(text: str) -> str:
    """Return the text of a page of Markdown, without its code."""
    return re.sub(r"`[^`]*`|^ {4,}.*$", " ", re.sub(r"(?ms)^```.*?^```", "", text), flags=re.MULTILINE)


def of_manual(text: str) -> str:
    """Return the text of a manual page, without comments."""
    return "\n".join(re.sub(r"\\f.|\\-|\\", "", line) for line in text.splitlines() if not line.startswith(".\\"))


def of_file(path: Path, text: str) -> Prose:
    """Yield the prose of a file, with its kind."""
    if path.suffix == ".py":
        yield from of_python(path, text)
    elif path.suffix == ".md":
        yield "pages", of_page(text)
    elif re.fullmatch(r"\.[1-8]", path.suffix):
        yield "manual pages", of_manual(text)
    elif path.suffix == ".rt":
        yield "comments of Rattle", "\n".join(re.findall(r"//[/!]? ?(.*)$", text, re.MULTILINE))
    elif path.suffix == ".antt":
        yield "comments of specs and proofs", "\n".join(re.findall(r"-- ?(.*)$", text, re.MULTILINE))


def rates(text: str) -> dict[str, float]:
    """Return the occurrences of each marker per 1,000 words."""
    words = max(1, len(WORD.findall(text)))
    return {name: 1000 * len(pattern.findall(text)) / words for name, pattern in MARKERS.items()}


def rates_of(root: Path) -> dict[str, dict[str, float]]:
    """Return the rates of a repository's files by kind of prose."""
    listed = subprocess.run(["git", "ls-files", "-z"], cwd=root, capture_output=True, text=True, check=True).stdout
    texts: dict[str, list[str]] = defaultdict(list)
    for path in (root / name for name in listed.split("\0") if name):
        if path.is_file() and path.suffix in (".py", ".md", ".rt", ".antt", *(f".{number}" for number in range(1, 9))):
            for kind, text in of_file(path.relative_to(root), path.read_text(encoding="utf-8")):
                texts[kind].append(text)
    return {kind: rates("\n".join(found)) for kind, found in texts.items()}
