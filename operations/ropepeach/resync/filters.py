"""The files that a run takes: the patterns of --include and --exclude, as rsync(1) reads them.

The first rule that matches a path decides. A path without a matching rule is taken, unless a folder above it is not. A
path is the bytes below the top, without a leading `/`.
"""
from __future__ import annotations

import argparse
import functools
import os
import re
import string
from collections.abc import Iterable, Sequence

WILD = re.compile(rb"[*?\[]")
# An item of a character class: a named class, as [:digit:], a byte or a range, with or without backslashes.
CLASS_ITEM = rb"(?>\[:[^\]]*:\]|(\\?.)(?:-(?!\])(\\?.))?)"
ITEM_FORM = re.compile(CLASS_ITEM, re.DOTALL)
# A piece of a pattern. Within a class only the first item may be a `]`.
PATTERN_PIECE = re.compile(
    rb"(?P<stars>\*+)|\[(?>(?P<negation>[!^]?)(?P<items>" + CLASS_ITEM + rb"(?:(?!\])" + CLASS_ITEM + rb")*))\]"
    rb"|\\(?P<escaped>.)|(?P<byte>.)", re.DOTALL)
# This expression never matches: it replaces a class without an end or with an unknown name, and a final backslash.
NOTHING = rb"(?!)"
CLASSES = {
    "alnum": string.ascii_letters + string.digits, "alpha": string.ascii_letters, "blank": " \t",
    "cntrl": "".join(map(chr, [*range(32), 127])), "digit": string.digits,
    "graph": string.ascii_letters + string.digits + string.punctuation, "lower": string.ascii_lowercase,
    "print": string.ascii_letters + string.digits + string.punctuation + " ", "punct": string.punctuation,
    "space": string.whitespace, "upper": string.ascii_uppercase, "xdigit": string.hexdigits,
}
# A pattern split at every `**`, and the parts split at every `*`.
Parts = list[list[bytes]]


def class_expression(items: bytes, is_negated: bool) -> bytes:
    """Return the regular expression of a class of characters, which never has a `/`."""
    found = set[int]()
    for item in ITEM_FORM.finditer(items):
        if item[1]:
            first, last = item[1][-1], (item[2] or item[1])[-1]
            found |= {first, *range(first, last + 1)}
        elif (name := item[0][2:-2].decode("latin-1")) in CLASSES:
            found |= set(CLASSES[name].encode())
        else:
            return NOTHING
    found = (set(range(256)) - found if is_negated else found) - {ord("/")}
    return b"[" + b"".join(b"\\x%02x" % value for value in sorted(found)) + b"]" if found else NOTHING


def wildcard_parts(pattern: bytes) -> Parts:
    """Return the parts of a pattern with wildcards, as regular expressions."""
    parts: Parts = [[b""]]
    for piece in PATTERN_PIECE.finditer(pattern):
        stars, byte = piece["stars"] or b"", piece["byte"]
        if len(stars) > 1:
            parts.append([b""])
        elif stars:
            parts[-1].append(b"")
        elif piece["items"]:
            parts[-1][-1] += class_expression(piece["items"], bool(piece["negation"]))
        elif byte == b"?":
            parts[-1][-1] += b"[^/]"
        else:
            parts[-1][-1] += NOTHING if byte in (b"[", b"\\") else re.escape(piece["escaped"] or byte)
    return parts


def expression_of(pattern: bytes) -> bytes:
    """Return the regular expression of a pattern with wildcards.

    A piece after a star is searched for once, at its first place: no later place would match more, and no hostile name
    makes the search long.
    """
    *before, last = wildcard_parts(pattern)
    text = b""
    for number, (first, *others) in enumerate(before):
        part = first + b"".join(b"(?>[^/]*?" + piece + b")" for piece in others)
        text += b"(?>.*?" + part + b")" if number else part
    first, *others = last
    text += (b".*" if before else b"") + first
    text += b"".join(b"(?>[^/]*?" + piece + b")" for piece in others[:-1])
    return text + (b"[^/]*" + others[-1] if others else b"")


class Rule:
    """A pattern, and whether a path that matches it is taken."""

    def __init__(self, pattern: str, is_taking: bool) -> None:
        self.pattern, self.is_taking = pattern, is_taking
        text = os.fsencode(pattern)
        is_wild = WILD.search(text) is not None
        self.is_of_folders = len(text) > 1 and text.endswith(b"/")
        text = text[:-1] if self.is_of_folders else text
        # (`dir/***` matches the folder too, by the `/` after it)
        self.has_folder_itself = text.endswith(b"***")
        is_deep, is_anchored = b"**" in text, text.startswith(b"/")
        self.front = b"/" if text.startswith(b"**") else b""
        # The number of segments at the end of a path that are compared; 0 is all of them.
        self.segments = 0 if is_deep or is_anchored else text.count(b"/") + 1
        text = text.removeprefix(b"/")
        compared = expression_of(text) if is_wild else re.escape(text)
        if is_deep and not is_anchored and not self.front:
            compared = b"(?:.*/)?" + compared
        self.expression = re.compile(compared, re.DOTALL)

    def is_match(self, path: bytes, is_folder: bool) -> bool:
        """Return whether a path matches this pattern."""
        if self.is_of_folders and not is_folder:
            return False
        if self.segments:
            parts = path.split(b"/")
            if len(parts) < self.segments:
                return False
            path = b"/".join(parts[-self.segments:])
        end = b"/" if is_folder and self.has_folder_itself else b""
        return self.expression.fullmatch(self.front + path + end) is not None


class Filters:
    """The rules of a run, in their order."""

    def __init__(self, rules: Sequence[Rule] = ()) -> None:
        self.rules = list(rules)
        self.folders: dict[bytes, bool] = {b"": True}

    def digest(self) -> str:
        """Return a digest of the rules, or an empty text without rules."""
        if not self.rules:
            return ""
        # (few runs have rules)
        import hashlib
        import json

        words = [[rule.pattern, rule.is_taking] for rule in self.rules]
        return hashlib.sha256(json.dumps(words).encode()).hexdigest()

    def is_taken(self, path: bytes, is_folder: bool) -> bool:
        """Return whether a path in a taken folder is taken."""
        return next((rule.is_taking for rule in self.rules if rule.is_match(path, is_folder)), True)

    def has_folder(self, path: bytes) -> bool:
        """Return whether a folder and all folders above it are taken."""
        if path not in self.folders:
            ends = [*(slash.start() for slash in re.finditer(b"/", path)), len(path)]
            self.folders[path] = all(self.is_taken(path[:end], True) for end in ends)
        return self.folders[path]

    def has(self, path: str) -> bool:
        """Return whether a file is taken, by its whole path."""
        if not self.rules:
            return True
        text = os.fsencode(path)
        return self.has_folder(text.rpartition(b"/")[0]) and self.is_taken(text, False)

    def has_entry(self, path: str, is_folder: bool) -> bool:
        """Return whether an entry of a taken folder is taken."""
        return not self.rules or self.is_taken(os.fsencode(path), is_folder)

    def of(self, paths: Iterable[str]) -> set[str]:
        """Return the paths that are taken."""
        return {path for path in paths if self.has(path)}


def rule_of(is_taking: bool, text: str) -> Rule:
    """Return the rule of a pattern. Raise ArgumentTypeError if rsync would not read the text as one."""
    if not text or text == "!" or text.startswith(("+ ", "- ")):
        raise argparse.ArgumentTypeError(f"{text!r} is no pattern: write `[+] a`, `[-] a` or `[!]` for such a name")
    return Rule(text, is_taking)


def add_patterns(parser: argparse.ArgumentParser, what: str) -> None:
    """Add the options --include and --exclude, whose order is kept."""
    parser.add_argument("--exclude", type=functools.partial(rule_of, False), dest="rules", action="append",
                        default=[], metavar="PATTERN",
                        help=f"leave out {what} with a path that the pattern matches, as rsync(1) reads it; the first "
                             "of all patterns that matches decides")
    parser.add_argument("--include", type=functools.partial(rule_of, True), dest="rules", action="append",
                        metavar="PATTERN",
                        help="take what the pattern matches, whatever later patterns exclude")
