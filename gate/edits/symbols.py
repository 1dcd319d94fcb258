"""The symbols by which the lines of a check name functions."""

import re
from collections.abc import Iterable

from rattle.code import Function


def words_of(head: str) -> list[str]:
    """The names of a block's head, without their paths and lifetimes."""
    return re.findall(r"\b[A-Za-z]\w*\b(?!\s*::)", re.sub(r"'\w+", "", head))


def module_of(path: str) -> list[str]:
    """The module that a file of code is, by the file's path below src/."""
    steps = path.removeprefix("src/").removesuffix(".rt").split("/")
    return [step for step in steps if step not in ("lib", "main", "mod")]


def symbol_of(path: str, function: Function, symbols: Iterable[str]) -> str | None:
    """The one symbol of a check's lines that a function of the file can have, or None."""
    module = module_of(path)
    head = re.sub(r"\A(impl|trait)\s*(<([^<>]|<[^<>]*>)*>)?", "", function.block.split("where")[0]).strip()
    trait, _, owner = head.rpartition(" for ")
    owner = (words_of(owner) or [""])[0]
    # A method of a plain impl has its type's module, wherever the impl is.
    is_plain = function.block and not trait
    parts = [*([] if is_plain else module), *([owner + "".join(words_of(trait))] if function.block else []),
             function.name]
    end = "::" + "::".join(parts)
    found = [symbol for symbol in symbols if symbol.endswith(end)]
    found = [symbol for symbol in found if is_plain or symbol.count("::") == end.count("::")]
    return found[0] if len(found) == 1 and (owner or not function.block) else None
