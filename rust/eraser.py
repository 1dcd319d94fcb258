"""Rattle to plain Rust: one file's text to another, by edits of known forms. Any other form is refused."""
from collections.abc import Iterator

from rattle.lexer import Kind
from rust import names
from rust.edits import Edit, Form, Refused, applied, ordered, undone
from rust.source import Source


def ghosts(source: Source) -> Iterator[Edit]:
    """`ghost use ..;`, `ghost name = {..};`, a trait's `ghost name: {..};` and a field, with their documentation."""
    for place in source.words("ghost"):
        endings = ";"
        if source.stands(place + 1, "use"):
            last = place + 2
            while source.at(last) != ";":
                last = source.closing(last) + 1 if source.at(last) == "{" else last + 1
        elif source.is_word(place + 1) and source.stands(place + 2, "=", "{"):
            last = source.closing(place + 3) + 1
        elif source.is_word(place + 1) and source.stands(place + 2, ":", "{"):
            last, endings = source.closing(place + 3) + 1, ",;}"
            if source.stands(last, "by", "{"):
                last = source.closing(last + 1) + 1
        else:
            raise source.refused(place, f"`ghost {source.at(place + 1)} {source.at(place + 2)}` is no form of a ghost")
        if source.at(last) not in tuple(endings):
            raise source.refused(last, f"a ghost ends with `{source.at(last)}`")
        if source.at(last) == "}":  # the last field has no comma
            last -= 1
        first = first_of_visible(source, place)
        yield source.erase(first, last, Form.GHOST)
        for comment in source.comments_before(first):
            if comment.text.startswith("///"):
                yield Edit(comment.at, comment.text, "", Form.GHOST)


def first_of_visible(source: Source, place: int) -> int:
    """Return the place of the `pub` or `pub(crate)` before a place, or the place itself."""
    if source.at(place - 1) == "pub":
        return place - 1
    if source.stands(place - 4, "pub", "(", "crate", ")"):
        return place - 4
    return place


def clauses(source: Source) -> Iterator[Edit]:
    """`requires [name] {..}` and `ensures [*] [name] {..}`"""
    for place in source.words("requires", "ensures"):
        opening = place + 1
        if source.at(place) == "ensures" and source.at(opening) == "*":
            opening += 1
        if source.is_word(opening):
            opening += 1
        if source.at(opening) != "{":
            raise source.refused(place, f"`{source.at(place)}` without its clause")
        yield source.erase(place, source.closing(opening), Form.CLAUSE)


def attributes(source: Source) -> Iterator[Edit]:
    """`#[tactic(..)]` and `#[derive(.., Drop)]`. Other attributes stay, if they are known."""
    for place, token in enumerate(source.code):
        if token.text != "#" or token.kind is not Kind.MARK:
            continue
        opening = place + (2 if source.at(place + 1) == "!" else 1)
        if source.at(opening) != "[":
            continue
        name, last = source.at(opening + 1), source.closing(opening)
        if name in names.ERASED_ATTRIBUTES:
            yield source.erase(place, last, Form.TACTIC)
        elif name == "derive":
            yield from derived(source, place, last)
        elif name not in names.KEPT_ATTRIBUTES:
            raise source.refused(place, f"the attribute `{name}` is not known")


def derived(source: Source, place: int, last: int) -> Iterator[Edit]:
    """A derive without those of the kit."""
    found = [source.at(i) for i in range(place, last) if source.is_word(i)][1:]
    for name in found:
        if name not in names.KEPT_DERIVES | names.ERASED_DERIVES:
            raise source.refused(place, f"the derive `{name}` is not known")
    remaining = [name for name in found if name not in names.ERASED_DERIVES]
    if not remaining:
        yield source.erase(place, last, Form.DERIVE)
    elif remaining != found:
        yield source.edit(place, last, f"#[derive({', '.join(remaining)})]", Form.DERIVE)


def formatters(source: Source) -> Iterator[Edit]:
    """`fn fmt<W: fmt::Write>(&self, f: &mut fmt::Formatter<W>)`: Rust's formatter has no type of its writer."""
    for place in source.words("fmt"):
        if source.at(place - 1) != "fn" or source.at(place + 1) != "<":
            continue
        if not source.stands(place + 1, "<", "W", ":", "fmt", ":", ":", "Write", ">", "("):
            raise source.refused(place, "this `fmt` has another signature than `fmt<W: fmt::Write>(..)`")
        opening = place + 9
        yield source.erase(place + 1, opening - 1, Form.FORMATTER)
        parameters = range(opening, source.closing(opening))
        writer = [at + 2 for at in parameters if source.stands(at, "Formatter", "<", "W", ">")]
        if len(writer) != 1:
            raise source.refused(place, "this `fmt` has no one `Formatter<W>`")
        yield source.edit(writer[0], writer[0], "'_", Form.FORMATTER)


def runtimes(source: Source) -> Iterator[Edit]:
    """`fn main(rt: HostRuntime) .. {` and that of a test: each makes its own."""
    for place in source.words("HostRuntime"):
        opening = place - 3
        is_alone = source.stands(opening, "(", source.at(place - 2), ":", "HostRuntime", ")")
        if not is_alone or source.at(opening - 2) != "fn":
            continue
        is_test = source.stands(opening - 4, "test", "]", "fn")
        name, body = source.at(opening - 1), place + 2
        while source.at(body) != "{":
            body += 1
        result = source.text[source.code[place + 1].end:source.code[body].at].strip()
        runtime = f"let {source.at(place - 2)} = rattle_std::rt::HostRuntime;"
        inner = f"{{ fn inner() {result} {{ {runtime}"
        if is_test and not result:
            yield source.edit(opening, body, f"() {{ {runtime}", Form.RUNTIME)
        elif is_test:
            yield source.edit(opening, body, f"() {inner}", Form.RUNTIME)
            ended = "} rattle_std::test::Ended::ended(inner()) }"
            yield source.edit(source.closing(body), source.closing(body), ended, Form.RUNTIME)
        elif name == "main":
            # C's `main`: Rust's own start would open /dev/null for each standard stream that is closed.
            yield Edit(0, "", "#![no_main] ", Form.RUNTIME)
            signature = '#[unsafe(no_mangle)] extern "C" fn main(count: i32, words: *const *const u8) -> i32'
            yield source.edit(opening - 2, body, f"{signature} {inner}", Form.RUNTIME)
            run = "} rattle_std::process::run(count, words, inner) }"
            yield source.edit(source.closing(body), source.closing(body), run, Form.RUNTIME)


def words(source: Source) -> Iterator[Edit]:
    """`final fn`, `unsafe {` and names that are others in Rust."""
    derives = {place for first in source.words("derive") for place in range(first, source.closing(first + 1))}
    for place in source.words("final", "unsafe", "std", *names.RENAMED_METHODS, *names.RENAMED_TRAITS):
        text = source.at(place)
        if text == "final" and source.at(place + 1) in ("fn", "const"):
            yield before_next(source, place)
        elif text == "unsafe":
            if source.at(place + 1) != "{":
                raise source.refused(place, "`unsafe` stands before a block alone")
            yield before_next(source, place)
        elif text == "std" and source.stands(place + 1, ":", ":") and source.at(place - 1) != ":":
            known_path(source, place + 3, "")
            yield source.edit(place, place, names.STD, Form.NAME)
        elif text in names.RENAMED_TRAITS and place not in derives:
            yield source.edit(place, place, names.RENAMED_TRAITS[text], Form.NAME)
        elif text in names.RENAMED_METHODS and source.at(place - 1) == "." and source.at(place + 1) == "(":
            yield source.edit(place, place, names.RENAMED_METHODS[text], Form.NAME)


def before_next(source: Source, place: int) -> Edit:
    """Return the edit that erases a word and the spaces after it."""
    old = source.text[source.code[place].at:source.code[place + 1].at]
    return Edit(source.code[place].at, old, "\n" * old.count("\n"), Form.WORD)


def known_path(source: Source, place: int, before: str) -> None:
    """Refuse a path of `std` that no table has. `before` is the text before this place."""
    if source.at(place) == "{":
        part = place + 1
        while part < source.closing(place):
            known_path(source, part, before)
            while part < source.closing(place) and source.at(part) != ",":
                part = source.closing(part) + 1 if source.at(part) == "{" else part + 1
            part += 1
        return
    path = before if source.at(place) == "self" else f"{before}::{source.at(place)}".removeprefix("::")
    if path in names.STD_NAMES and not (source.stands(place + 1, ":", ":", "{")):
        return
    if not source.stands(place + 1, ":", ":"):
        raise source.refused(place, f"`std::{path}` has no form in rattle_std")
    known_path(source, place + 3, path)


def preludes(source: Source) -> Iterator[Edit]:
    """The names of the prelude: below the inner attributes of the file, and in each `mod name {`."""
    first = 0
    while source.stands(first, "#", "!", "["):
        first = source.closing(first + 2) + 1
    if first < len(source.code):
        comments = [each.at for each in source.comments_before(first) if each.text.startswith("///")]
        at = min([source.code[first].at, *comments])
        yield Edit(at, "", f"{names.PRELUDE} ", Form.PRELUDE)
    for place in source.words("mod"):
        if source.is_word(place + 1) and source.at(place + 2) == "{":
            yield source.edit(place + 2, place + 2, "{ " + names.PRELUDE, Form.PRELUDE)


def refuse_unknown(source: Source, macros: frozenset[str]) -> None:
    """Refuse all other forms. `macros` are the crate's own."""
    for place, token in enumerate(source.code):
        text, before, after = token.text, source.at(place - 1), source.at(place + 1)
        if token.kind is Kind.MARK and (not text.isascii() or text in "`\\\"'"):
            raise source.refused(place, f"the mark `{text}` is none of Rust's")
        if token.kind is not Kind.WORD:
            continue
        if text in ("ghost", "requires", "ensures", "final"):
            raise source.refused(place, f"`{text}` is left")
        if before == ")" and after == "{" and text not in ("else", "where"):
            raise source.refused(place, f"`{text} {{` is no clause that is known")
        if text in names.REFUSED_WORDS:
            raise source.refused(place, f"the word `{text}` has no form here")
        if after == "!" and source.at(place + 2) in ("(", "[", "{") and text not in names.MACROS | macros:
            raise source.refused(place, f"the macro `{text}!` is not known")
        if before == "." and after in ("(", ":") and text in names.REFUSED_METHODS:
            raise source.refused(place, f"the method `{text}` takes memory that cannot be refused")
        if before == "." and text == "collect" and source.at(place + 1) == "(" and source.at(place + 2) == ")":
            raise source.refused(place, "`collect()` takes memory that cannot be refused")
        if text in names.REFUSED_IMPLS and after == "for" and "impl" in (before, *owner(source, place)):
            raise source.refused(place, f"`impl {text}` by hand has no form here")


def owner(source: Source, place: int) -> tuple[str, ...]:
    """Return the word before the generic parameters that end before this place."""
    if source.at(place - 1) != ">":
        return ()
    depth, at = 1, place - 2
    while depth and at >= 0:
        depth += (source.at(at) == ">") - (source.at(at) == "<")
        at -= 1
    return (source.at(at),)


def macros_of(text: str) -> frozenset[str]:
    """Return the macros that a file defines."""
    source = Source("", text)
    return frozenset(source.at(place + 2) for place in source.words("macro_rules") if source.at(place + 1) == "!")


def edits_of(name: str, text: str, macros: frozenset[str] = frozenset()) -> list[Edit]:
    """Return all edits of a file, in order. The first unknown form refuses the file."""
    whole = Source(name, text)
    erased = [*ghosts(whole), *clauses(whole)]
    unghosted = Source(name, text, erased)
    changed = [*attributes(unghosted), *formatters(unghosted), *runtimes(unghosted), *words(unghosted)]
    plain_source = Source(name, text, erased + [edit for edit in changed if not edit.new.strip()])
    refuse_unknown(plain_source, macros)
    return ordered([*erased, *changed, *preludes(plain_source)])


def plain(name: str, text: str, macros: frozenset[str] = frozenset()) -> str:
    """Return a file as plain Rust. The erased and the kept parts together have to give the source again."""
    edits = edits_of(name, text, macros)
    made = applied(text, edits)
    if undone(made, edits) != text:
        raise Refused(f"{name}: what was erased and what was kept are not the source")
    if made.count("\n") != text.count("\n"):
        raise Refused(f"{name}: lines have moved")
    return made
