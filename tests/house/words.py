"""Find faults of the pages: words, paths, commands and clauses that do not exist.

  - A clause or signature in a block of Rust occurs in the code of the page's crate (for docs/: of any), within the
    function quoted before it. White space and comments do not count. `..` marks a cut, including the brackets that it
    leaves open; so does `(.. words ..)`.
  - A word in backticks is a word of the sources: code, definitions and proofs without their comments, Python, Makefile,
    operations/install/, names of files, crates.txt, packages.txt, statement/kit_words.txt (the kit's),
    tests/house/words.txt (the world's). In a text of letters, digits and `_ : . < > ( )` alone, every name is checked,
    except digests and words that begin with a digit; in any other text, every name with `_` or a capital within, except
    paths and options. A word in capitals alone is a placeholder. A word at the front of a line of a crate's "Its words"
    is defined in that crate, or the line names another crate.
  - A path exists; a word is a path if it begins with a folder of ours, or ends as our files do. `NAME` and `*` match
    anything, and paths below out/ are not checked. The target of a link, the target of a `make`, the module of a
    `python3 -m`, and a flag of a command of ours exist too.
  - No word is strange to readers (strange.txt).
"""

import re
from collections.abc import Callable, Iterator
from pathlib import Path

from tests.house.repository import COMMENT, FENCE, FLAG, SPAN, WORD, Repository, blanked, prose

PAGES = ["README.md", "CONTRIBUTING.md", "SECURITY.md", "docs/**/*.md", "crates/*/README.md", "tests/**/README.md",
         "operations/**/*.md", "examples/README.md", "rust/README.md"]
STRANGE = Path(__file__).with_name("strange.txt")
# Faults of a page: their places and descriptions.
Found = Iterator[tuple[int, str]]
CLAUSE, CUT = r"^ *(?:pub |fn |requires\b|ensures\b)", r"(?:(?!\b(?:ensures|requires|fn)\b)[\s\S])*?"
FILE = re.compile(r"(?<![\w/.:~%-])(?:(?:crates|docs|tests|gate|rattle|rust|statement|bench|debian|examples|operations"
                  r"|specs|src|proofs|must-fail)/[\w./*-]*"
                  r"|[\w*-]+(?:/[\w*-]+)*\.(?:md|py|rt|antt|sh|svg|session|disks|edit|txt|http))(?![\w/])")
MAKE = re.compile(r"(?:^|[(;&] ?|=\S+ )make ([a-z][\w.-]*)")
OURS = re.compile(r"\brs_source\b|\bmake\b|\b(?:gate|statement|operations)/"
                  r"|\b(?:tests|bench|rust|gate|statement)\.\w|^--")
# The command `ropepeach` with its subcommand.
SUBCOMMAND = re.compile(r"\bropepeach ([a-z]+)")


def crate_of(page: Path) -> list[str]:
    """Return the crate of a page in a list, which is empty for a page of no crate."""
    return [page.parent.name] if page.parent.parent.name == "crates" else []


def pattern(quoted: str) -> re.Pattern[str]:
    """Return a pattern for a quoted piece of code that ignores spaces and line breaks and matches any text at cuts."""
    tokens = re.findall(r"\.\.|\w+|[^\w\s]", re.sub(r"\(\.\. [^()]* \.\.\)", "..", quoted).rstrip("; \n"))
    marks = {"..": CUT, ")": r",?\s*\)", "}": r"[)\s]*\}"}
    return re.compile(r"\s*".join(marks.get(token) or (rf"\b{token}\b" if token[0].isalnum() else re.escape(token))
                                  for token in tokens))


def clauses(repo: Repository, page: Path, text: str) -> Found:
    """Yield quoted clauses that no source has."""
    for block in (block for block in FENCE.finditer(text) if block[1] == "rust"):
        scope = texts = repo.texts(*crate_of(page))
        for part in re.finditer(rf"(?ms){CLAUSE}.*?(?={CLAUSE}|\Z)", blanked(COMMENT, block[2])):
            wanted = pattern(part[0])
            is_head = part[0].split()[0] in ("pub", "fn")
            # The texts after the places where it is found, up to the next function.
            found = [re.split(r"\bfn\b", text[place.end() :], maxsplit=1)[0] for text in (texts if is_head else scope)
                     for place in wanted.finditer(text)]
            scope = (found or texts) if is_head else scope
            if not found:
                yield block.start(2) + part.start(), f"no source has it so: {' '.join(part[0].split())}"


def words(repo: Repository, page: Path, text: str) -> Found:
    """Yield words in backticks that no source has."""
    for span in SPAN.finditer(prose(text)):
        is_name = re.fullmatch(r"(?![0-9a-f]{16})[A-Za-z_][\w:.<>()]*", span[1])
        for word in WORD.findall(re.sub(r"\S*[*/]\S*|(?<!\S)-\w+", "", span[1])):
            if word not in repo.words and not word.isupper() and (is_name or re.search(r"_|[a-z][A-Z]", word)):
                yield span.start(), f"no source has the word {word}"


def own_words(repo: Repository, page: Path, text: str) -> Found:
    """Yield words of a crate's \"Its words\" that it does not define."""
    part = re.search(r"(?ms)^## Its words\n(.*?)(?=^## |\Z)", text)
    code = "\n".join(repo.texts(*crate_of(page)))
    for line in re.finditer(r"(?m)^- ((?:`[^`]+`(?:, )?)+).*(?:\n  .*)*", part[1] if part else ""):
        firsts = [WORD.match(span[1]) for span in SPAN.finditer(line[1])]
        for word in (first[0] for first in firsts if first):
            defined = (rf"(?m)^(?:(?:pub|record|data|abbrev) )*{word}\b|^ +(?:pub )?{word} :"
                       rf"|\b(?:fn|struct|enum|trait|const|type) {word}\b")
            others = set(re.findall(r"\brs_\w+", line[0])) - set(crate_of(page))
            if part and not re.search(defined, code) and not others:
                yield part.start(1) + line.start(), f"{page.parent.name} does not define {word}"


def paths(repo: Repository, page: Path, text: str) -> Found:
    """Yield paths and links that lead to nothing."""
    for match in FILE.finditer(text):
        path, near = match[0].rstrip("./"), re.findall(r"\brs_\w+", text[max(0, match.start() - 30) : match.start()])
        ends = [f"{crate}/{path}" for crate in crate_of(page) + near
                if crate_of(page) and path.startswith(("src/", "specs/", "proofs/"))]
        if "out/" not in path and not any(map(repo.has, ends or [path])):
            yield match.start(), f"there is no {path}"
    for match in re.finditer(r"\]\(([^)#:\s]+)(?:#[^)]*)?\)", prose(text)):
        if not (page.parent / match[1]).exists():
            yield match.start(), f"a link to nothing: {match[1]}"


def is_ours(repo: Repository, code: str) -> bool:
    """Return whether a line runs a program of ours, so that its flags are ours too."""
    return bool(OURS.search(code)) or not repo.subcommands.isdisjoint(SUBCOMMAND.findall(code))


def commands(repo: Repository, page: Path, text: str) -> Found:
    """Yield targets, modules and flags that do not exist."""
    lines = [(block.start(2) + line.start(), line[0]) for block in FENCE.finditer(text)
             for line in re.finditer(r".+", block[2])]
    for at, code in lines + [(span.start(), span[1]) for span in SPAN.finditer(prose(text))]:
        code = re.sub(r"\s#.*", "", code).strip("$ ")
        targets = [target for target in MAKE.findall(code) if target not in repo.targets]
        modules = re.findall(r"-m ((?:tests|bench|operations|rust|gate|statement)\b[\w.]*\w)", code)
        modules += [target for target in targets if re.match(r"(?:operations\.)?tests\.", target)]
        yield from ((at, f"no target of the Makefile: {target}") for target in targets if target not in modules)
        yield from ((at, f"there is no module {module}") for module in modules
                    if not repo.has(module.replace(".", "/")))
        yield from ((at, f"no source names the flag {flag}") for flag in FLAG.findall(code)
                    if is_ours(repo, code) and flag not in repo.flags)


def strange(repo: Repository, page: Path, text: str) -> Found:
    """Yield words that are strange to readers."""
    for line in STRANGE.read_text().splitlines():
        phrase, _, plain = line.partition(" | ")
        wanted = rf"(?i)\b{phrase}\b".replace(" ", r"\s+")
        places = re.finditer(wanted, prose(text)) if plain else ()
        yield from ((place.start(), f"{phrase!r} is strange to a reader: {plain}") for place in places)


LOOKS: tuple[Callable[[Repository, Path, str], Found], ...] = clauses, words, own_words, paths, commands, strange


def faults(root: Path) -> list[str]:
    """Return a line for each wrong place on the pages of a repository."""
    repo, texts = Repository(root), {path: path.read_text() for kind in PAGES for path in sorted(root.glob(kind))}
    found = [(page, at, why) for page, text in texts.items() for look in LOOKS for at, why in look(repo, page, text)]
    return [f"{page.relative_to(root)}:{texts[page].count(chr(10), 0, at) + 1}: {why}" for page, at, why in found]
