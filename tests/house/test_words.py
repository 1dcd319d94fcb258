"""Test the checks of pages: a correct page passes, and every kind of wrong statement on it is found."""

from pathlib import Path

import pytest

from tests.house import words
from tests.house.repository import Repository

ROOT = Path(__file__).resolve().parents[2]

FILES = {
    **{"Makefile": "test build:\n\techo\n", "operations/send": "--short\n", "tests/crash/__main__.py": "",
       "docs/PLAN.md": ""},
    **dict.fromkeys(("operations/install/ropepeach-renew.1", "rust/build.py", "debian/control"), ""),
    "crates/rs_a/src/lib.rt": "pub fn other()\n    ensures none { result ≡ 0 }\n/// `lost_word`\n"
                              "pub fn find(\n    at: u64,\n    n: u32,\n) -> Run"
                              "  requires { n ≤ at }\n    // Why.\n"
                              "    ensures found { IsFree at (n + 1)\n  (length bytes) }\n{\n    0\n}\n",
    "crates/rs_a/specs/Runs.antt": "IsFree at n = n ≤ at\n",
    "crates/rs_b/specs/Sets.antt": "IsSet s = IsFree s s\n",
}
PAGE = """## Its words
- `find`, `IsFree at n`: a run, and that it is free (`specs/Runs.antt`)
- `IsSet`: of rs_b (`specs/Sets.antt`)

See [the plan](../../docs/PLAN.md), docs/PLAN.md, `crates/NAME/specs/*.antt` and `rs_a::find`.
```rust
pub fn find(at: u64, n: u32) -> Run
    requires { n ≤ at }
    // What it finds.
    ensures found { IsFree at .. (length bytes) }
```
`make test`, `operations/send --short`, `python3 -m tests.crash`, `curl --silent`, 2 words.
`ropepeach renew --short`, `ropepeach other --silent`, `python3 -m rust.build --short`, debian/control.
"""


def test_the_pages_have_no_fault() -> None:
    assert words.faults(ROOT) == []


@pytest.fixture
def repo(tmp_path: Path) -> Repository:
    """Return a repository of FILES."""
    for name, text in FILES.items():
        (tmp_path / name).parent.mkdir(parents=True, exist_ok=True)
        (tmp_path / name).write_text(text)
    return Repository(tmp_path)


def faults(repo: Repository, old: str = "", new: str = "") -> list[str]:
    """Return the faults found on the page after a text is replaced."""
    assert old in PAGE
    page = repo.root / "crates/rs_a/README.md"
    return [what for look in words.LOOKS for _, what in look(repo, page, PAGE.replace(old, new, 1))]


def test_a_page_as_it_should_be_passes(repo: Repository) -> None:
    assert faults(repo) == []


def test_what_is_wrong_is_told(repo: Repository) -> None:
    changed = ["n ≤ at }", "n < at }"], [
        "(length", "(size"], ["n: u32", "n: u64"], ["    ensures", "ensures none { result ≡ 0 }\nensures"]
    gone = ["docs/PLAN.md,", "docs/PLANS.md,"], [
        "../../docs", "../docs"], ["Runs.antt", "Sets.antt"], ["NAME/specs", "NAME/spec"]
    unknown = ["rs_a::find", "lost_word"], [
        "rs_a::find", "rs_a::finds"], ["2 words", "`IsFreed at 2`"], ["of rs_b", "of it"]
    commands = ["make test", "make tests"], [
        "make test", "make tests.crush"], ["--short", "--shorter"], ["tests.crash", "tests.crush"]
    others = ["renew --short", "renew --shorter"], ["rust.build", "rust.built"], [
        "build --short", "build --shorter"], ["debian/control", "debian/rules"], ["debian/control", "rust/control"]
    for old, new in [*changed, *gone, *unknown, *commands, *others]:
        assert faults(repo, old, new), f"{old} -> {new}"


def test_a_strange_word_is_told_with_a_plain_one(repo: Repository) -> None:
    for old, new in (["2 words", "2 Words such\na one"], ["2 words", "what Comes to"]):
        assert len(faults(repo, old, new)) == 1, new
    assert faults(repo, "2 words", "becomes tonight") == []


def test_the_words_of_the_world_are_sorted() -> None:
    listed = (ROOT / "tests" / "house" / "words.txt").read_text().split("\n")
    assert listed == [*sorted(set(filter(None, listed))), ""]
