"""Test the readers of Rattle (rattle/): functions with their clauses and bodies, blocks, outlines and crates."""

import tempfile
from pathlib import Path

import pytest

from rattle import antt, code, crates

TEXT = '''//! Doors {.
pub trait Opens {
    ghost state: { ℕ };

    /// Opens it; `fn lost` is no function.
    fn open(&mut self, key: [u8; 2]) -> Result<u8, Fault>
        // It is {.
        requires small { key.0 ≡ 0 }
        ensures { result ≡ "}" }
        ensures * done { IfOk result (λ n. n ≡ 1) };

    fn is_open(&self) -> bool
        ensures { result ≡ true }
    {
        fn inner() {}
        '{' == '}' || "fn not_one() {" == ""
    }
}

impl<D: Disk> Opens for Door<D> {
    fn is_open(&self) -> bool { true }
}

mod kept { pub(crate) unsafe fn take(turn: fn(u8) -> u8) {} }
'''


@pytest.fixture
def found() -> list[code.Function]:
    """Return the functions of TEXT."""
    return code.functions_of(TEXT)


def test_functions_stand_in_their_blocks(found: list[code.Function]) -> None:
    wanted = [("open", "trait Opens"), ("is_open", "trait Opens"), ("inner", "trait Opens"),
              ("is_open", "impl<D: Disk> Opens for Door<D>"), ("take", "mod kept")]
    assert [(each.name, each.block.strip()) for each in found] == wanted
    assert [TEXT[each.at :].startswith(each.name) for each in found] == [True] * len(wanted)


def test_clauses_have_their_kinds_names_and_braces(found: list[code.Function]) -> None:
    clauses = found[0].clauses
    assert [(each.kind, each.name) for each in clauses] == [
        ("requires", "small"), ("ensures", ""), ("ensures", "done")]
    assert clauses[2].inner == " IfOk result (λ n. n ≡ 1) "
    assert TEXT[clauses[1].start : clauses[1].end] == 'ensures { result ≡ "}" }'
    assert " ".join(found[0].signature.split()) == "(&mut self, key: [u8; 2]) -> Result<u8, Fault>"


def test_bodies_begin_behind_the_clauses(found: list[code.Function]) -> None:
    assert [each.has_body for each in found] == [False, True, True, True, True]
    assert TEXT[found[3].start : found[3].end] == "{ true }"
    assert TEXT[found[1].start : found[1].end].endswith('""\n    }')


def test_code_that_is_cut_is_read_to_its_end() -> None:
    for end in range(len(TEXT)):
        for each in code.functions_of(TEXT[:end]):
            assert each.end <= end


def test_an_item_begins_with_the_comments_above_it(found: list[code.Function]) -> None:
    assert TEXT[code.item_of(TEXT, found[0]) :].lstrip().startswith("/// Opens it")


def test_an_outline_has_neither_bodies_nor_comments() -> None:
    other = TEXT.replace("{ true }", "{ false }").replace("It is {", "It was")
    assert code.outline(other) == code.outline(TEXT)
    assert code.outline(TEXT.replace("n ≡ 1", "n ≡ 2")) != code.outline(TEXT)


def test_a_comment_goes_and_a_text_stays() -> None:
    found = code.without_comments('let at = "http://a"; // "b"\n/// c\nlet x = \'"\'; // d "\n')
    assert found == 'let at = "http://a"; \n\nlet x = \'"\'; \n'
    assert antt.without_comments("-- a\nb = 1 -- c\n  -- d\n") == "b = 1 -- c\n"


def test_crates_stand_in_their_order() -> None:
    with tempfile.TemporaryDirectory() as room:
        Path(room, "crates.txt").write_text("# the lowest first\nlow: std # the kit's\nmiddle: low\nhigh: middle\n")
        uses = crates.crates_of(room)
    assert uses == {"low": ["std"], "middle": ["low"], "high": ["middle"]}
    assert crates.below(uses, "high") == ["low", "middle"]
