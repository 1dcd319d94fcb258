"""Test the statement: how its readers read specs and code, the reach of a promise, and the refusals of the check."""

import re
import subprocess
import sys
from pathlib import Path

import pytest

from rattle import antt
from statement import evidence, page, promises, shown, source, tables, words
from statement.reach import reach
from statement.test_premises import repository
from statement.world import Unknown, World
from tests.program import ROOT



LOW = """-- Numbers.
use Rattle.std.specs.Prelude.{ℕ, ◌+◌, suc, zero, List, [], ◌∷◌, length}

-- one more
abbrev pub next : ℕ → ℕ
next n = n + 1

-- a pair of numbers,
-- the first below the second
pub record IsPair (low high : ℕ) : Type 0 where
  -- the two
  pub first : ℕ
  pub next : ℕ
  pub high : IsPast high
      next

abbrev pub IsPast : ℕ → ℕ → Type 0
IsPast zero n = Unit {0}
-- any other
IsPast (suc m) n = IsPast m n

infixl 10 ◌then◌
abbrev pub ◌then◌ : ℕ → ℕ → ℕ
a then b = b

pub data Shape : Type 0 where
  -- a point
  point : Shape
  line : ℕ → Shape

module _ {S : Type 0} where
  -- of any kind
  abbrev pub kind_of : S → ℕ
  kind_of s = 0

-- nobody uses it
abbrev pub alone : ℕ
alone = 0
"""

HIGH = """use Rattle.std.specs.Prelude.{ℕ, List}
use Rattle.low.specs.Numbers.{next as after, IsPair, ◌then◌, Shape, kind_of, alone}
use Rattle.low.specs.Numbers.Shape.{point}
use Rattle.low.specs.declared.item.Item.TheVariants as single
pub use Rattle.low.specs.Numbers.{IsPast}

-- whether an item is lawful
abbrev pub IsLawful : single.Item → Shape → Type 0
IsLawful (single.Put alone) point = (alone : ℕ) → let k = after alone in IsPair k (λ alone. alone then k)
IsLawful item shape = (x : ℕ) × IsPast x (kind_of (record { alone = x }).alone)
"""

CODE = '''//! Items.
ghost use Rattle.std.specs.Prelude.{ℕ, ◌≡◌};
ghost use Rattle.high.specs.Lawful.{IsLawful};
ghost use Rattle.low.specs.Numbers.{next, Shape};

use low::Item;

/// A box. It has { one brace.
#[derive(Drop)]
pub struct Boxed {
    /// The item.
    pub item: Item,
}

/// A hidden number.
pub struct Hidden {
    n: Item,
}

impl Model for Hidden {
    ghost use Rattle.std.specs.Prelude.{List};

    ghost Value = { List ℕ };
}

impl Boxed {
    /// Opens it.
    pub fn open(self, shape: u8) -> Result<u8, Boxed>
        requires small { shape ≡ 0 }
        // It is lawful.
        ensures lawful { IsLawful self.item
            shape }
        ensures value { result ≡ next shape }
    {
        if shape == 0 { Ok(1) } else { Err(self) }
    }
}
'''

# The same code, with a clause that is a record.
PAIRED = CODE.replace("ensures value {", "ensures { IsPair 1 shape }\n        ensures value {")
PAIRED = PAIRED.replace("{next, Shape}", "{next, Shape, IsPair}")

NESTED = """module _ (d e : N) where
  abbrev one : N
  one = d

  module _ {S : Type 0} where
    pub two : S
    two = e

  three : N
  three = d

abbrev four : N
four = 4
"""
ITEM = "/// An item.\npub enum Item {\n    /// Put.\n    Put(u8),\n    Delete,\n}\n"
README = "> It is *lawful*\n> at once.\n\n| opening | lawful |\n"
PROMISES = "== Opening\nrow: opening\nin: README.md\nsays: It is *lawful*\n  at once.\nby: high Boxed::open lawful\n"


def made(room: Path, **other: str) -> World:
    """Return a repository of two crates below a folder."""
    return repository(room, {
        "crates.txt": "# the lowest first\nlow:\nhigh: low\n", "README.md": README, "docs/PROMISES.md": README,
        "crates/low/src/item.rt": ITEM, "crates/low/specs/Numbers.antt": LOW, "crates/high/specs/Lawful.antt": HIGH,
        "crates/high/src/open.rt": CODE, **other})


def test_the_tables_of_the_statement_have_no_fault() -> None:
    subprocess.run([sys.executable, "-m", "statement.statement", "--check"], cwd=ROOT, check=True)


@pytest.fixture
def low() -> antt.Specs:
    """Return the definitions of the lower crate."""
    return antt.read("Rattle.low.specs.Numbers", "Numbers.antt", LOW)


def test_definitions_have_their_lines_and_comments(low: antt.Specs) -> None:
    names = ["next", "IsPair", "IsPast", "◌then◌", "Shape", "kind_of", "alone"]
    assert list(low.definitions) == names
    pair = low.definitions["IsPair"]
    assert (pair.kind, pair.line) == ("record", 10)
    assert pair.comment == ["-- a pair of numbers,", "-- the first below the second"]
    assert (len(pair.lines), len(pair.code)) == (6, 5)
    past = low.definitions["IsPast"]
    assert (past.comment, len(past.code), past.lines[2]) == ([], 3, "-- any other")
    assert low.definitions["kind_of"].section == "{S : Type 0}"
    assert set(low.constructors) == {"point", "line"}


def test_modules_stand_in_modules() -> None:
    read = antt.read("Rattle.low.proofs.Nested", "Nested.antt", NESTED)
    found = [(each.name, each.section, len(each.lines)) for each in read.definitions.values()]
    assert found == [
        ("one", "(d e : N)", 2), ("two", "(d e : N) {S : Type 0}", 2), ("three", "(d e : N)", 2), ("four", "", 2)]
    assert words_of(read, "one") == ["N"]


def words_of(specs: antt.Specs, name: str) -> list[str]:
    """Return the words of a definition."""
    found = words.words_of(specs.definitions[name], lambda token: token in {"zero", "suc", "point"} or "." in token)
    return [head for head, _ in found]


def test_names_that_are_bound_within_are_no_words(low: antt.Specs) -> None:
    assert words_of(low, "next") == ["ℕ", "+"]
    assert words_of(low, "IsPair") == ["ℕ", "IsPast"]
    assert words_of(low, "IsPast") == ["ℕ", "zero", "Unit", "suc"]
    assert words_of(low, "◌then◌") == ["ℕ"]
    high = antt.read("Rattle.high.specs.Lawful", "Lawful.antt", HIGH)
    words = ["single", "Shape", "single", "point", "ℕ", "after", "IsPair", "then", "×", "IsPast", "kind_of"]
    assert words_of(high, "IsLawful") == words
    assert high.brought["after"] == antt.Name("Rattle.low.specs.Numbers", "next")
    assert high.aliases == {"single": "Rattle.low.specs.declared.item.Item.TheVariants"}
    assert high.passed == {"IsPast"}


def test_steps_of_a_do_are_bound() -> None:
    walk = words.Walk()
    walk.expression(words.tokens_of(["do", "  x ← first bytes", "  Some (x, «in»)"]))
    assert [head for head, _ in walk.words] == [">>=", "first", "bytes", "Some", "in"]


def test_clauses_and_types_of_code() -> None:
    code = source.read("high", "open.rt", CODE)
    function = code.functions[0]
    assert function.label == "high::Boxed::open"
    assert [clause.name for clause in function.clauses] == ["small", "lawful", "value"]
    assert function.clauses[1].lines == ["ensures lawful { IsLawful self.item", "    shape }"]
    assert shown.meaning(code.types["Boxed"]) == "A box."
    assert shown.declared(code.types["Boxed"]) == ["pub struct Boxed {", "    pub item: Item,", "}"]
    assert shown.declared(code.types["Hidden"]) == ["in contracts it is: List ℕ"]


def look_at_links(text: str) -> None:
    """Check that every place of a page has its own id, and that every link leads to one."""
    places = re.findall(r' id="([^"]+)"', text)
    assert len(places) == len(set(places))
    assert set(re.findall(r'href="#([^"]+)"', text)) <= set(places)


def test_its_comment_is_that_of_the_record_and_of_the_field() -> None:
    head = ["-- a pair of numbers,", "-- the first below the second"]
    more = f"{head[1]}\n-- `first`: one.\n-- `high`, `last`: two\n-- lines.\n"
    text = LOW.replace(f"{head[1]}\n", more)
    pair = antt.read("Rattle.low.specs.Numbers", "Numbers.antt", text).definitions["IsPair"]
    comments = [found.comment for name in ("first", "high") if (found := words.with_field(pair, name))]
    assert comments == [[*head, "-- `first`: one."], [*head, "-- `high`, `last`: two", "-- lines."]]


def test_a_clause_reaches_what_it_uses_and_no_other(tmp_path: Path) -> None:
    found = promises.promises(made(tmp_path), PROMISES)[0].reach
    names = [(chapter.crate, [each.name for each in chapter.definitions], [each.name for each in chapter.types])
             for chapter in found.chapters]
    low = ("low", ["Shape", "next", "IsPair", "IsPast", "◌then◌", "kind_of"], ["Item"])
    assert names == [("high", ["IsLawful"], ["Boxed"]), low]
    assert [word.label for word in found.kit] == ["std.suc", "std.zero", "std.ℕ", "std.◌+◌", "std.◌≡◌"]
    assert found.counts == (7, 20, 2, 5)


def test_a_value_of_contracts_hides_the_fields(tmp_path: Path) -> None:
    world = made(tmp_path)
    assert [word.label for word in world.uses(world.type_of("high", "Hidden"))] == ["std.List", "std.ℕ"]


def test_a_field_of_a_record_stands_alone(tmp_path: Path) -> None:
    world = made(tmp_path, **{"crates/high/src/open.rt": PAIRED})
    found = promises.promises(world, PROMISES.replace("open lawful", "open IsPair.high"))[0]
    pair = next(definition for definition in found.reach.definitions if definition.name == "IsPair")
    assert (pair.part, pair.lines[1:]) == ("high", ["  pub high : IsPast high", "      next"])
    for wrong in ("IsPair.middle", "IsPast.high", "lawful.high"):
        with pytest.raises(tables.Wrong):
            promises.promises(world, PROMISES.replace("open lawful", f"open {wrong}"))


def test_a_clause_of_two_fields_is_printed_once(tmp_path: Path) -> None:
    world = made(tmp_path, **{"crates/high/src/open.rt": PAIRED})
    every = promises.promises(world, PROMISES.replace("open lawful", "open IsPair.high IsPair.first"))
    text = shown.text(every, every, {}, {word.label: "said" for word in every[0].reach.kit})
    counts = text.count("    ensures { IsPair 1 shape }\n"), text.count("one field of the record]")
    assert counts == (1, 2)


def test_a_word_that_nothing_brings_in_is_told(tmp_path: Path) -> None:
    world = made(tmp_path, **{"crates/low/specs/Numbers.antt": LOW.replace("next n = n + 1", "next n = more n")})
    with pytest.raises(Unknown, match="next uses more"):
        reach(world, [world.specs["Rattle.low.specs.Numbers"].definitions["next"]])


def test_wrong_promises_are_told(tmp_path: Path) -> None:
    world = made(tmp_path)
    for words, others in (("at once", "later"), ("open lawful", "open awful"), ("row: opening", "row: closing")):
        with pytest.raises(tables.Wrong):
            promises.promises(world, PROMISES.replace(words, others))


def test_pointers_that_lead_nowhere_are_told(tmp_path: Path) -> None:
    world = made(tmp_path, **{"tests/one.py": "def next_of():\n    pass\n", "tests/rows/a.in": ""})
    every = promises.promises(world, PROMISES)
    for line, count in (
        ("low.Numbers: next IsPair | python | tests/one.py: next_of", 0),
        ("low.Numbers: next | row | tests/rows/a", 0),
        ("low.Numbers: next | python | tests/one.py: other", 1),
        ("low.Numbers: next | python | tests/two.py: next_of", 1),
        ("low.Numbers: next | row | tests/rows/b", 1),
        ("low.Numbers: next | test | tests/one.py: next_of", 1),
        ("low.Numbers: alone | python | tests/one.py: next_of", 1),
    ):
        assert len(evidence.faults(world, every, evidence.evidence(world, line))) == count, line
    with pytest.raises(tables.Wrong):
        evidence.evidence(world, "low.Numbers: next | rumour | tests/one.py: next_of")


def test_a_function_of_code_is_found_in_its_crate(tmp_path: Path) -> None:
    several = {f"crates/high/src/{name}.rt": "fn shut() {}\n" for name in ("more", "less")}
    world = made(tmp_path, **several)
    [piece] = evidence.evidence(world, "high.Lawful: IsLawful | test | high: open")["high.Lawful.IsLawful"]
    assert piece.path == "crates/high/src/open.rt"
    for name in ("shut", "lost"):
        with pytest.raises(tables.Wrong):
            evidence.evidence(world, f"high.Lawful: IsLawful | test | high: {name}")


def test_words_of_the_kit_need_a_line(tmp_path: Path) -> None:
    every = promises.promises(made(tmp_path), PROMISES)
    lines = "".join(f"{word.label}: said\n" for word in every[0].reach.kit)
    assert tables.faults_of_kit(every, tables.kit_words(lines)) == []
    others = lines.partition("\n")[2] + "std.more: said\n"
    assert len(tables.faults_of_kit(every, tables.kit_words(others))) == 2


def test_each_word_of_the_page_leads_somewhere(tmp_path: Path) -> None:
    world = made(tmp_path)
    every = promises.promises(world, PROMISES)
    text = page.page(world, every, {}, {word.label: "said" for word in every[0].reach.kit})
    look_at_links(text)
    assert '<a href="#low.Numbers.IsPair">IsPair</a> k' in text
    assert "http" not in text.replace("<!doctype", "")


def test_laws_and_examples_speak_of_what_they_are_held_against() -> None:
    world, law = World(ROOT), "rs_time: moment_texts_read_back"
    every = promises.promises(world)
    for names, count in (("rs_time.Moment: moment_text two_digits", 0), ("rs_model.Step: put_causes", 1)):
        found = evidence.faults(world, every, evidence.evidence(world, f"{names} | law | {law}"))
        assert len(found) == count


def test_each_word_of_its_page_leads_somewhere() -> None:
    world = World(ROOT)
    look_at_links(page.page(world, promises.promises(world), evidence.evidence(world), tables.kit_words()))
