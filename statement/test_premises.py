"""Test the premises: how a type is split, how a premise is given, and faults planted in our own promises."""

import re
from pathlib import Path

import pytest

from rattle import antt
from statement import evidence, premises, promises, tables, terms, words
from statement.terms import Arrow, Joined, Relation
from statement.world import World
from tests.program import ROOT

SPECS = """-- Doors.
use Rattle.std.specs.Prelude.{ℕ, ◌≡◌, ◌⊎◌, ◌≤◌, IsTrue, Result, IfOk, List, [], ◌∷◌}

-- a key
pub record Key : Type 0 where
  pub teeth : ℕ

-- a key fits a door
abbrev pub Fits : Key → ℕ → Type 0
Fits key door = key.teeth ≡ door

-- a door that was opened by a key, and is shut
pub record WasOpened (key : Key) (door : ℕ) : Type 0 where
  pub fits : Fits key door
  pub shut : IsShut door

-- a shut door
pub record IsShut (door : ℕ) : Type 0 where
  pub low : 1 ≤ door
  pub high : door ≤ 9

-- a key for each door
abbrev pub AreOpened : List Key → List ℕ → Type 0
AreOpened [] [] = Unit {0}
AreOpened (key ∷ keys) (door ∷ doors) = WasOpened key door × AreOpened keys doors
AreOpened keys doors = ⊥

-- whoever opened doors is inside
abbrev pub Opening : Type 0
Opening = (keys : List Key) (doors : List ℕ) → AreOpened keys doors → IsInside doors

-- whoever opened one door opened doors
abbrev pub OneOpens : Type 0
OneOpens = (key : Key) (door : ℕ) → WasOpened key door → AreOpened (key ∷ []) (door ∷ [])

-- whoever is inside opened doors
abbrev pub InsideOpened : Type 0
InsideOpened = (keys : List Key) (doors : List ℕ) → IsInside doors → AreOpened keys doors

-- inside, whatever the doors are
pub record IsInside (doors : List ℕ) : Type 0 where
  pub once : (door : ℕ) → door ≤ 3 → IsShut door
"""

THINGS = """
-- for each
abbrev pub Each : (Key → Type 0) → Type 0
Each P = (key : Key) → P key

-- a thing
pub record Thing (key : Key) : Type 0 where
  pub one : key.teeth ≡ 1
"""

EXAMPLES = """use Rattle.std.specs.Prelude.{ℕ, ◌⊎◌, List, [], ◌∷◌}
use Rattle.doors.specs.Doors.{Key, WasOpened, AreOpened}

-- no door
pub none : AreOpened [] []
none = tt

-- one door
pub one : (key : Key) (door : ℕ) → WasOpened key door × AreOpened (key ∷ []) (door ∷ [])
one = made

-- one door, or none
pub either : (key : Key) (door : ℕ) → WasOpened key door ⊎ AreOpened [] []
either = made

-- what is opened is opened
pub same : (keys : List Key) (doors : List ℕ) → AreOpened keys doors → AreOpened keys doors
same = made
"""

CODE = """//! Doors.
ghost use Rattle.std.specs.Prelude.{ℕ, ◌≡◌, ◌↔◌, ◌≤◌, IfOk};
ghost use Rattle.doors.specs.Doors.{Key, Fits, Opening, OneOpens, InsideOpened, IsShut};

/// Makes a key.
pub fn cut(door: u8) -> Result<u8, u8>
    ensures fits { IfOk result (λ key. Fits key door) }
{
    Ok(door)
}

/// Shuts a door.
pub fn shut(door: u8)
    requires low { 1 ≤ door }
    ensures shut { IsShut door }
    ensures again { IsShut door → IsShut door }
{
}

/// Doors are opened.
pub fn doors_open()
    ensures { Opening }
{
}

/// Doors are opened once more.
pub fn doors_open_again()
    ensures { Opening }
{
}

/// One door is opened.
pub fn one_opens()
    ensures { OneOpens }
{
}

/// Who is inside opened doors.
pub fn inside_opened()
    ensures { InsideOpened }
{
}

/// A door is shut exactly where it is the first.
pub fn first_is_shut(door: u8)
    ensures { IsShut door ↔ (door ≡ 1) }
{
}
"""
SAYS = "== Doors\nrow: doors\nin: README.md\nsays: Doors open.\n"
LINES = """by: doors cut fits
by: doors shut shut
by: doors doors_open
premise: Fits from: doors cut fits
premise: IsShut from: doors shut shut
premise: door ≤ * case: the door is one of these
"""
SHOWN = "doors.Doors: AreOpened WasOpened | example | crates/doors/proofs/Examples.antt: one"
HEADLINE = "statement/promises.txt: The headline"
NOTHING = "nothing gives the premise"
# A definition of rs_recovery, a text in it, its replacement, and the fault of the headline that results.
PLANTED = [
    ("Sessions.Session", "  pub stop : ℕ", "  pub stop : ℕ\n  pub never : ⊥", f"{NOTHING} '⊥' of Session.never"),
    ("Sessions.IsSessionFrom", "  pub stopped :", "  pub never : ⊥\n  pub stopped :",
     f"{NOTHING} '⊥' of IsSessionFrom.never"),
    ("Sessions.IsStop", "  pub left :", "  pub at_end : stop ≡ last.calls\n  pub left :",
     "IsStop is trusted by other fields than it has: IsStop {from to at_end left}"),
    ("Sessions.AreSessions", "= IsSessionFrom start x", "= IsSessionFrom start x × (x.acks ≡ [])",
     rf"{NOTHING} 'x.acks ≡ \[\]' of AreSessions"),
    *((f"Sessions.{name}", place, f"→ x.acks ≡ [] {place}", rf"{NOTHING} 'x.acks ≡ \[\]' of {name}")
      for name, place in (("StopsEndSessions", "→ IsSessionFrom s x"), ("SessionsBegin", "→ AreSessions start"),
                          ("SessionsFollow", "→ IsSessionFrom s x"))),
    # In a field of the record that the headline ends in, in a record within it, and in the headline.
    ("Recovered.IsRecovered", "  pub yields : ", "  pub yields : IsTimely start → ", f"{NOTHING}.*"),
    ("Recovered.YieldsHeld", "  pub mirrored : ", "  pub mirrored : IsTimely s → ", f"{NOTHING}.*"),
    ("Recovered.YieldsHeld", "  pub mirrored : ", "  pub mirrored : ⊥ → ", f"{NOTHING} '⊥' of YieldsHeld.mirrored"),
    ("Recovered.Headline", "    AreSessions start (x ∷ past) →", "    AreSessions start (x ∷ past) → IsTimely start →",
     f"{NOTHING}.*"),
]


def made(room: Path, specs: str = SPECS) -> World:
    """Return a repository of one crate below a folder."""
    return repository(room, {
        "crates.txt": "doors:\n", "README.md": "Doors open.\n", "docs/PROMISES.md": "| doors | open |\n",
        "crates/doors/specs/Doors.antt": specs, "crates/doors/src/doors.rt": CODE,
        "crates/doors/proofs/Examples.antt": EXAMPLES})


def repository(room: Path, files: dict[str, str]) -> World:
    """Write these files below a folder, and return their repository."""
    for name, text in files.items():
        path = Path(room, name)
        path.parent.mkdir(parents=True, exist_ok=True)
        path.write_text(text)
    return World(room)


def faults(world: World, table: str | None = None, shown: str | None = None, first: int | None = None) -> list[str]:
    """Return the faults of the premises of all promises, or of the first ones."""
    every = promises.promises(world, table)[:first]
    return premises.faults(world, premises.follow(world, every), evidence.evidence(world, shown))


def ungrounded(*clauses: str) -> list[str]:
    """Return the faults of clauses that have no ground of their own."""
    return [f"Doors: doors {clause} takes what no other clause gives it first" for clause in clauses]


def without_example(*names: str) -> list[str]:
    """Return the faults of relations that have no example."""
    return [f"doors.Doors.{name} stands only left of an arrow, and no example has it" for name in names]


def term(text: str) -> terms.Term | None:
    """Return the tree of a type."""
    return terms.term(words.tokens_of(text.splitlines()))


def test_arrows_are_taken_apart() -> None:
    found = term("(s t : State) → let u = f s in Holds s\n  → IsDone (g u) × s ≡ t")
    assert isinstance(found, Arrow) and isinstance(found.end, Joined)
    premises, parts = (found.premises, ["State", "Holds s"]), (found.end.parts, ["IsDone (g u)", "s ≡ t"])
    for several, wanted in (premises, parts):
        assert [term.text if isinstance(term, Relation) else term for term in several] == wanted


def test_relations_within_are_read() -> None:
    found = term("IfOk result (λ made. (s : State) → Holds made s → Has (made.0) s)")
    assert isinstance(found, Relation)
    assert (found.head, [type(term) for term in found.inner]) == ("IfOk", [Relation, Arrow])
    both = Joined("×", (Relation("A", "A"), Relation("B", "B")))
    assert term("((A × B) ⊎ C)") == Joined("⊎", (both, Relation("C", "C")))
    found = term("A × B ⊎ C")
    assert isinstance(found, Joined)
    assert found.sign == "⊎"
    assert term("f x.0 ≡ Some (y, z)") == Relation("≡", "f x.0 ≡ Some (y, z)")


def test_what_leads_to_nothing_is_denied() -> None:
    for text in ("IsOk x → ⊥", "¬ IsOk x"):
        found = term(text)
        assert isinstance(found, Relation)
        assert (found.head, found.text) == ("¬", text)


def faults_of(tmp_path: Path, lines: str, specs: str = SPECS, shown: str = SHOWN) -> list[str]:
    """Return the faults of these lines."""
    return [fault.partition(": ")[2] for fault in faults(made(tmp_path, specs), SAYS + lines, shown)]


def test_a_closed_chain_is_not_told(tmp_path: Path) -> None:
    assert faults_of(tmp_path, LINES) == []


def test_a_premise_that_nothing_gives_is_told(tmp_path: Path) -> None:
    without = LINES.replace("premise: Fits from: doors cut fits\n", "")
    assert faults_of(tmp_path, without) == ["Doors: nothing gives the premise 'key.teeth ≡ door' of Fits"]
    fault = "Doors: nothing gives the premise 'door ≤ 3' of IsInside.once"
    without = LINES.replace("premise: door ≤ * case: the door is one of these\n", "")
    assert faults_of(tmp_path, without) == [fault]
    assert faults_of(tmp_path, LINES.replace("door ≤ *", "door ≤")) == [fault, "Doors: no premise is door ≤"]


def test_each_side_of_both_ways_is_a_premise(tmp_path: Path) -> None:
    found = faults_of(tmp_path, LINES + "by: doors first_is_shut\n")
    assert found == ["Doors: nothing gives the premise 'door ≡ 1' of first_is_shut"]
    lines = LINES + "by: doors first_is_shut\npremise: door ≡ 1 case: it is the first\n"
    assert faults_of(tmp_path, lines) == []


def test_a_clause_that_does_not_give_it_is_told(tmp_path: Path) -> None:
    found = faults_of(tmp_path, LINES.replace("Fits from: doors cut fits", "Fits from: doors shut shut"))
    assert found == ["Doors: Fits is said to come from doors shut shut, which does not end in Fits"]
    found = faults_of(tmp_path, LINES.replace("by: doors cut fits\n", ""))
    assert found == ["Doors: Fits is said to come from doors cut fits, which the promise does not print",
                     *ungrounded("doors_open")]


def test_what_clauses_give_each_other_alone_is_told_of_each_clause(tmp_path: Path) -> None:
    lines = LINES.replace("doors shut shut", "doors shut again") + "by: doors doors_open_again\n"
    assert faults_of(tmp_path, lines) == ungrounded("shut again", "doors_open", "doors_open_again")


def test_lines_that_are_none_are_told(tmp_path: Path) -> None:
    assert faults_of(tmp_path, LINES + "premise: Opens trust: they do\n") == ["Doors: no premise is Opens"]
    assert faults_of(tmp_path, "premise: IsOpen case: they do\n" + LINES) == ["Doors: no premise is IsOpen"]
    with pytest.raises(tables.Wrong):
        faults_of(tmp_path, LINES + "premise: Fits rumour: they do\n")


def test_a_law_gives_a_premise_and_its_parts_are_premises_too(tmp_path: Path) -> None:
    lines = LINES + "by: doors one_opens\npremise: AreOpened law: doors one_opens\n"
    assert faults_of(tmp_path, lines, shown=SHOWN.replace("AreOpened ", "")) == []
    without = lines.replace("by: doors one_opens\n", "")
    other = lines.replace("law: doors one_opens", "law: doors shut shut")
    fault = "Doors: AreOpened is said to come from"
    assert faults_of(tmp_path, without)[0] == f"{fault} doors one_opens, which the promise does not print"
    assert faults_of(tmp_path, other) == [f"{fault} doors shut shut, which does not end in AreOpened"]
    # A further part is a fault if a law gives the whole, and not if a clause of a call does.
    more = SPECS.replace("WasOpened key door × AreOpened keys", "WasOpened key door × (door ≡ 1) × AreOpened keys")
    assert faults_of(tmp_path, lines, more) == ["Doors: nothing gives the premise 'door ≡ 1' of AreOpened"]
    assert faults_of(tmp_path, lines.replace("AreOpened law:", "AreOpened from:"), more) == []


def test_what_is_between_a_clause_and_a_law_is_not_opened(tmp_path: Path) -> None:
    lines = LINES + "by: doors one_opens\npremise: AreOpened from: doors one_opens\n"
    opened, unopened = (reached(tmp_path, lines + more) for more in ("", "between: AreOpened\n"))
    assert opened - unopened == {"AreOpened"}
    assert faults_of(tmp_path, lines + "between: AreOpened\n") == []
    assert "IsShut" not in reached(tmp_path, LINES + "between: IsShut\n")
    wrong = "is said to be between a clause and a law, and is not"
    assert f"Doors: IsInside {wrong}" in faults_of(tmp_path, lines + "between: IsInside\n")
    trusted = LINES.replace("IsShut from: doors shut shut", "IsShut {low high} trust: somebody shuts them")
    assert faults_of(tmp_path, trusted + "between: IsShut\n") == [f"Doors: IsShut {wrong}"]
    with pytest.raises(tables.Wrong):
        faults_of(tmp_path, lines + "between: IsNowhere\n")


def test_what_another_promise_prints_is_not_opened(tmp_path: Path) -> None:
    """Its own premises are checked for the promise that prints it."""
    other = SAYS.replace("== Doors", "\n== Inside") + LINES
    elsewhere = LINES + "elsewhere: Inside: AreOpened\n"
    opened, unopened = (reached(tmp_path, lines + other) for lines in (LINES, elsewhere))
    assert opened - unopened == {"AreOpened", "WasOpened"}
    assert faults_of(tmp_path, elsewhere + other) == []
    with pytest.raises(tables.Wrong):
        faults_of(tmp_path, elsewhere)
    with pytest.raises(tables.Wrong):
        faults_of(tmp_path, elsewhere + other + "elsewhere: Doors: AreOpened\n")


def reached(tmp_path: Path, lines: str) -> set[str]:
    """Return the names that a promise of these lines reaches."""
    promise, *_ = promises.promises(made(tmp_path), SAYS + lines)
    return {definition.name for definition in promise.reach.definitions}


def test_a_clause_that_shows_one_field_gives_the_record(tmp_path: Path) -> None:
    assert faults_of(tmp_path, LINES.replace("doors shut shut", "doors shut IsShut.low")) == []


def test_what_is_trusted_is_named_with_its_fields(tmp_path: Path) -> None:
    shut = "premise: IsShut from: doors shut shut"
    for name, count in (("IsShut {low high}", 0), ("IsShut {low}", 1), ("IsShut", 1), ("WasOpened.shut", 1),
                        ("WasOpened {shut}", 1)):
        found = faults_of(tmp_path, LINES.replace(shut, f"premise: {name} trust: somebody shuts them"))
        assert len([fault for fault in found if "fields" in fault]) == count, found
    more = SPECS.replace("door ≤ 9\n", "door ≤ 9\n  pub new : IsTrue (is_new door)\n")
    more = more.replace("-- Doors.", "-- Doors.\nuse Rattle.std.specs.Prelude.{is_new}")
    found = faults_of(tmp_path, LINES.replace(shut, "premise: IsShut {low high} trust: somebody shuts them"), more)
    assert found == ["Doors: IsShut is trusted by other fields than it has: IsShut {low high new}"]


def test_what_nothing_has_is_told(tmp_path: Path) -> None:
    both = without_example("AreOpened", "WasOpened")
    assert faults_of(tmp_path, LINES, shown="") == both
    assert faults_of(tmp_path, LINES, shown=SHOWN.replace("AreOpened ", "")) == both[:1]
    # Without doors, no door is opened.
    assert faults_of(tmp_path, LINES, shown=SHOWN.replace("one", "none")) == both[1:]
    # One part of a sum, a premise, or a piece that is no example shows nothing.
    for name, kind in (("either", "example"), ("same", "example"), ("one", "law")):
        shown = SHOWN.replace("Examples.antt: one", f"Examples.antt: {name}").replace("| example |", f"| {kind} |")
        assert faults_of(tmp_path, LINES, shown=shown) == both
    # A law with the relation as its premise is no example of it.
    for kind in ("law", "example"):
        law = SHOWN.replace("example", kind).replace("proofs/Examples.antt: one", "src/doors.rt: doors_open")
        assert faults_of(tmp_path, LINES, shown=law) == both


def test_a_law_does_not_show_what_it_takes(tmp_path: Path) -> None:
    """The law ends in a relation with a field that it takes as its premise."""
    lines = LINES + "by: doors one_opens\npremise: AreOpened law: doors one_opens\n"
    assert faults_of(tmp_path, lines, shown="") == without_example("AreOpened", "WasOpened")
    # If the premise of a law has an example, the law shows its conclusion.
    assert faults_of(tmp_path, lines, shown=SHOWN.replace("AreOpened ", "")) == []


def test_two_laws_do_not_show_what_each_takes_from_the_other(tmp_path: Path) -> None:
    lines = LINES + "by: doors inside_opened\n"
    assert faults_of(tmp_path, lines) == []
    assert faults_of(tmp_path, lines, shown="") == without_example("AreOpened", "WasOpened", "IsInside")


def test_a_side_of_both_ways_is_shown_by_the_other(tmp_path: Path) -> None:
    lines = LINES.replace("IsShut from: doors shut shut", "IsShut {low high} trust: somebody shuts them")
    lines = lines.replace("by: doors shut shut\n", "")
    assert faults_of(tmp_path, lines, shown="") == without_example("AreOpened", "WasOpened", "IsShut")
    lines += "by: doors first_is_shut\npremise: door ≡ 1 case: it is the first\n"
    assert faults_of(tmp_path, lines, shown="") == without_example("AreOpened", "WasOpened")


def test_a_relation_within_another_has_to_be_there_too(tmp_path: Path) -> None:
    specs = SPECS.replace("→ AreOpened keys doors →", "→ AreOpened keys doors → Each Thing →") + THINGS
    lines = LINES + "premise: Each trust: all are things\n"
    fault = "Doors: Each is trusted without the fields of what it is made of: Thing"
    assert fault in faults_of(tmp_path, lines, specs)
    lines = LINES + "premise: key.teeth ≡ 1 trust: all have one\n"
    assert faults_of(tmp_path, lines, specs) == without_example("Each", "Thing")


def test_a_sum_with_itself_comes_to_the_other_part(tmp_path: Path) -> None:
    ends = SPECS.replace("AreOpened (key ∷ keys) (door ∷ doors) = WasOpened key door × AreOpened keys doors",
                         "AreOpened (key ∷ keys) (door ∷ doors) = (WasOpened key door) ⊎ AreOpened keys doors")
    shown = SHOWN.replace("Examples.antt: one", "Examples.antt: none")
    assert faults_of(tmp_path, LINES, ends, shown) == without_example("WasOpened")
    never = ends.replace("AreOpened [] [] = Unit {0}", "AreOpened [] [] = ⊥")
    assert faults_of(tmp_path, LINES, never, shown) == []


def test_never_is_a_premise_in_a_field_and_in_a_product(tmp_path: Path) -> None:
    for old, new, place in (
        ("pub teeth : ℕ\n", "pub teeth : ℕ\n  pub never : ⊥\n", "Key.never"),
        ("pub shut : IsShut door\n", "pub shut : IsShut door\n  pub never : ⊥\n", "WasOpened.never"),
        ("WasOpened key door × ", "WasOpened key door × ⊥ × ", "AreOpened"),
    ):
        found = faults_of(tmp_path, LINES, SPECS.replace(old, new))
        assert found == [f"Doors: nothing gives the premise '⊥' of {place}"]


class Planting:
    """The world, whose definitions a test changes, and the headline of the promises."""

    def __init__(self, headline: str, before: list[str]) -> None:
        self.world, self.headline, self.before = World(ROOT), headline, before

    def change(self, label: str, old: str, new: str) -> list[str]:
        """Return the new faults after a text in a definition is replaced."""
        every = [definition for specs in self.world.specs.values() for definition in specs.definitions.values()]
        known = next(definition for definition in every if definition.label == label)
        lines = "\n".join(known.lines)
        assert old in lines
        text = (ROOT / known.path).read_text().replace(lines, lines.replace(old, new))
        self.world.specs[known.module] = antt.read(known.module, known.path, text)
        return self.found(self.headline)

    def without(self, line: str) -> list[str]:
        """Return the new faults if the headline, or the lines before it, lack this line."""
        assert line in self.headline
        return self.found(self.headline.replace(line, "", 1))

    def found(self, table: str) -> list[str]:
        """Return the faults of the promises of this table that were not there before."""
        return [fault for fault in faults(self.world, table, first=1) if fault not in self.before]


@pytest.fixture(scope="module")
def before(headline: str) -> list[str]:
    """Return the faults of the headline as it is."""
    return faults(World(ROOT), headline, first=1)


@pytest.fixture
def planting(headline: str, before: list[str]) -> Planting:
    """Return the world as it is."""
    return Planting(headline, before)


def test_the_promises_close() -> None:
    assert [fault for fault in faults(World(ROOT)) if fault.startswith("statement/promises.txt")] == []


def test_what_is_planted_is_noticed(planting: Planting) -> None:
    """An empty type, a further field of a stop, and further premises, which also fail proofs of laws."""
    for label, old, new, wanted in PLANTED:
        planting.world = World(ROOT)
        found = planting.change(f"rs_recovery.{label}", old, new)
        assert any(re.fullmatch(f"{HEADLINE}: {wanted}", fault) for fault in found), found


def test_sessions_with_a_premise_that_another_session_gives(planting: Planting) -> None:
    """The proof of the law `sessions_follow` fails then; no fault is found here, as a line grounds the premise."""
    stands = "× StandsFor y.image s"
    found = planting.change("rs_recovery.Sessions.AreSessions", stands, f"{stands} × StandsFor x.image s")
    assert found == []


def test_a_stop_without_its_example(planting: Planting) -> None:
    """The law that ends in a stop has a stop as its premise."""
    lines = (ROOT / "statement" / "evidence.txt").read_text().splitlines()
    shown = "\n".join(line for line in lines if not line.endswith(": are_stops"))
    found = faults(planting.world, planting.headline, shown, first=1)
    fault = "rs_recovery.Sessions.IsStop stands only left of an arrow, and no example has it"
    assert f"statement/evidence.txt: {fault}" in found
    assert f"statement/evidence.txt: {fault}" not in planting.before


def test_a_headline_without_what_gives_a_premise(planting: Planting) -> None:
    """The headline lacks its formatting, its run, the law of its sessions, or a command."""
    for line, name, clause in (
        ("rs_store Source::format holds runs", "Holds", "rs_store Source::format holds"),
        ("rs_store Source::run in_turn untouched", "InTurn", "rs_store Source::run in_turn"),
        ("rs_recovery sessions_follow", "AreSessions", "rs_recovery sessions_follow first"),
        ("rs_store Source::put Answers.leads Answers.runs Answers.closed Answers.closes", "Answers",
         "rs_store Source::put"),
    ):
        found = planting.without(f"by: {line}\n")
        fault = f"{name} is said to come from {clause}, which the promise does not print"
        assert f"{HEADLINE}: {fault}" in found


def test_a_headline_without_a_line(planting: Planting) -> None:
    for name in ("IsStop {from to left}", "StandsFor", "Holds", "(device disk).now.seen ≡ x.image"):
        line = next(line for line in planting.headline.split("premise: ") if line.startswith(f"{name}\n"))
        found = planting.without(f"premise: {line}")
        assert any(fault.startswith(f"{HEADLINE}: {NOTHING}") for fault in found), name
