"""Test the witnesses: an untied variable of a conclusion is a fault, planted in our own promises."""

from rattle import antt
from statement import promises, witnesses
from statement.world import World
from tests.program import ROOT

TURN = "TellsRequest (turn device old told.connection.now new) told.connection.ends"

# A definition, a text in it, its replacement, and the variable that is untied then.
PLANTED = (
    # The moment of a connection, chosen afterwards.
    ("rs_source.Serving.IsTold", f"  pub tells : {TURN}",
     f"  pub now : ℕ\n  pub tells : {TURN.replace('told.connection.now', 'now')}", "IsTold.now"),
    # The ends of a connection.
    ("rs_source.Serving.IsTold", f"  pub is_new : calls told.connection.ends.before ≡ 0\n  pub tells : {TURN}",
     "  pub ends : Ends\n  pub is_new : calls ends.before ≡ 0\n"
     f"  pub tells : {TURN.replace('told.connection.ends', 'ends')}",
     "IsTold.ends"),
    # The source between two connections.
    ("rs_source.Serving.AreTold", "IsTold device old told mid × AreTold device mid later new",
     "IsTold device old told new × AreTold device new later new", "AreTold.mid"),
    # The bytes of a request that no reader gave.
    ("rs_http.Told.TellsRequest", "pub came : Consumes (watched ends.left) (watched ends.rest) input",
     "pub came : input ≡ input", "TellsRequest.input"),
    # The same bytes, tied only by one side of a sum.
    ("rs_http.Told.TellsRequest", "pub came : Consumes (watched ends.left) (watched ends.rest) input",
     "pub came : Consumes (watched ends.left) (watched ends.rest) input ⊎ (input ≡ input)", "TellsRequest.input"),
)


def faults(table: str, world: World | None = None) -> list[str]:
    """Return the faults of the witnesses of the headline."""
    world = world or World(ROOT)
    found = witnesses.follow(world, promises.promises(world, table)[:1])
    return [fault for fault in found if "no promise has" not in fault]


def test_each_witness_of_the_promises_has_a_line() -> None:
    world = World(ROOT)
    assert witnesses.follow(world, promises.promises(world)) == []


def test_a_planted_witness_is_a_fault(headline: str) -> None:
    for label, old, new, variable in PLANTED:
        world = World(ROOT)
        every = [definition for specs in world.specs.values() for definition in specs.definitions.values()]
        known = next(definition for definition in every if definition.label == label)
        lines = "\n".join(known.lines)
        assert old in lines
        text = (ROOT / known.path).read_text().replace(lines, lines.replace(old, new))
        world.specs[known.module] = antt.read(known.module, known.path, text)
        fault = f"statement/promises.txt: The headline: nothing ties the witness {variable}"
        assert fault in faults(headline, world)


def test_a_word_that_says_nothing_of_some_ends_needs_a_line(headline: str) -> None:
    for name in ("Consumes; Appends; IsAtEnd", "accepted"):
        begin = headline.index(f"witness: {name}\n")
        end = headline.index("\nwitness: ", begin) if "\nwitness: " in headline[begin:] else begin
        found = faults(headline[:begin] + headline[end + 1 :])
        assert f"statement/promises.txt: The headline: nothing ties the witness {name.split(';')[0]}" in found


def test_a_line_of_a_witness_that_is_not_there_is_a_fault(headline: str) -> None:
    world, line = World(ROOT), "witness: IsStop.more\n  trust: there is more\n"
    table = headline.replace("\nwitness: ", f"\n{line}witness: ", 1)
    found = witnesses.follow(world, promises.promises(world, table)[:1])
    assert "statement/promises.txt: no promise has the witness IsStop.more" in found
