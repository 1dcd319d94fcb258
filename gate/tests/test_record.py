"""Test the records of edits: the crates that the record covers, the noted goals, and the crates that are built."""

from pathlib import Path
from unittest import mock

from gate.edits import edit, edits, goals, kit, record
from gate.edits.libraries import Libraries
from gate.tests.samples import ABOVE, CODE, repository, rows, write


def tried(label: str, goal: str, outcome: edit.Outcome = edit.Outcome.REFUSED) -> edit.Edit:
    """Return a tried edit."""
    return edit.Edit(label, [], outcome, goal=goal)


def test_what_a_change_leaves_covered() -> None:
    """Bodies, proofs and edits concern their crate, contracts and definitions all crates above, comments none."""
    for crate, part, old, new, covered in rows("covered"):
        with repository(low=CODE, high=ABOVE) as room:
            for folder in ("specs", "proofs"):
                write("-- one\none = 1\n", room, "crates/low", folder, "One.antt")
            record.write(room, ["low", "high"])
            assert record.uncovered(room) == []
            file = Path(room, "crates", crate, part)
            assert old in file.read_text()
            file.write_text(file.read_text().replace(old, new))
            assert {"low", "high"} - {*record.uncovered(room)} == {*covered.split()}
            assert {*record.outdated(room)} == {*record.uncovered(room)}


def test_another_kit_with_the_same_logic() -> None:
    name, logic = kit.identity()
    with repository(low=CODE, high=CODE) as room:
        record.write(room, ["low"])
        assert (record.lines(room)["low"][2], record.outdated(room)) == (name, [])
        for kit_name, other, wanted in ((name, logic, ["high"]), ("other", logic, ["high"]),
                                        (name, "other", ["low", "high"])):
            with mock.patch.object(kit, "identity", lambda: (kit_name, other)):
                assert record.uncovered(room) == wanted


def test_what_is_noted_of_a_crate() -> None:
    """Goals of refused edits join other crates' goals; the record gets a line if all edits are refused."""
    refused, proved = tried("low/one", "returns"), tried("low/two", "returns", edit.Outcome.PROVED)
    with repository(low=CODE, high=ABOVE) as room:
        edits.note(room, "high", [tried("high/one", "sum-fits"), tried("high/two", "")])
        for every, uncovered in (([refused, proved], ["low"]), ([refused], [])):
            edits.note(room, "low", every)
            assert (goals.known(room), record.uncovered(room)) == (
                {"high/one": "sum-fits", "low/one": "returns"}, uncovered)


def test_two_crates_are_picked() -> None:
    with repository(**dict.fromkeys("abcdefgh", CODE)) as room:
        picks = {tuple(record.picked(room, str(commit))) for commit in range(200)}
        assert {len({*pick}) for pick in picks} == {2}
        assert {name for pick in picks for name in pick} == {*"abcdefgh"}


def test_each_edit_of_a_crate_is_drawn() -> None:
    with repository(a=CODE) as room:
        for number in range(8):
            Path(room, f"crates/a/must-fail/{number}.edit").write_text("old: 1\nnew: 2\n")
        every = record.edits_of(room, "a")
        draws = [record.drawn(room, "a", str(commit), limit=3) for commit in range(100)]
        assert {len({*draw}) for draw in draws} == {3}
        assert {path for draw in draws for path in draw} == {*every}
        assert sorted(record.drawn(room, "a", "0", limit=99)) == every


def test_libraries_are_built_once_and_anew_where_they_or_those_below_changed() -> None:
    with repository(low=CODE, middle=ABOVE, high=ABOVE) as room:
        both: list[list[str] | None] = [["low::next"], ["middle::next"], None]
        none: list[list[str] | None] = [None, None, None]
        wrong = "low is not proved: fn low::next: proved\nit is told"
        assert functions_proved(room) == none
        for changed, status, result, built, proved in (
            ("", 0, "", ["low", "middle"], both),
            ("", 0, "", [], both),
            ("middle/src/lib.rt", 0, "", ["middle"], both),
            ("low/src/lib.rt", 1, wrong, ["low"], none),
            ("", 0, "", ["low", "middle"], both),
            ("low/out/rlib/stamp", 0, "", ["low"], both),
        ):
            if changed:
                file = Path(room, "crates", changed)
                file.write_text(file.read_text() + "// more\n")
            assert build(room, status) == (result, built, built)
            assert functions_proved(room) == proved


def functions_proved(room: str) -> list[list[str] | None]:
    """Return the functions of every crate that were proved when it was built from its current files."""
    return [Libraries(room, 1).proved(name) for name in ("low", "middle", "high")]


def build(room: str, status: int) -> tuple[str, list[str], list[str]]:
    """Return the error of a build whose checks have this status, the checked crates, and the reported crates."""
    reported: list[str] = []
    report_of = lambda words, folder: kit.Report(status, f"fn {folder.name}::next: proved\nit is told")
    with mock.patch.object(kit, "check", side_effect=report_of) as check:
        wrong = Libraries(room, 2).build_each(["middle"], lambda name, report: reported.append(name))
    return wrong, [call.args[1].name for call in check.call_args_list], reported


def test_of_a_program_the_proofs_alone_are_kept() -> None:
    """A crate that is built alone gets all jobs."""
    report = kit.Report(0, "fn top::main: proved\n")
    with (repository(low=CODE, top=ABOVE) as room,
          mock.patch.object(kit, "check", return_value=report) as check):
        Path(room, "crates/top/src/lib.rt").rename(Path(room, "crates/top/src/main.rt"))
        assert (Libraries(room, 3).build_each(["top"]), Libraries(room, 1).proved("top")) == ("", ["top::main"])
        commands = [call.args[0] for call in check.call_args_list]
        found = [(words[1], "-o" in words, words[words.index("--jobs") + 1]) for words in commands]
        assert found == [("build", True, "3"), ("check", False, "3")]
