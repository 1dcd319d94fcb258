"""Test that edits are applied and undone exactly."""

import pytest

from rust.edits import Edit, Form, Refused, applied, ordered, undone

TEXT = "one two\nthree four\n"
EDITS = [Edit(4, "two", "2", Form.NAME), Edit(8, "three ", "", Form.GHOST), Edit(18, "", "!", Form.PRELUDE)]


def test_what_is_applied_is_undone() -> None:
    made = applied(TEXT, ordered(EDITS))
    assert made == "one 2\nfour!\n"
    assert undone(made, ordered(EDITS)) == TEXT


def test_order_is_that_of_the_text() -> None:
    assert ordered(reversed(EDITS)) == EDITS


def test_edits_that_meet_are_refused() -> None:
    with pytest.raises(Refused, match="two edits meet at 5"):
        ordered([Edit(4, "two", "2", Form.NAME), Edit(5, "w", "", Form.NAME)])


def test_lines_stay() -> None:
    with pytest.raises(Refused, match="moves lines"):
        ordered([Edit(4, "two\nthree", "2", Form.NAME)])
    ordered([Edit(4, "two\nthree", "2\n", Form.NAME)])


def test_a_lost_token_is_noticed() -> None:
    assert undone(applied(TEXT, EDITS[:1]).replace("four", "for"), EDITS[:1]) != TEXT
    with pytest.raises(Refused):
        undone(applied(TEXT, EDITS).replace("four", "for"), EDITS)


def test_an_edit_that_was_not_made_is_noticed() -> None:
    with pytest.raises(Refused, match="not found again: a name"):
        undone(TEXT, EDITS)
