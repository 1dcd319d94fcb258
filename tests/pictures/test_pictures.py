"""Tests of the pictures of disks in docs/: they show real runs of the program (album.py)."""
from pathlib import Path

import pytest

from tests.pictures.of_docs import ALBUM
from tests.pictures.album import Change, compare, look_at_form
from tests.pictures.svg import Picture
from tests.program import Differs

pytestmark = pytest.mark.needs("cc")


@pytest.mark.parametrize("name", ALBUM.draws)
def test_a_picture_shows_a_real_run(program: str, room: Path, name: str) -> None:
    """A picture is plain SVG, its texts fit, and a page shows it with a description."""
    picture = ALBUM.draws[name](program, str(room))
    look_at_form(name, picture)
    assert ALBUM.is_shown(name), f"no page of {ALBUM.pages.name}/ shows {name}"
    compare(name, ALBUM.path(name).read_text(), picture.spelled())


@pytest.mark.parametrize("name, change", ALBUM.wrong, ids=lambda value: getattr(value, "__name__", None))
def test_the_judge_rejects_a_picture_of_a_wrong_program(program: str, name: str, change: Change) -> None:
    assert ALBUM.is_noticed(program, name, change)


def test_the_judge_rejects_a_text_that_leaves_its_picture() -> None:
    wide = Picture(100, 50, "a title", "a description")
    wide.text(60, 20, "too long for it")
    with pytest.raises(Differs):
        look_at_form("wide", wide)
