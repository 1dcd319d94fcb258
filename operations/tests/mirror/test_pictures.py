"""Test that the picture of a mirror in operations/docs shows real runs of `ropepeach mirror` (album.py)."""
from pathlib import Path

import pytest

from operations.tests.mirror.pictures import ALBUM
from tests.pictures.album import Change, compare, look_at_form

pytestmark = pytest.mark.needs("cc")


@pytest.mark.parametrize("name", ALBUM.draws)
def test_a_picture_shows_a_real_run(program: str, room: Path, name: str) -> None:
    """The picture is plain SVG, all texts are inside it, and a page shows it with a description."""
    picture = ALBUM.draws[name](program, str(room))
    look_at_form(name, picture)
    assert ALBUM.is_shown(name), f"no page of {ALBUM.pages.name}/ shows {name}"
    compare(name, ALBUM.path(name).read_text(), picture.spelled())


@pytest.mark.parametrize("name, change", ALBUM.wrong, ids=lambda value: getattr(value, "__name__", None))
def test_the_judge_rejects_a_picture_of_a_wrong_folder(program: str, name: str, change: Change) -> None:
    assert ALBUM.is_noticed(program, name, change)
