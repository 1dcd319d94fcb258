"""Test `ropepeach mirror` of a Ropepeach that lies in one response: it prints a message, and writes nothing outside the
folder.

hostile_rows.py has the lies and the limits of a run: bytes, memory and seconds. `ropepeach fill` reads the same lists
by the same code, and gets a few of the lies.
"""
from __future__ import annotations

import pathlib

import pytest

from operations.tests.tools.hostile_rows import (
    ASKED, DESCRIPTION, ELSEWHERE, HARMLESS, ROWS, SENT, below, document, escaping, run, with_dtd)
from operations.tests.tools.hostile_source import Liar


def mirrored(liar: Liar, room: pathlib.Path, status: int, *files: str) -> str:
    """Run the mirror, check its exit status, its limits and that it leaves only these files; return its messages."""
    found, messages = run(["mirror", liar.base, "mirror"], room)
    assert found == status, messages
    assert [char for char in messages if not (char.isprintable() or char == "\n")] == []
    assert set(below(room)) <= {"mirror/#state", "mirror/#known", *files}
    assert [path for path in liar.paths() if not path.startswith("/") or "elsewhere" in path] == []
    assert max((liar.paths().count(path) for path in liar.paths()), default=0) <= ASKED
    assert liar.sent <= SENT
    return messages


@pytest.mark.parametrize("name", ROWS)
def test_a_lie_is_refused_in_a_message_of_two_lines_at_most(liar: Liar, room: pathlib.Path, name: str) -> None:
    """The first entry of a list is correct, and may be fetched."""
    lie, says = ROWS[name]
    lie(liar)
    messages = mirrored(liar, room, 1, "mirror/first")
    assert says in messages
    assert messages.count("\n") <= 2


def test_a_document_type_from_elsewhere_is_not_read(liar: Liar, room: pathlib.Path) -> None:
    """The source counts as one of other software, whose documents may have a type without declarations."""
    document(DESCRIPTION, lambda text: with_dtd(text, ELSEWHERE, ""))(liar)
    mirrored(liar, room, 0, f"mirror/http+{liar.base.removeprefix('http://')}/resource/a")


@pytest.mark.parametrize("name", HARMLESS.values(), ids=HARMLESS)
def test_an_encoded_name_is_a_file_in_the_folder(liar: Liar, room: pathlib.Path, name: str) -> None:
    """`%` is never decoded."""
    escaping(name)(liar)
    liar.documents({f"/resource/{name}": b"body"})
    mirrored(liar, room, 0, "mirror/first", f"mirror/{name}")


@pytest.mark.parametrize("name", ["entities that grow", "60,000 entries", "dots", "a document without end",
                                  "a body that drips"])
def test_fill_refuses_a_source_that_lies(liar: Liar, room: pathlib.Path, name: str) -> None:
    pathlib.Path("folder").mkdir()
    pathlib.Path("folder/a").write_bytes(b"a")
    lie, says = ROWS[name]
    lie(liar)
    status, messages = run(["fill", "folder", liar.base], room)
    assert status == 1
    assert says in messages
