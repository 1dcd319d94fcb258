"""Tests of the paths of files: each form opens, and the synced folder is the one that has the file."""
import os
from pathlib import Path

import pytest

from tests.program import MEMORY
from tests.system.edge_runs import run
from tests.system.traced_calls import traced

pytestmark = [pytest.mark.plain, pytest.mark.needs("strace")]

DEEP = "/".join(["folder"] * 20)
# Paths below the folder HERE, which is the current one.
PATHS = ["a.disk", "./a.disk", "inner/a.disk", "inner/../other/a.disk", "../{name}/a.disk", "{room}/a.disk",
         "{room}/inner/../a.disk", "{room}/" + DEEP + "/a.disk", DEEP + "/a.disk", "link/a.disk", "inner//a.disk",
         "ä/größe €.disk", "a b'\n.disk", "n" * 255, "/".join(["m" * 200] * 3)]


def prepared(room: Path, path: str) -> Path:
    """Make the folders of a path; return the path."""
    for folder in ("inner", "other"):
        Path(folder).mkdir(exist_ok=True)
    Path("link").symlink_to("other")
    made = Path(path.format(room=room, name=room.name))
    Path(os.path.dirname(made) or ".").mkdir(parents=True, exist_ok=True)
    return made


@pytest.mark.parametrize("path", PATHS)
def test_the_folder_of_a_new_file_is_synced_before_it_is_written(program: str, room: Path, path: str) -> None:
    file = prepared(room, path)
    name, folder = path.format(room=room, name=room.name), str(file.parent.resolve())
    run(program, room, "format", "old.disk", *MEMORY[1:])
    for words in (["format", name, *MEMORY[1:]], ["copy", "old.disk", name, "65536"]):
        file.unlink(missing_ok=True)
        found = traced(program, words)
        assert (found.status, found.messages) == (0, b""), words[0]
        written = next(at for at, call in enumerate(found.calls) if call.name == "pwrite64")
        synced = [call.file for call in found.calls[:written] if call.name == "fsync"]
        assert synced[-2:] == [f"{folder}/{file.name}", folder], words[0]
    assert run(program, room, "run", name, script=b"put a 61 a/b\nverify\n")[2].endswith(b"verified 1\n")


def test_links_to_a_file_open_it(program: str, room: Path) -> None:
    """A symbolic link, a link to a link and a hard link open the file; none is replaced by a new file."""
    run(program, room, "format", "a.disk", *MEMORY[1:])
    Path("symbolic").symlink_to("a.disk")
    Path("second").symlink_to("symbolic")
    Path("hard").hardlink_to("a.disk")
    for count, name in enumerate(["a.disk", "symbolic", "second", "hard"], 1):
        assert run(program, room, "run", name, script=b"put %d - a/b\nverify\n" % count)[2].endswith(
            b"verified %d\n" % count), name
    for name in ("symbolic", "hard"):
        assert run(program, room, "format", name, *MEMORY[1:])[:2] == (1, b"rs_source: Exists\n"), name
    assert run(program, room, "run", "a.disk", script=b"verify\n")[2] == b"verified 4\n"
