"""Bugs of `ropepeach mirror` that lose files in a power cut, or record a state before its files are on disk."""
from __future__ import annotations

from tests.planted.plants import Bug

POWER = "operations/tests/tools/test_power.py"
RULES = f"{POWER}::test_files_are_synced_before_they_are_renamed_and_the_state_comes_last"
FILES = "cli/files"
FAILING = f"{POWER}::test_a_call_that_fails_ends_the_run_by_status_3_and_the_next_run_continues"


def bug(what: str, file: str, old: str, new: str, tests: str = RULES) -> Bug:
    """Return a bug in a file of the mirror, or in another one of the command."""
    return Bug(what, f"operations/ropepeach/{file if '/' in file else f'mirror/{file}'}.py", old, new, tests)


POWER_CUTS = [
    bug("a batch is not synced", "folder", "self.worker.submit(sync_all, self.lock)", "self.worker.submit(int)"),
    bug("a sync is not waited for", "folder", "            self.synced.result()\n", "            pass\n"),
    bug(
        "files are written in their places", "bodies",
        "        self.path, self.file = self.folder.incoming_file()\n",
        "        import os\n\n"
        "        self.folder.make_way(self.entry.name)\n"
        "        above, self.path = self.folder.tree.parted(self.entry.name)\n"
        "        self.folder.leave_incoming()\n        self.folder.incoming = os.dup(above)\n"
        "        self.file = os.open(self.path, os.O_WRONLY | os.O_CREAT | os.O_TRUNC, 0o666, dir_fd=above)\n",
    ),
    bug(
        "a short write is taken for a whole one", "bodies",
        "        while piece:\n            piece = piece[os.write(self.file, piece):]\n",
        "        os.write(self.file, piece)\n",
    ),
    bug(
        "a moment is remembered before folders are synced", "folder",
        "        sync_all(self.lock)\n        self.write_state(",
        "        self.write_state(",
    ),
    bug("the state is not synced", FILES, "            os.fsync(number)\n", "            pass\n"),
    bug("the state's name is not synced", FILES, "    os.fsync(folder)\n", ""),
    bug(
        "the state is written in its place", FILES,
        "    number = make_file(above, fresh, mode)\n",
        "    fresh, above = name, folder\n"
        "    number = os.open(name, os.O_WRONLY | os.O_CREAT | os.O_TRUNC, mode, dir_fd=folder)\n",
    ),
    bug(
        "a moment is remembered before files are in their places", "engine",
        "        self.folder.place_all()\n        if not self.unsaved",
        "        if not self.unsaved",
    ),
    bug(
        "a sync that failed is passed over", "folder",
        ".syncfs(opened):\n",
        ".syncfs(opened) and False:\n",
        FAILING,
    ),
]
