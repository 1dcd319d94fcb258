"""Planted bugs of the mirror of a Ropepeach that stops, or whose source changes during a run."""
from __future__ import annotations

from tests.planted.plants import Bug


def bug(what: str, file: str, old: str, new: str, test: str) -> Bug:
    """Return a bug in a file of the command, and the test FILE::NAME that must notice it."""
    return Bug(what, f"operations/ropepeach/{file}.py", old, new,
               f"operations/tests/mirror/test_{test.replace('::', '.py::test_')}")


STOPS = "stops::a_run_completes_a_folder_that_was_stopped_at_any_call"
DROPS = "drops::the_folder_is_exact_when_a_source_drops_documents_before_any_request"
RUNNING = "running_source::the_folder_is_as_the_source_was_at_the_moment_of_each_run"
OF_RUNS = [
    bug("a stopped folder is not repaired", "mirror/folder", "        self.put_right()\n", "", STOPS),
    bug("a Change List that begins too late is taken", "resync/lists", "if self.start > self.after:", "if False:",
        DROPS),
    bug("a baseline keeps files that the source dropped", "mirror/aims", "            wanted.setdefault(name)\n",
        "            pass\n", RUNNING),
]
