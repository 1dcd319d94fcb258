"""Planted bugs of `ropepeach fill`."""
from __future__ import annotations

from tests.planted.bugs.command import EXACT, FILL, tool

OF_FILL = [
    tool(
        "a group that is refused by 4xx counts as done", "fill/send",
        "answer.status == 200\n        return",
        "answer.status < 500\n        return",
        FILL,
    ),
    tool(
        "an old list is not published where nothing changes", "fill/plan",
        "if not (sending.put or sending.deleted) and is_published:",
        "if not (sending.put or sending.deleted):",
        FILL,
    ),
    tool(
        "puts come before deletions", "fill/plan",
        "            for name in self.gone:\n                sending.add(PutOrDelete(name))\n"
        "                bar.add()\n            sending.flush()\n"
        "            for name, size in zip(self.changed, self.sizes):",
        "            for name, size in zip(self.changed, self.sizes):",
        FILL,
    ),
    tool(
        "a deletion of what is gone ends a run", "fill/send",
        "if not is_put and error_text(answer) == NOT_HELD:",
        "if is_put and error_text(answer) == NOT_HELD:",
        FILL,
    ),
    tool(
        "one publication makes room", "fill/send",
        "PUBLICATIONS = 2",
        "PUBLICATIONS = 1",
        FILL,
    ),
    tool(
        "a file of the greatest length is left out", "fill/files",
        "if status.st_size > LONGEST_BODY:",
        "if status.st_size >= LONGEST_BODY:",
        f"{EXACT}the_longest_body_is_mirrored_and_put",
    ),
    tool(
        "means of names are rounded down", "disk/formula",
        "(-(-total // count) for total in",
        "(total // count for total in",
        f"{EXACT}room_is_compared_to_the_byte",
    ),
    tool(
        "an ill source is given a refused group once more", "fill/send",
        "if answer.status >= 500 and answer.status != FULL:",
        "if answer.status >= 600:",
        "operations/tests/tools/test_fill.py::test_a_group_that_the_source_fails_ends_the_run",
    ),
    tool(
        "a type that a pattern gives is not compared", "fill/plan",
        "or (kind and kind != kind_of(facts)):",
        ":",
        FILL,
    ),
    tool(
        "what is below a name that is left out goes", "fill/plan",
        "if not name.startswith(below))",
        "if name not in self.left_out)",
        FILL,
    ),
    tool(
        "a publication goes on behind a refused change", "fill/send",
        "            raise refusal(self.source, method, path, answer)\n",
        "            self.publish()\n            raise refusal(self.source, method, path, answer)\n",
        FILL,
    ),
    tool(
        "a change is counted before it is acknowledged", "fill/send",
        '        is_put, path = change.body is not None, f"/resource/{change.name}"\n',
        '        is_put, path = change.body is not None, f"/resource/{change.name}"\n        self.put += is_put\n',
        FILL,
    ),
]
