"""Each style of source is mirrored through one journey: first run, changes, kills, `check` and `--repair`."""
from __future__ import annotations

import pytest

from operations.tests.harness.command import FOLDER, Ropepeach
from operations.tests.harness.folder import Mirror
from operations.tests.harness.server import Response, Server
from operations.tests.harness.source import FIRST, SECOND, THIRD
from operations.tests.mirror_sources.styles import ROWS, Row
from operations.tests.mirror_sources.test_kills import killed_at


class Journey:
    """A source of a style, and its mirror."""

    def __init__(self, row: Row, server: Server, ropepeach: Ropepeach, mirror: Mirror) -> None:
        self.row, self.source, self.server = row, row.kind(server, row.style), server
        self.ropepeach, self.mirror = ropepeach, mirror
        self.files: dict[str, bytes] = {}
        self.changes: list[str] = []
        self.url = server.base + row.url
        self.options: tuple[str, ...] = row.options
        # The responses before they were altered.
        self.unaltered: dict[str, Response | list[Response]] = {}

    def hold(self, files: dict[str, bytes], moment: str) -> None:
        """Publish these files, by a change for each difference if the style has a Change List."""
        source, before, self.files = self.source, self.files, files
        self.server.responses = dict(self.unaltered)
        for name in sorted(before.keys() | files.keys()):
            if before and before.get(name) != files.get(name):
                word = "deleted" if name not in files else "updated" if name in before else "created"
                self.changes.append(source.change(name, word, moment, files.get(name)))
        if before and self.row.is_later and self.row.style.has_changes:
            source.later(files, self.changes)
        else:
            source.hold(files, moment)
        self.unaltered = dict(self.server.responses)
        for alter in self.row.alter:
            alter(source)

    def run(self, *options: str) -> str:
        """Mirror; the folder then has the files of the source. Return the messages."""
        result = self.ropepeach.mirror(self.url, *self.options, *options).ended(self.row.status)
        assert self.mirror.held(self.source) == self.files, result.output + result.errors
        return result.errors

    def killed(self, path: str, *options: str) -> None:
        """Kill a run at a path."""
        killed_at(self.ropepeach, self.server, path, *self.options, *options, url=self.url)


@pytest.mark.parametrize("row", [pytest.param(row, id=row.name) for row in ROWS])
def test_a_style_is_mirrored_from_its_first_run_to_a_repair(
        row: Row, server: Server, ropepeach: Ropepeach, mirror: Mirror) -> None:
    journey = Journey(row, server, ropepeach, mirror)
    first, second, third = row.names
    journey.hold({first: b"body of the first", second: b"body of the second", third: b"body of the third"}, FIRST)
    assert row.says in journey.run()
    journey.run()
    journey.hold({first: b"newer first", second: b"body of the second", "new": b"new"}, SECOND)
    journey.run()
    journey.hold({first: b"newest first", second: b"newer second", "new": b"new"}, THIRD)
    journey.killed(row.killed_at or "/data/" + second)
    journey.run()
    mirror.damage(mirror.place(journey.source, second))
    journey.killed(row.killed_at or "/data/" + second, "--baseline")
    journey.run()
    ropepeach("check", FOLDER).succeeded()
    mirror.damage(mirror.place(journey.source, second))
    ropepeach("check", FOLDER).ended(4)
    ropepeach("check", FOLDER, "--repair").ended(0)
    assert mirror.held(journey.source) == journey.files
