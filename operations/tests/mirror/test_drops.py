"""Test a mirror whose source drops documents before a run reads them.

Between any two requests of a run, and before the first, a source (crash_model.py) applies some commands. Their
publications drop the parts of the Change List that the run knows, and remove the parts of the Resource List. The run
still ends with the resources that the source held at the moment that it prints.
"""
from __future__ import annotations

import pathlib
import shutil

import pytest

from operations.tests.mirror.mirrors import files_of, laid_out
from operations.tests.mirror.within import engine_of
from ropepeach.faults import Fault
from ropepeach.http.client import LONGEST_DOCUMENT, PATIENCE, Fields, Response
from tests.reading import crash_model

BASE, LIMIT = "http://127.0.0.1:8080", 2
# Commands before the first run, and commands during runs: one publication, two, and enough to drop all.
BEFORE = [
    f"put {name} {name.encode().hex()} text/plain" for name in "abcde"] + ["publish", "delete a", "put f - text/plain"]
ONE = ["put b 6262 text/plain", "publish", "put g 67 text/plain"]
TWO = [*ONE, "delete c", "publish", "put h - text/plain"]
ALL = [*TWO, "put i 69 text/plain", "publish", "publish", "publish"]
# Changes before the later runs of a folder; the first run is a baseline.
LATER = ["put k 6b text/plain", "delete g", "put l - text/plain"]


class Moving:
    """A source that applies some commands before its request of one number, and its resources at every moment."""

    def __init__(self, lines: list[str], at: int) -> None:
        self.state, self.requests = crash_model.State(BASE, LIMIT), 0
        self.resources: dict[str, dict[str, bytes]] = {}
        self.lines, self.at, self.begun, self.address, self.longest = lines, at, 0, BASE, LONGEST_DOCUMENT
        self.patience = PATIENCE
        self.does(BEFORE)

    def does(self, lines: list[str]) -> None:
        """Apply commands, and record the resources after every command."""
        for line in lines:
            self.state = self.state.after(line, 0)[1] or self.state
            resources = {name: body for name, (body, _) in self.state.held.items()}
            self.resources[crash_model.moment_text(self.state.last)] = resources

    def ask(self, method: str, path: str, limit: int) -> Response:
        """Return the response for a path."""
        if self.requests == self.at:
            self.does(self.lines)
        self.requests += 1
        self.begun += path == "/resourcelist.xml"
        body = crash_model.all_served(self.state).get(path)
        if body is None:
            return Response(404, "Not Found", Fields(), b"NoSuchDocument\n")
        return Response(200, "OK", Fields(), body)


def run(source: Moving, path: pathlib.Path) -> tuple[str, int]:
    """Run the mirror on a folder. Return the reported moment, and the number of requests for the Resource List."""
    engine, begun = engine_of(source, path), source.begun
    try:
        engine.go(engine.folder.until is None)
        assert engine.folder.until
        return engine.folder.until, source.begun - begun
    finally:
        engine.folder.close()


def runs(source: Moving, path: pathlib.Path) -> tuple[int, int]:
    """Run a baseline and an increment. Return the number of requests, and of restarts of the increment."""
    for lines in (list[str](), LATER):
        source.does(lines)
        try:
            until, begun = run(source, path)
        except Fault as why:
            pytest.fail(f"before request {source.at} {source.lines}: {why}")
        assert files_of(path) == laid_out(source.resources[until]), (
            f"before request {source.at} {source.lines}, as of {until}")
    return source.requests, begun


@pytest.mark.parametrize("lines", [ONE, TWO, ALL], ids=["one", "two", "all"])
def test_the_folder_is_exact_when_a_source_drops_documents_before_any_request(room: pathlib.Path,
                                                                             lines: list[str]) -> None:
    begun_again, at, requests, path = 0, 0, 1, room / "moved"
    while at < requests:
        requests, begun = runs(Moving(lines, at), path)
        begun_again, at = begun_again + begun, at + 1
        shutil.rmtree(path)
    # (fewer would test too little)
    assert begun_again or lines is ONE, "no increment began again"
