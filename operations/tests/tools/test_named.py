"""Test that the name of a source of this machine stands for its file and its address."""
from __future__ import annotations

import json
from collections.abc import Iterator
from pathlib import Path
from unittest import mock

import pytest

from operations.tests.tools.command_runs import status_of
from operations.tests.tools.line_runs import here
from operations.tests.tools.running import Server, written
from ropepeach.admin import machine


@pytest.fixture
def papers(program: str, room: Path) -> Iterator[Server]:
    """Serve the source `papers` of a machine."""
    with Server(Path(program), room / "papers.disk") as server, mock.patch.object(machine, "SETTINGS_FOLDER", room):
        machine.Place("papers").settings.write_text(f"FILE={server.disk}\nPORT={server.port}\n")
        yield server


def test_a_name_stands_for_the_source(papers: Server, room: Path) -> None:
    """`fill` takes its address, `look` its file, and `health` both."""
    folder = written(room / "folder", {"a": b"1", "b": b"22"})
    status_of(here("fill", str(folder), "papers"), 0)
    status_of(here("look", "papers"), 0, f"{papers.disk}: a source at ", "resources: 2 of 50,000")
    status_of(here("health", "papers"), 0, f"OK: {papers.url}: ", "2 resources held of 50,000")
    papers.holds(folder)


def test_publish_publishes_what_changed(papers: Server, room: Path) -> None:
    """A dry run publishes nothing; without a change there is no publication."""
    status_of(here("fill", str(written(room / "folder", {"a": b"1"})), "papers", "--no-publish"), 0)
    for _ in range(2):
        status_of(here("publish", "papers", "--dry-run"), 0, "a publication of 1 resources is due; ")
    status_of(here("publish", "papers"), 0, "published 1 ")
    status_of(here("publish", papers.url), 0, "nothing changed since the publication of ")


def test_status_reports_every_source(papers: Server, room: Path) -> None:
    """The exit status is the worst one; settings of other units are no source."""
    status_of(here("status"), 0, "papers: OK: 0 changes kept of 50,000, 0 resources held of 50,000, ")
    machine.Place("fill-papers").settings.write_text("FOLDER=/srv\n")
    machine.Place("gone").settings.write_text(f"FILE={room}/gone.disk\nPORT=1\n")
    done = here("status")
    status_of(done, 2, "gone: CRITICAL: ", f"{room}/gone.disk can't be looked at", "papers: OK: ")
    assert done.stdout.count("\n") == 2, done.stdout
    results = json.loads(here("status", "--json").stdout)["results"]
    assert [(result["name"], result["health"]) for result in results] == [("gone", "CRITICAL"), ("papers", "OK")]
    assert results[1]["figures"]["resources_held"] == 0 and results[1]["source"] == papers.url, results


def test_a_machine_without_a_source_is_unknown(room: Path) -> None:
    """One line says so."""
    with mock.patch.object(machine, "SETTINGS_FOLDER", room):
        status_of(here("status"), 3, "ropepeach status: there is no source here: ")


def test_an_existing_file_precedes_the_source(papers: Server, room: Path) -> None:
    """A message says so."""
    (room / "papers").write_bytes(b"")
    status_of(here("look", "papers"), 5, "papers: the file of this name here, and not the source of this machine",
              "ropepeach look: papers: no source")


@pytest.mark.parametrize("name, status", [("others", 3), ("./papers", 3), ("Papers", 3)])
def test_other_words_are_paths(name: str, status: int, papers: Server) -> None:
    """A path has a slash or a dot, and other names are of no source."""
    status_of(here("look", name), status, f"{name}: can't be read: No such file")
