"""Print the records of a mirror's files."""
from __future__ import annotations

import argparse

from ropepeach.cli import output
from ropepeach.faults import Unusable
from ropepeach.mirror.catalogue import records_in
from ropepeach.mirror.contents import ASIDE
from ropepeach.mirror.state import State, state_in
from ropepeach.mirror.tree import tree_at
from ropepeach.mirror.whole import COLLECTION_FILE
from ropepeach.resync.addresses import source_at
from ropepeach.resync.lists import DESCRIPTION_PATH


def run(arguments: argparse.Namespace) -> int:
    """Print path, address, moment, length, SHA-256 and media type of all files, a line each; return the exit status."""
    path = arguments.folder or arguments.url
    with tree_at(path) as tree:
        state = state_in(tree)
        if arguments.folder and state is not None:
            check_source(path, arguments.url, state)
        if tree.is_there(COLLECTION_FILE):
            raise Unusable(f"{path}: is a mirror of a collection: list one of the folders in it")
        known = records_in(tree)
        for row in known.rows():
            # (the address of a resource of a Ropepeach follows from its name)
            address = row.address or ("" if state is None else f"{state.source}/resource/{row.place}")
            facts = {"path": row.place + ASIDE if tree.is_folder(row.place) else row.place, "address": address,
                     "moment": row.modified, "length": row.length, "sha256": row.sha256.hex(), "type": row.kind}
            # (a hyphen is an unknown value)
            output.results([" ".join(str(value) or "-" for value in facts.values())], facts)
        known.close()
    return 0


def check_source(path: str, url: str, state: State) -> None:
    """Refuse the folder of another source."""
    source = str(source_at(url)) if state.is_any else url.rstrip("/").removesuffix(DESCRIPTION_PATH)
    if state.source != source:
        raise Unusable(f"{path}: is a mirror of {state.source}")
