"""Mirror a source of this process in this process."""
from __future__ import annotations

import pathlib
from collections.abc import Iterable, Iterator
from typing import Any

from ropepeach.http.limits import Limits
from ropepeach.http.transfers import Transfers
from ropepeach.mirror.aims import StrictAims
from ropepeach.mirror.catalogue import Catalogue
from ropepeach.mirror.engine import Engine
from ropepeach.mirror.events import Events
from ropepeach.mirror.folder import Folder
from ropepeach.resync.lists import Source


class Asked(Transfers):
    """Transfers from a source of this process, answered by its `ask`."""

    def __init__(self, source: Any) -> None:
        self.source = source

    def each(self, transfers: Iterable[Any]) -> Iterator[tuple[Any, Any]]:
        """Fetch bodies; yield each transfer with its response."""
        for transfer in transfers:
            answer = self.source.ask("GET", transfer.url.removeprefix(self.source.address), limit=transfer.limit)
            if answer.status == 200:
                transfer.begin(answer)
                transfer.take(answer.body)
            yield transfer, answer


def engine_of(source: Any, path: pathlib.Path) -> Engine:
    """Return an engine that mirrors a source of this process into an open folder."""
    folder = Folder(str(path))
    folder.claim(source.address, False)
    aims = StrictAims(Source(source, is_at_base=True), folder)
    events = Events(folder, source.address, None)
    return Engine(aims, folder, Catalogue(folder), Asked(source), Limits(), events, source.address)
