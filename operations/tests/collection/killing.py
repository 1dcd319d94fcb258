"""Kill sources during a run over a collection, and restart them after a second."""
from __future__ import annotations

import contextlib
import functools
import os
import threading
from collections.abc import Iterable, Iterator

from operations.tests.collection.host import Host
from tests.threads import beside

# Seconds before a killed source restarts, and seconds between two polls.
AWAY, LOOK = 1.0, 0.01
# Log lines that show that a mirror reads a source. A change shows in the source's file.
READ = "GET /{}/changelist"


class Log:
    """The lines that nginx appends to its log from now on."""

    def __init__(self, path: str) -> None:
        self.path, self.at, self.last = path, os.path.getsize(path), ""

    def has(self, words: str) -> bool:
        """Return whether the log has the words since the last call, including across its end."""
        with open(self.path, "rb") as file:
            file.seek(self.at)
            text = self.last + file.read().decode("utf-8", "replace")
            self.at, self.last = file.tell(), text[-len(words):]
        return words in text


@contextlib.contextmanager
def killing(host: Host, victims: Iterable[str], kind: str) -> Iterator[list[str]]:
    """Kill these sources once a run works with them. Yield the list of those killed before the block ended."""
    ended, killed = threading.Event(), list[str]()
    before = {name: host.sources[name].disk.stat().st_mtime_ns for name in victims}
    logs = {name: Log("access.log") for name in victims}

    def is_at_work(name: str) -> bool:
        if kind == "mirror":
            return logs[name].has(READ.format(name))
        return host.sources[name].disk.stat().st_mtime_ns != before[name]

    def kill(name: str) -> None:
        while not is_at_work(name):
            if ended.wait(LOOK):
                return
        host.away(name, AWAY)
        killed.append(name)

    with beside(*(functools.partial(kill, victim) for victim in victims), ending=ended.set):
        yield killed
