"""Calls in parallel with a block of a test; their faults are raised after the block."""

import contextlib
from collections.abc import Callable, Iterator
from concurrent.futures import Future, ThreadPoolExecutor


@contextlib.contextmanager
def beside(*calls: Callable[[], object], ending: Callable[[], object] = lambda: None) -> Iterator[list[Future[object]]]:
    """Run calls in threads while the block runs; after the block, `ending` asks them to end, and all are joined.

    A fault of the block is raised; otherwise the first fault of a call is.
    """
    with ThreadPoolExecutor(len(calls)) as pool:
        running = [pool.submit(call) for call in calls]
        try:
            yield running
        finally:
            ending()
    for each in running:
        each.result()
