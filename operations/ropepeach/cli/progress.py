"""The progress of a run: a bar of tqdm on a terminal, and no output elsewhere."""
from __future__ import annotations

import os
import sys
from typing import Any

from ropepeach.cli import output

# The cost of an item in addition to its bytes, in bytes, for the share and the time left.
ITEM_COST = 16_384
# The columns of a terminal that has no width: there tqdm would show another line, which counts no bytes.
COLUMNS = 80
FORMAT = "{desc} {percentage:3.0f}% |{bar}| {remaining} left{postfix}"


def bar_of(what: str, total: int) -> Any:
    """Return a bar of tqdm, or None with --quiet or without a terminal."""
    if output.current.is_quiet or not sys.stderr.isatty():
        return None
    from tqdm import tqdm

    # (without the thread that refreshes idle bars)
    tqdm.monitor_interval = 0
    is_wide = os.get_terminal_size(sys.stderr.fileno()).columns > 0
    return tqdm(total=total, desc=what, bar_format=FORMAT, leave=False, file=sys.stderr, dynamic_ncols=is_wide,
                ncols=None if is_wide else COLUMNS)


class Progress:
    """The progress bar of items with their bytes: share, rate and time left. The `with` block closes it."""

    def __init__(self, what: str, count: int, size: int = 0) -> None:
        self.count, self.done, self.size = count, 0, 0
        self.bar = bar_of(what, max(1, size + ITEM_COST * count))

    def __enter__(self) -> Progress:
        return self

    def __exit__(self, *fault: object) -> None:
        if self.bar is not None:
            self.bar.refresh()
            self.bar.close()

    def add(self, count: int = 1, size: int = 0) -> None:
        """Count completed items, and their bytes."""
        self.done, self.size = self.done + count, self.size + size
        if self.bar is not None:
            rate = self.size / max(self.bar.format_dict["elapsed"], 0.001)
            text = f"{self.done:,} of {self.count:,}, {self.bar.format_sizeof(rate, 'B/s', 1024)}"
            self.bar.set_postfix_str(text, refresh=False)
            self.bar.update(ITEM_COST * count + size)
