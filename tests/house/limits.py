"""The limits of the program, as the code has them: the table of docs/GLOSSARY.md is made from it.

usage: python3 -m tests.house.limits --write     writes the table anew
"""

import re
import sys
from collections.abc import Mapping
from dataclasses import dataclass
from pathlib import Path

from tests.made import Made
from tests.program import ROOT

PAGE = ROOT / "docs" / "GLOSSARY.md"
MADE = Made("the code", "tests.house.limits")


@dataclass(frozen=True)
class Limit:
    """A limit: its description, the file of crates/ and the pattern with its figures, their factor and their format."""

    what: str
    file: str
    pattern: str
    times: int = 1
    words: str = "{:,}"

    def figures(self, root: Path = ROOT) -> str:
        """Return the figures in the format of the table."""
        found = re.search(self.pattern, (root / "crates" / self.file).read_text())
        if not found:
            raise ValueError(f"{self.file} does not tell: {self.what}")
        return self.words.format(*(int(figure.replace("_", "")) * self.times for figure in found.groups()))


LIMITS = [
    Limit("resources that a source holds", "rs_record/src/limits.rt", r"MOST_ITEMS: usize = (\S+);"),
    Limit("changes that it keeps", "rs_record/src/limits.rt", r"MOST_ITEMS: usize = (\S+);"),
    Limit("items of a list document: the item limit", "rs_directory/src/limit.rt",
          r"if (\d+) <= items && items <= (\d+)", words="{:,} to {:,}"),
    Limit("commands of a group", "rs_model/src/command.rt", r"MOST_GROUPED: usize = (\d+);", words="1 to {:,}"),
    Limit("bytes of a body", "rs_record/src/limits.rt", r"LONGEST_BODY: u32 = (\S+);"),
    Limit("bytes of a name", "rs_record/src/name.rt", r"len\(\) <= (\d+)", words="1 to {:,}"),
    Limit("bytes of a media type", "rs_record/src/media_type.rt", r"(\d+) <= .*\s+&& bytes.len\(\) <= (\d+)",
          words="{:,} to {:,}"),
    Limit("bytes of a base", "rs_record/src/base.rt", r"(\d+) <= .*\s+&& bytes.len\(\) <= (\d+)",
          words="{:,} to {:,}"),
    Limit("bytes of a block", "rs_extent/src/lib.rt", r"BLOCK_SIZE: usize = (\d+);"),
    Limit("blocks that a disk uses", "rs_image/src/used.rt", r"MOST_BLOCKS: u64 = (\S+);"),
    Limit("bytes that a disk uses", "rs_image/src/used.rt", r"MOST_BLOCKS: u64 = (\S+);", times=512),
    Limit("records of a touched page before it is cut", "rs_pages/src/making.rt", r"MOST: usize = (\d+);"),
    Limit("records of a page that was cut off", "rs_pages/src/making.rt", r"CUT: usize = (\d+);"),
    Limit("bytes of the head of a request", "rs_http/src/head.rt", r"HEAD_LIMIT: usize = (\d+);"),
    Limit("bytes of a line of a script", "rs_script/src/line.rt", r"LINE_LIMIT: usize = (\S+);"),
    Limit("bytes of a piece of a body that is received", "rs_store/src/receiving.rt", r"PIECE_SIZE: usize = (\d+);"),
    Limit("connections that are served", "rs_source/src/command.rt", r"MOST_CONNECTIONS: u64 = (\S+);",
          words="1 to {:,}"),
]


def drawn(figures: Mapping[Limit, str]) -> str:
    """Return the table of the page."""
    rows = [f"| {limit.what} | {figures[limit]} | `crates/{limit.file}` |" for limit in LIMITS]
    return "\n".join(["| limit | figure | where the code has it |", "|---|---|---|", *rows])


if __name__ == "__main__":
    if sys.argv[1:] != ["--write"]:
        sys.exit(__doc__)
    PAGE.write_text(MADE.with_part(PAGE.read_text(), drawn({limit: limit.figures() for limit in LIMITS})))
