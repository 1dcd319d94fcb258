"""Read the commands of operations/docs/OPERATING.md."""
import re

from tests.program import ROOT


def commands(heading: str, words: str) -> str:
    """Return the only block of commands below a heading with these words."""
    page = (ROOT / "operations/docs/OPERATING.md").read_text()
    section = re.search(rf"(?ms)^##+ {re.escape(heading)}\n(.*?)(?=^##+ |\Z)", page)
    blocks = [re.sub(r"(?m)^ +", "", block) for block in re.findall(r"(?ms)^ *```\n(.*?)^ *```",
                                                                    section[1])] if section else []
    found = [block for block in blocks if words in block]
    if len(found) != 1:
        raise LookupError(f"operations/docs/OPERATING.md, {heading!r}: {len(found)} blocks with {words!r}")
    return found[0]
