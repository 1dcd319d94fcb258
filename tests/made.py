"""Generated parts of pages, between a line that names their source and their generator, and an end line."""

from dataclasses import dataclass

END = "<!-- end of what is made -->"


class NoPart(ValueError):
    """A page has no place for a generated part."""


@dataclass(frozen=True)
class Made:
    """A generated part: the texts that it is made from, and the module that makes it."""

    source: str
    module: str

    @property
    def begin(self) -> str:
        """Return the line before the part."""
        return f"<!-- made from {self.source}: python3 -m {self.module} --write -->\n"

    def part_of(self, page: str) -> str:
        """Return the current part of the page."""
        before, begin, rest = page.partition(self.begin)
        part, end, after = rest.partition(END)
        if not begin or not end:
            raise NoPart(f"the page has no place for what is made from {self.source}")
        return part

    def with_part(self, page: str, text: str) -> str:
        """Return the page with this text as the part."""
        return page.replace(self.begin + self.part_of(page) + END, f"{self.begin}{text}\n{END}")
