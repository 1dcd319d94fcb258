"""Tables as text files: a line a row; empty lines and lines that begin with `#` are no rows."""


def lines(text: str) -> list[str]:
    """Return the rows of a table."""
    return [line for line in text.splitlines() if line.strip() and not line.startswith("#")]
