"""The command `ropepeach`, which fills, mirrors and administers sources."""

# Equal to the file VERSION (operations/tests/tools/test_line.py compares them).
__version__ = "0.1.0"
