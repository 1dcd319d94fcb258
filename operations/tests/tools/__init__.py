"""Tests of the command `ropepeach`, run as users do, with the proved program and lying sources (tests/README.md)."""
from operations.tests import PYTHON
from tests.program import TOOLS

COMMAND = [PYTHON, str(TOOLS / "ropepeach-command")]
