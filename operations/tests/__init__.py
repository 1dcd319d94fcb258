"""Tests of the command, the site, the units and the packages against their pages (README.md)."""
import atexit
import importlib.util
import os
import pathlib
import shutil
import sys
import tempfile

# The Python that runs the tools: this one if it has their modules, else Debian's, whose packages are then added here.
PYTHON = sys.executable
if not all(map(importlib.util.find_spec, ["pycurl", "tqdm", "defusedxml"])):
    PYTHON = "/usr/bin/python3"
    sys.path.append("/usr/lib/python3/dist-packages")

# The package of the command. The top of the repository comes first, as both have a folder tests/.
sys.path[:0] = [str(pathlib.Path(__file__).resolve().parents[at]) for at in (2, 1)]

# The command keeps its state in a folder of the tests (a child process of a test uses its parent's).
if "ROPEPEACH_TESTS_STATE" not in os.environ:
    os.environ["ROPEPEACH_TESTS_STATE"] = os.environ["XDG_STATE_HOME"] = tempfile.mkdtemp(prefix="ropepeach-state-")
    atexit.register(shutil.rmtree, os.environ["XDG_STATE_HOME"], ignore_errors=True)
