"""Draw the pictures of docs/pictures: `python3 -m operations.tests.page --pictures`."""
import os
import sys

from operations.tests.page import pictures
from tests.program import PROGRAM

if __name__ == "__main__":
    os.environ["PATH"] += ":/usr/sbin:/sbin"
    sys.exit(pictures.draw(str(PROGRAM)))
