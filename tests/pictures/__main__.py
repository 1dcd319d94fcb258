"""Draw the pictures of disks in docs/ again: python3 -m tests.pictures --draw (`make pictures`)."""

import sys

from tests.pictures.of_docs import ALBUM

sys.exit(ALBUM.main())
