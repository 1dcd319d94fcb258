"""Test of the tour of examples/: tour.sh prints the text of tour.expected."""
import os
import re
import subprocess

import pytest

from tests.program import ROOT

TOUR, EXPECTED = (ROOT / "examples" / name for name in ("tour.sh", "tour.expected"))


def without_moments(text: str) -> str:
    """Return a text with its moments and dates, which depend on the clock, replaced by T."""
    text = re.sub(r"\d{4}-\d\d-\d\dT\d\d:\d\d:\d\d\.\d{3}Z", "T", text)
    return re.sub(r"(?m)^Date: .*?\r?$", "Date: T", text.replace("\r\n", "\n"))


@pytest.mark.needs("curl")
def test_curl_gets_the_answers_of_the_tour(program: str) -> None:
    """The output equals tour.expected. WRITE=1 overwrites that file, to be read before it is kept."""
    finished = subprocess.run(["bash", str(TOUR), program], capture_output=True, text=True, timeout=120)
    found = without_moments(finished.stdout)
    if os.environ.get("WRITE"):
        EXPECTED.write_text(found)
    assert (finished.returncode, found) == (0, EXPECTED.read_text()), finished.stderr
