"""Check that the repository has exactly the two expected proofs by hand.

A proof by hand lies in a file `Proof.antt`. The two expected ones make and extend the record of the calls on a file
(crate rs_file), which no memory holds. Another proof by hand over a value with this record could set it to anything,
which would make every promise over a file empty; therefore a reader has to read every one of them. The search covers
the whole repository except the folders `out` of its crates, which the prover makes.
"""
import os
import pathlib
from collections.abc import Iterator

ROOT = pathlib.Path(__file__).resolve().parents[2]
NAME = "proof.antt"
EXPECTED = {
    "crates/rs_file/proofs/record/Record/new/Proof.antt",
    "crates/rs_file/proofs/record/Record/note/Proof.antt",
}


def hand_proofs() -> Iterator[str]:
    """Yield the paths of the proofs by hand, relative to the top of the repository."""
    for folder, folders, files in os.walk(ROOT):
        here = pathlib.Path(folder)
        is_crate = here.parent == ROOT / "crates"
        folders[:] = [name for name in folders if name != ".git" and not (is_crate and name == "out")]
        yield from ((here / name).relative_to(ROOT).as_posix() for name in files if name.lower() == NAME)


def test_the_expected_proofs_by_hand_are_the_only_ones() -> None:
    assert set(hand_proofs()) == EXPECTED
