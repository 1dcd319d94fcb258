"""Test that the picture of docs/ARCHITECTURE.md agrees with crates.txt, and the citations of proofs between crates:
only `proofs/FromBelow.antt` of a crate cites another crate's proofs, and only from their `proofs/ForCallers.antt`.
"""

import re

from rattle.crates import crates_of
from tests.house import layers
from tests.program import ROOT

# A citation of a crate's proofs, and their file: `Rattle.rs_disk.proofs.Images`.
CITATION = re.compile(r"\bRattle\.(rs_\w+)\.proofs\.(\w+)")


def strays(crate: str, place: str, text: str) -> list[str]:
    """Return forbidden citations of proofs in a file of a crate: any in src/ and specs/, another crate's in proofs/."""
    found = [citation for citation in CITATION.finditer(text)
             if citation[1] != crate or not place.startswith("proofs/")]
    is_taken = place == "proofs/FromBelow.antt"
    return [citation[0] for citation in found if not (is_taken and citation[2] == "ForCallers")]


def test_the_picture_is_that_of_the_crates() -> None:
    page, uses = layers.PAGE.read_text(), crates_of(ROOT)
    assert layers.with_picture(page, uses) == page, "python3 -m tests.house.layers --write"
    assert "NO DESCRIPTION" not in page
    for other in (page.replace(" 12  rs_source", " 11  rs_source"), page.replace("rs_http rs_script", "rs_http")):
        assert layers.with_picture(other, uses) == page
    assert "NO DESCRIPTION" in layers.with_picture(page, {**uses, "rs_new": ["rs_io"]})


def test_what_stands_below_another_one_is_left_out() -> None:
    uses = {"rs_a": ["std"], "rs_b": ["rs_a"], "rs_c": ["rs_a", "rs_b"]}
    assert layers.layers(uses) == {"rs_a": (1, []), "rs_b": (2, ["rs_a"]), "rs_c": (3, ["rs_b"])}


def test_proofs_are_cited_by_their_interface() -> None:
    crates = ROOT / "crates"
    files = [file for kind in ("*.rt", "*.antt") for file in sorted(crates.rglob(kind)) if "out" not in file.parts]
    found = {}
    for file in files:
        crate, _, place = file.relative_to(crates).as_posix().partition("/")
        found[f"{crate}/{place}"] = strays(crate, place, file.read_text())
    assert {place: names for place, names in found.items() if names} == {}


def test_a_stray_citation_is_found() -> None:
    lemma, offered = "use Rattle.rs_a.proofs.Images.{settled}", "pub use Rattle.rs_a.proofs.ForCallers.{settled}"
    assert strays("rs_b", "proofs/Pages.antt", lemma) == ["Rattle.rs_a.proofs.Images"]
    assert strays("rs_b", "proofs/FromBelow.antt", lemma) == ["Rattle.rs_a.proofs.Images"]
    assert strays("rs_b", "proofs/Pages.antt", offered) == ["Rattle.rs_a.proofs.ForCallers"]
    assert strays("rs_b", "proofs/FromBelow.antt", offered) == []
    assert strays("rs_a", "proofs/Pages.antt", lemma) == []
    assert strays("rs_a", "specs/Pages.antt", lemma) == ["Rattle.rs_a.proofs.Images"]
