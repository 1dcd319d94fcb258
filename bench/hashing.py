"""Time a small program, proved and built by `rt run`, that hashes 16 MiB in several ways."""
import pathlib
import shutil
import subprocess
import tempfile
import time

from tests.program import ROOT

PROGRAM = """//! Hashes 16 MiB of zeros eight times: both digests in pieces, both of the whole, or SHA-256 of the whole.
#![tactic(auto)]

use md5::{Digest as _, Md5};
use rs_fixity::Hashing;
use sha2::{Digest as _, Sha256};
use std::alloc::{AllocError, Global};
use std::io;
use std::{env, rt::Env};

fn zeros(alloc: Global) -> Result<Vec<u8>, AllocError> {
    vec![in alloc; 0u8; 16_777_216]
}

fn in_pieces(bytes: &[u8]) -> u8 {
    let mut hashing = Hashing::new();
    for piece in bytes.chunks(4096) {
        hashing.add(piece);
    }
    hashing.done().md5[0]
}

fn whole(bytes: &[u8]) -> u8 {
    Md5::digest(bytes)[0] ^ Sha256::digest(bytes)[0]
}

fn number_of_words<R: Env + AllocGlobal>(rt: &R) -> io::Result<usize> {
    Ok(env::args(rt)?.count())
}

fn main(rt: HostRuntime) -> io::Result<()> {
    let words = number_of_words(&rt)?;
    let bytes = zeros(rt.alloc())?;
    let mut seen = 0u8;
    for _ in 0..8 {
        let one = match words {
            1 => whole(bytes.as_slice()),
            2 => in_pieces(bytes.as_slice()),
            _ => Sha256::digest(bytes.as_slice())[0],
        };
        seen = seen ^ one;
    }
    println!(rt; "{seen}")
}
"""


def timed(command: list[str]) -> float:
    """Return the seconds of a command."""
    start = time.perf_counter()
    subprocess.run(command, stdout=subprocess.DEVNULL, check=True)
    return time.perf_counter() - start


def built(folder: str) -> str:
    """Prove and build the program in this folder, and return its path."""
    root = pathlib.Path(folder)
    shutil.copytree(ROOT / "crates" / "rs_fixity", root / "crates" / "rs_fixity")
    crate = root / "crates" / "hashing"
    (crate / "src").mkdir(parents=True)
    (crate / "src" / "main.rt").write_text(PROGRAM)
    lines = [l for l in (ROOT / "crates.txt").read_text().split("\n") if l.startswith("rs_fixity")]
    (root / "crates.txt").write_text("\n".join(lines + ["hashing: rs_fixity md5 sha2"]) + "\n")
    subprocess.run(["rt", "run"], cwd=crate, stdout=subprocess.DEVNULL, stderr=subprocess.DEVNULL, check=True)
    return str(crate / "out" / "hashing")


def once(program: str, *words: str) -> float:
    """Return the seconds for 16 MiB: digests in pieces (`pieces`), whole (no word), or SHA-256 (`sha256`, `alone`)."""
    return timed([program, *words]) / 8


def seconds() -> list[float]:
    """Return the least of five times for each of the three."""
    with tempfile.TemporaryDirectory() as folder:
        program = built(folder)
        ways: list[list[str]] = [["pieces"], [], ["sha256", "alone"]]
        return [min(once(program, *words) for _ in range(5)) for words in ways]
