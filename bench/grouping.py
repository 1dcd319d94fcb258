"""Compare a group of 16 puts of 4 KiB with 16 single puts, as calls of an open source on a file.

No line is read, and no hexadecimal text. A small program in a folder of its own, which `rt run` proves and builds,
makes a source on a new file and times both in turn, with names and bodies made in advance. ROOM in the environment is
the folder for the file: /dev/shm shows the time without the disk's syncs.
"""
import os
import shutil
import statistics
import subprocess
import tempfile
from pathlib import Path

from rattle.crates import below, crates_of
from tests.program import ROOT

PROGRAM = """//! Times single puts, and groups of as many, on a source on a new file.
#![tactic(auto)]

use rs_file::{FileDisk, Unknown};
use rs_model::{Body, Item};
use rs_record::{MediaType, Name};
use rs_store::Source;
use rs_time::Moment;
use std::alloc::Global;
use std::env;
use std::time::Instant;

const ROUNDS: usize = 100;

const LETTERS: [u8; 16] = *b"abcdefghijklmnop";

fn item_of(alloc: Global, number: usize) -> anyhow::Result<Item> {
    let letters = [LETTERS[number % 16], LETTERS[number / 16 % 16]];
    let name = Name::new(alloc, &letters)?;
    let kind = MediaType::new(alloc, b"text/plain")?;
    let bytes: Vec<u8> = vec![in alloc; 7; 4096]?;
    let bytes = Body::new(bytes);
    Ok(Item::Put { name, kind, bytes })
}

fn items_from(alloc: Global, first: usize) -> anyhow::Result<Vec<Item>> {
    let mut items = Vec::new(alloc);
    for i in 0..16usize {
        items.push(item_of(alloc, first % 256 + i)?)?;
    }
    Ok(items)
}

fn put_alone(
    source: &mut Source<FileDisk<Unknown>>,
    items: &[Item],
    now: Moment,
) -> anyhow::Result<()> {
    for item in items {
        if let Item::Put { name, kind, bytes } = item {
            source.put(name, kind, bytes.bytes(), now)?;
        }
    }
    Ok(())
}

fn time_round(
    rt: &HostRuntime,
    source: &mut Source<FileDisk<Unknown>>,
    round: usize,
    now: Moment,
) -> anyhow::Result<()> {
    let items = items_from(rt.alloc(), round % 256 * 7)?;
    let start = Instant::now(rt)?;
    put_alone(source, &items, now)?;
    let alone = start.elapsed(rt)?;
    let items = items_from(rt.alloc(), round % 256 * 11)?;
    let start = Instant::now(rt)?;
    source.group(&items, now)?;
    let together = start.elapsed(rt)?;
    println!(rt; "{} {}", alone.as_micros(), together.as_micros())?;
    Ok(())
}

fn main(rt: HostRuntime) -> anyhow::Result<()> {
    let words: Vec<String> = env::args(&rt)?.collect(rt.alloc())?;
    let [_, file] = words.as_slice() else {
        return Ok(());
    };
    let disk = FileDisk::create(&rt, file, 16_777_216, Unknown)?;
    let Ok(mut source) = Source::format(rt.alloc(), disk, b"http://a", 1000, Moment::first()) else {
        return Err(anyhow::anyhow!("no source"));
    };
    for round in 0..ROUNDS {
        time_round(&rt, &mut source, round, Moment::first())?;
    }
    Ok(())
}
"""


def build(root: Path) -> Path:
    """Prove and build the program, and return its path. Without a file as its argument, it does nothing."""
    uses, needed = crates_of(ROOT), ("rs_store", "rs_file")
    names = [name for name in uses if name in {*needed, *(lower for name in needed for lower in below(uses, name))}]
    for name in names:
        shutil.copytree(ROOT / "crates" / name, root / "crates" / name,
                        ignore=shutil.ignore_patterns("out", "must-fail"))
    crate = root / "crates" / "grouping"
    (crate / "src").mkdir(parents=True)
    (crate / "src" / "main.rt").write_text(PROGRAM)
    lines = [f"{name}: {' '.join(uses[name])}\n" for name in names]
    (root / "crates.txt").write_text("".join([*lines, f"grouping: {' '.join(names)} anyhow\n"]))
    done = subprocess.run(["rt", "run"], cwd=crate, capture_output=True, text=True, input="")
    program = crate / "out" / "grouping"
    if not program.exists():
        raise SystemExit(done.stdout[-3000:] + done.stderr[-3000:])
    return program


def main() -> None:
    """Build the program, and print its figures."""
    with tempfile.TemporaryDirectory() as folder, tempfile.TemporaryDirectory(dir=os.environ.get("ROOM")) as room:
        program = build(Path(folder))
        done = subprocess.run([str(program), f"{room}/disk"], capture_output=True, text=True, check=True)
    rows = [tuple(map(int, line.split())) for line in done.stdout.splitlines()]
    alone, together = (statistics.median(column) / 1000 for column in zip(*rows))
    print(f"calls: 16 puts of 4 KiB {alone:.2f} ms, a group of 16 {together:.2f} ms: {together / alone:.2f} of it, "
          f"medians of {len(rows)}")


if __name__ == "__main__":
    main()
