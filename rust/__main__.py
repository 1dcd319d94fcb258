"""Write the sources as plain Rust: `make rust`.

usage: python3 -m rust [--to FOLDER]
Write the Cargo workspace `ropepeach-plain-VERSION` and its tarball into FOLDER (default: out/rust), and replace earlier
ones. The exit status is 1, with a message, if a source has a form that the eraser does not know, or a file is missing.
"""
import argparse
import gzip
import io
import shutil
import sys
import tarfile
import tempfile
from pathlib import Path

from rust.crates import ROOT, VERSION, Missing
from rust.edits import Refused
from rust.workspace import write

NAME = f"ropepeach-plain-{VERSION}"


def packed(folder: Path, tarball: Path) -> None:
    """Pack a folder into a tarball. The same files give the same bytes."""
    def settled(member: tarfile.TarInfo) -> tarfile.TarInfo:
        member.uid = member.gid = member.mtime = 0
        member.uname = member.gname = ""
        member.mode = 0o755 if member.isdir() else 0o644
        return member

    with io.BytesIO() as room:
        with tarfile.open(mode="w", fileobj=room, format=tarfile.PAX_FORMAT) as archive:
            for path in [folder, *sorted(folder.rglob("*"))]:
                archive.add(path, str(path.relative_to(folder.parent)), recursive=False, filter=settled)
        tarball.write_bytes(gzip.compress(room.getvalue(), 9, mtime=0))


def run(to: Path) -> int | str:
    """Write the workspace and its tarball into a folder, and print their paths."""
    try:
        to.mkdir(parents=True, exist_ok=True)
        with tempfile.TemporaryDirectory(prefix=".rust-", dir=to) as room:
            summary = write(Path(room) / NAME)
            packed(Path(room) / NAME, Path(room) / f"{NAME}.tar.gz")
            for name in (NAME, f"{NAME}.tar.gz"):
                put(Path(room) / name, to / name)
    except (Missing, Refused, OSError, UnicodeDecodeError) as why:
        return f"rust: {why}"
    print(f"rust: {summary}; every source can be restored to the byte\n{to / NAME}\n{to / NAME}.tar.gz", flush=True)
    return 0


def put(made: Path, target: Path) -> None:
    """Move a file or a folder to its place. Keep the build folder of an earlier workspace."""
    if target.is_dir():
        if (target / "target").is_dir():
            (target / "target").rename(made / "target")
        shutil.rmtree(target)
    made.rename(target)


def main() -> int | str:
    """Write the workspace and the tarball to the folder on the command line."""
    words = argparse.ArgumentParser(prog="rust", description=__doc__.partition("\n")[0])
    words.add_argument("--to", type=Path, default=ROOT / "out/rust", metavar="FOLDER")
    return run(words.parse_args().to)


if __name__ == "__main__":
    sys.exit(main())
