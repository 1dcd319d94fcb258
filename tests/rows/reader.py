"""Read the worked rows: their paths, the commands of a session, and the exchanges of HTTP.

README.md describes their form.
"""
import re
import shlex
from collections.abc import Iterator
from pathlib import Path

ROWS = Path(__file__).resolve().parent
ENDS = {b" ": b"\r\n", b"+": b"\n", b"-": b""}


def written_out(text: bytes) -> bytes:
    """Return a line with `{0xHEX}` replaced by bytes, and `{N text}` by N copies of the text."""
    text = re.sub(rb"\{0x([0-9a-f]+)\}", lambda match: bytes.fromhex(match[1].decode()), text)
    return re.sub(rb"\{(\d+) ([^{}]+)\}", lambda match: match[2] * int(match[1]), text)


def steps_of(text: bytes) -> list[tuple[list[str], bytes, bytes]]:
    """Return the steps of a session: the arguments of a command, its input, and its expected output."""
    steps: list[tuple[list[str], list[bytes], list[bytes]]] = []
    # An empty line before a command or a remark, or at the end, has no meaning.
    for line in re.sub(rb"(?m)^\n(?=[$#]|\Z)", b"", text).splitlines(keepends=True):
        if line.startswith(b"$ "):
            steps.append((shlex.split(written_out(line[2:]).decode(errors="surrogateescape")), [], []))
        elif line.startswith(b"<- "):
            steps[-1][1].append(written_out(line[3:].rstrip(b"\n")))
        elif line.startswith((b"< ", b"<\n")):
            steps[-1][1].append(written_out(line[2:] or b"\n"))
        elif steps and not line.startswith(b"#"):
            steps[-1][2].append(written_out(line))
    return [(words, b"".join(script), b"".join(wanted)) for words, script, wanted in steps]


def exchanges_of(text: bytes) -> list[tuple[bytes, bytes]]:
    """Return the exchanges of an HTTP row: pairs of request and response bytes."""
    exchanges, mark = list[list[bytes]](), b""
    for line in text.splitlines():
        if not line or line.startswith(b"#"):
            mark = b""
            continue
        if line[:1] == b">" and mark != b">":
            exchanges.append([b"", b""])
        mark = line[:1]
        end = ENDS[line[1:2] or b" "]
        text = line[3:] if line[1:2] in (b"+", b"-") else line[2:]
        exchanges[-1][(b">", b"<").index(mark)] += written_out(text) + end
    return [(sent, wanted) for sent, wanted in exchanges]


def disk_rows() -> Iterator[tuple[list[str], str]]:
    """Yield the arguments of every disk in the rows and the right answer, without the slow disks."""
    for row in sorted(ROWS.glob("*.disks")):
        for line in row.read_text().splitlines():
            words = written_out(line.encode()).decode().split()
            if words and not line.startswith("#") and not re.search(r"^\d|size=\d{8}", line):
                yield words[:-1], words[-1]
