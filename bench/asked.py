"""The program on a file, queried line by line or served, and the time of an answer."""
import re
import subprocess
import time
from pathlib import Path

from tests.program import PROGRAM

MIB = 1 << 20


class Asked:
    """A program on a file, queried line by line."""

    def __init__(self, program: str | Path, file: str | Path) -> None:
        began = time.perf_counter()
        self.process = subprocess.Popen([program, "run", file], stdin=subprocess.PIPE, stdout=subprocess.PIPE)
        self.first = self.ask("status")
        self.opened = time.perf_counter() - began

    def ask(self, line: str) -> str:
        """Return the answer to a line."""
        assert self.process.stdin and self.process.stdout
        self.process.stdin.write(line.encode() + b"\n")
        self.process.stdin.flush()
        return self.process.stdout.readline().decode()

    def resident(self) -> int:
        """Return its current private memory in bytes."""
        status = Path(f"/proc/{self.process.pid}/status").read_text()
        return int(re.findall(r"VmRSS:\s+(\d+)", status)[0]) * 1024

    def end(self) -> None:
        """End the program, which must exit with status 0."""
        assert self.process.stdin
        self.process.stdin.close()
        if self.process.wait():
            raise SystemExit(f"the program ended with status {self.process.returncode}")


def timed(ours: Asked, line: str, wanted: str | tuple[str, ...]) -> float:
    """Return the seconds from a line to its answer, which must begin with `wanted`."""
    began = time.perf_counter()
    answer = ours.ask(line)
    if not answer.startswith(wanted):
        raise SystemExit(f"{line[:40]}: {answer}")
    return time.perf_counter() - began


def serve(file: str | Path, count: int) -> tuple[subprocess.Popen[str], int]:
    """Serve `count` connections on a file; return the process and its port."""
    server = subprocess.Popen([str(PROGRAM), "serve", file, "0", str(count)], stdout=subprocess.PIPE, text=True)
    assert server.stdout
    return server, int(server.stdout.readline().rsplit(":", 1)[1])
