"""Send random commands to a program on a machine, and compare its file with the acknowledged ones.

The commands come from a seed. The model of tests/reading gives every response and document to the byte.
"""
import os
import select
import subprocess
import time

from operations.tests.replicas.machines import Ended, Stuck, kill
from tests.program import Differs, compare
from tests.reading.crash_model import State, documents

BASE, LIMIT, SIZE = "https://s.example.org", 100, 2 << 20
NAMES = [f"n{number}" for number in range(24)]
LENGTHS = [0, 1, 511, 512, 700, 4_096, 8_999]
KIND = "text/plain"
# First words of an acknowledgement.
ACKNOWLEDGED = (b"created", b"updated", b"deleted", b"published", b"grouped")
NOT_OPEN = (b"rs_source: Device\n",)
# A pattern for the command line of a program that has a file open.
RUNS = r"^\S*rs_source .*\brun "


def put_line(draw):
    """Return a command that puts a body of random length."""
    length = draw.choice([*LENGTHS, draw.randrange(9_000)])
    return f"put {draw.choice(NAMES)} {draw.randbytes(length).hex() or '-'} {KIND}"


def drawn_line(draw, state):
    """Return a random command, as lines of a script."""
    share = draw.random()
    if share < 0.72:
        return put_line(draw)
    if share < 0.82 and state.held:
        return f"delete {draw.choice(sorted(state.held))}"
    if share < 0.92:
        return "publish"
    count = draw.randrange(2, 6)
    return "\n".join([f"group {count}", *(put_line(draw) for _ in range(count))])


class Program:
    """`rs_source run FILE` on a machine, driven through its pipes. Every response has a timeout."""

    def __init__(self, machine, program, file):
        self.process = machine.started(program, "run", file, stdin=subprocess.PIPE, stdout=subprocess.PIPE,
                                       stderr=subprocess.PIPE, bufsize=0)
        self.rest = b""
        os.set_blocking(self.process.stdout.fileno(), False)

    def read(self, is_whole, seconds):
        """Read until the input is complete."""
        end = time.monotonic() + seconds
        while not is_whole():
            is_there, _, _ = select.select([self.process.stdout], [], [], max(0, end - time.monotonic()))
            if not is_there:
                raise Stuck(f"no answer within {seconds} s")
            piece = self.process.stdout.read(65_536)
            if not piece:
                raise Ended("the program has ended")
            self.rest += piece

    def ask(self, line, seconds=100):
        """Send a line; return the first line of the response."""
        try:
            self.process.stdin.write(line.encode() + b"\n")
        except OSError:
            raise Ended("the program takes no line") from None
        self.read(lambda: b"\n" in self.rest, seconds)
        answer, _, self.rest = self.rest.partition(b"\n")
        return answer

    def shown(self, path, seconds=100):
        """Return the document or body that `show` prints for a path, or its refusal."""
        answer = self.ask(f"show {path}", seconds)
        if not answer.startswith(b"bytes "):
            return answer
        length = int(answer.split()[1])
        self.read(lambda: len(self.rest) > length, seconds)
        body, self.rest = self.rest[:length], self.rest[length + 1:]
        return body

    def close(self, seconds=100):
        """Close the program's input, wait for its end, and return its messages."""
        self.process.stdin.close()
        try:
            self.process.wait(seconds)
        except subprocess.TimeoutExpired:
            raise Stuck(f"the program does not end within {seconds} s") from None
        messages = self.process.stderr.read()
        self.drop()
        return messages

    def drop(self):
        """Kill the program. (If it hangs in the kernel, it ends with its machine.)"""
        kill(self.process)
        try:
            self.process.wait(5)
        except subprocess.TimeoutExpired:
            return
        for pipe in (self.process.stdin, self.process.stdout, self.process.stderr):
            pipe.close()


class Source:
    """The acknowledged state of a source, and the command without a response."""

    def __init__(self, draw):
        self.draw, self.state, self.pending, self.acknowledged, self.stood = draw, State(BASE, LIMIT), None, 0, 0
        self.seconds, self.heard = [], None

    def feed(self, program, count, seconds=100):
        """Send commands until this many or the first that is not acknowledged. Return whether all were acknowledged."""
        for _ in range(count):
            line = drawn_line(self.draw, self.state)
            answer, then = self.state.after(line, 0)
            if then is None:
                continue
            self.pending, began = then, time.monotonic()
            try:
                self.heard = program.ask(line, seconds)
            except (Ended, Stuck) as fault:
                self.heard = str(fault).encode()
            if not self.heard.startswith(ACKNOWLEDGED):
                return False
            self.state, self.pending, self.acknowledged = then, None, self.acknowledged + 1
            self.seconds.append(time.monotonic() - began)
            compare("an answer", answer.encode(), self.heard)
        return True

    def small(self, program):
        """Send two commands that leave room on the smallest disk."""
        for line in (f"put {NAMES[self.acknowledged % 5]} {self.draw.randbytes(8).hex()} {KIND}", "publish"):
            answer, self.state = self.state.after(line, 0)
            compare("an answer", answer.encode(), program.ask(line))
            self.acknowledged += 1

    def settle(self, program):
        """Compare the whole source with the acknowledged commands, to the byte. The command without a response may or
        may not have been applied.
        """
        found = program.ask("status") + b"\n"
        if self.pending and found == self.pending.status():
            self.state, self.stood = self.pending, self.stood + 1
        self.pending = None
        compare("status", self.state.status(), found)
        self.compare_whole(program)

    def compare_whole(self, program):
        """Compare all documents and resources that a program shows, and run `verify`."""
        for path, text in documents(self.state).items():
            compare(path, text if isinstance(text, bytes) else text.encode(), program.shown(path))
        for name in NAMES:
            wanted = self.state.held[name][0] if name in self.state.held else b"refused NotHeld"
            compare(name, wanted, program.shown(f"/resource/{name}"))
        found = program.ask("verify")
        if not found.startswith(b"verified"):
            raise Differs(f"verify: {found!r}")


def formatted(machine, program, file):
    """Make a new source on a machine."""
    machine.done("rm", "-f", file)
    machine.done(program, "format", file, SIZE, BASE, LIMIT)


def opened(machine, program, file, seconds=100):
    """Open a source; retry while it is refused as `Device`. Return the program, and the seconds until it was open."""
    began = time.monotonic()
    while True:
        running = Program(machine, program, file)
        try:
            if running.ask("status", seconds).startswith(b"resources"):
                # (the caller requests the status again, and compares it)
                return running, time.monotonic() - began
            messages = b"no status"
        except Ended:
            messages = running.close()
        except Stuck as stuck:
            running.drop()
            raise Stuck(f"opening {file} on {machine.name}: {stuck}") from None
        if messages not in NOT_OPEN:
            raise Differs(f"opening {file} on {machine.name}: {messages!r}")
        if time.monotonic() - began > seconds:
            raise Stuck(f"{file} is not open on {machine.name} within {seconds} s: {messages!r}")
        time.sleep(0.3)
