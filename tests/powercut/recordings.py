"""The commands of a program on a logged device, and the places of the log where they began and were acknowledged."""
import contextlib
import http.client
import os
import random
import subprocess
from pathlib import Path

from tests.powercut.histories import History
from tests.powercut.machine import SECONDS, Device
from tests.program import Differs
from tests.reading.crash_model import State

# A method, a path, a body, a type, and the equivalent line of a script.
Request = tuple[str, str, bytes | None, str | None, str]
BASE = "http://127.0.0.1:8080"
FIRST = 951_782_400_000
TYPES = ["text/plain", 'text/html; charset="utf-8"', "application/octet-stream"]
LENGTHS = [0, 1, 3, 40, 511, 512, 513, 1_500, 4_096, 5_000, 12_000]
# Answers of a program that does not continue; the last is empty, because the program has ended.
FAULTS = ("refused Device", "refused Closed", "")


class Recording:
    """A program that works on the mounted file system of a device.

    `environment` is the program's, and `clock` the server's. `histories` maps file names to histories, `commands`
    counts commands, and `refused` has the answers that ended a run.
    """

    def __init__(self, program: str, device: Device, rng: random.Random, environment: dict[str, str] | None = None,
                 clock: dict[str, str] | None = None) -> None:
        self.program, self.device, self.rng = program, device, rng
        self.environment, self.clock = environment, clock
        self.histories: dict[str, History] = {}
        self.commands, self.refused = 0, list[str]()

    def path(self, name: str) -> Path:
        """Return the path of a file on the file system."""
        return self.device.top / name

    def once(self, *words: str | Path) -> tuple[str, str, int, int]:
        """Run the program once; return its output, its messages, and the places of the log before and after it."""
        begun = self.device.place()
        finished = subprocess.run([self.program, *words], env=self.environment, capture_output=True, text=True,
                                  timeout=SECONDS)
        return finished.stdout, finished.stderr, begun, self.device.place()

    def format(self, name: str, size: int, limit: int = 3) -> None:
        """Make a new source on a file."""
        history = self.histories.setdefault(name, History())
        output, message, begun, end = self.once("format", self.path(name), str(size), BASE, str(limit))
        if output != f"formatted {size}\n":
            raise Differs(f"format: {output!r} {message!r}")
        history.add(begun, end, State(BASE, limit))

    def copy(self, old: str, new: str, size: int) -> None:
        """Copy a source to a new file."""
        history = self.histories.setdefault(new, History())
        output, message, begun, end = self.once("copy", self.path(old), self.path(new), str(size))
        if output != f"copied {size}\n":
            raise Differs(f"copy: {output!r} {message!r}")
        history.add(begun, end, self.histories[old].state())

    def longer(self, name: str, size: int) -> None:
        """Make a file longer."""
        os.truncate(self.path(name), size)

    def run(self, name: str, lines: list[str]) -> None:
        """Run the program on lines, one at a time, up to the first fault of the device."""
        now = 0
        words, pipe = [self.program, "run", str(self.path(name))], subprocess.PIPE
        with subprocess.Popen(words, env=self.environment, stdin=pipe, stdout=pipe, stderr=subprocess.DEVNULL,
                              bufsize=0) as process:
            for line in lines:
                self.noise()
                if line.startswith("at "):
                    now = int(line[3:])
                begun = self.device.place()
                with self.device.patience():
                    answer = answer_to(process, line)
                if answer not in ("ok", "refused Full"):
                    self.noted(name, line, now, answer, begun)
                if answer in FAULTS:
                    break

    def noted(self, name: str, line: str, now: int, answer: str, begun: int) -> None:
        """Note an answer: the model's, or a fault of the device, after which the command may or may not be applied."""
        acknowledged: int | None = self.device.place()
        history = self.histories[name]
        wanted, then = history.state().after(line, now)
        if answer in FAULTS:
            self.refused.append(answer)
            acknowledged = None
        elif answer != wanted:
            raise Differs(f"{line[:60]!r} is answered {answer!r}, not {wanted!r}")
        if then:
            history.add(begun, acknowledged, then)
            self.commands += acknowledged is not None

    def opened(self, name: str) -> bool:
        """Open a file after a command with an unknown end, and read its counts. The reported state must then last."""
        history, begun = self.histories[name], self.device.place()
        finished = subprocess.run([self.program, "run", self.path(name)], env=self.environment, input=b"status\n",
                                  capture_output=True, timeout=SECONDS)
        numbers = history.numbers_of(finished.stdout)
        if not numbers and finished.stderr != b"rs_source: Device\n":
            raise Differs(f"an opening behind a fault tells {finished.stdout!r} {finished.stderr!r}")
        if numbers:
            history.add(begun, self.device.place(), history.events[numbers[-1]].state)
        else:
            self.refused.append("an opening")
        return bool(numbers)

    def serve(self, name: str, requests: list[Request]) -> None:
        """Serve requests: a method, a path, a body, and the equivalent line of a script."""
        clock, step = FIRST + 10**9, 7
        environment = {**(self.clock or {}), "CLOCK": str(clock), "STEP": str(step)}
        if self.environment:
            environment["LD_PRELOAD"] = f"{environment['LD_PRELOAD']}:{self.environment['LD_PRELOAD']}"
        words = [self.program, "serve", str(self.path(name)), "0", str(len(requests))]
        history = self.histories[name]
        with subprocess.Popen(words, env=environment, stdout=subprocess.PIPE, text=True) as server:
            assert server.stdout
            port = int(server.stdout.readline().split(":")[1])
            for number, (method, path, body, kind, line) in enumerate(requests, 1):
                self.noise()
                state, begun = history.state(), self.device.place()
                with self.device.patience():
                    status = ask(port, method, path, body, kind)
                acknowledged = self.device.place()
                _, then = state.after(line, clock + step * number)
                if (status < 300) != (then is not None):
                    raise Differs(f"{method} {path} is answered {status}")
                if then:
                    history.add(begun, acknowledged, then)
                    self.commands += 1

    def noise(self) -> None:
        """Now and then do other work on the file system: create, extend, rename, remove and sync files."""
        choice, name = self.rng.random(), self.path(f"noise{self.rng.randrange(8)}")
        with contextlib.suppress(OSError):
            if choice < 0.15:
                with open(name, "ab") as file:
                    file.write(self.rng.randbytes(self.rng.choice((10, 3_000, 20_000))))
            elif choice < 0.25:
                os.rename(name, self.path(f"noise{self.rng.randrange(8)}"))
            elif choice < 0.35:
                name.unlink()
            elif choice < 0.38:
                subprocess.run(["sync", "-f", self.device.top], stderr=subprocess.DEVNULL, timeout=SECONDS)


def answer_to(process: subprocess.Popen[bytes], line: str) -> str:
    """Return the answer of a running program to a line; it is empty if the program has ended."""
    assert process.stdin and process.stdout
    try:
        process.stdin.write(line.encode() + b"\n")
        return process.stdout.readline().decode().rstrip("\n")
    except BrokenPipeError:
        return ""


def ask(port: int, method: str, path: str, body: bytes | None, kind: str | None) -> int:
    """Return the status of the response to a request."""
    connection = http.client.HTTPConnection("127.0.0.1", port, timeout=SECONDS)
    with contextlib.closing(connection):
        connection.request(method, path, body, {"Content-Type": kind} if kind else {})
        response = connection.getresponse()
        response.read()
        return response.status


def change_at_random(rng: random.Random, names: int) -> str:
    """Return a random put or delete of one of this many names."""
    name, length = f"n{rng.randrange(names)}", rng.choice(LENGTHS)
    if rng.random() < 0.2:
        return f"delete {name}"
    return f"put {name} {rng.randbytes(length).hex() or '-'} {rng.choice(TYPES)}"


def lines_at_random(rng: random.Random, count: int, names: int = 9) -> list[str]:
    """Return random lines: puts, deletes, groups and publications, from a random first moment on."""
    lines = [f"at {FIRST + rng.randrange(10**6)}"]
    for _ in range(count):
        choice = rng.random()
        changes = [change_at_random(rng, names) for _ in range(rng.choice((1, 2, 3)))]
        lines.append("publish" if choice < 0.2 else "\n".join([f"group {len(changes)}", *changes])
                     if choice < 0.35 else changes[0])
    return lines


def requests_at_random(rng: random.Random, count: int, names: int = 9) -> list[Request]:
    """Return random requests with the equivalent lines of a script."""
    found = list[Request]()
    for line in lines_at_random(rng, count, names)[1:]:
        words = line.split(" ", 3)
        if words[0] == "put":
            found.append(("PUT", f"/resource/{words[1]}", b""
                          if words[2] == "-" else bytes.fromhex(words[2]), words[3], line))
        elif words[0] == "delete":
            found.append(("DELETE", f"/resource/{words[1]}", None, None, line))
        elif words[0] == "publish":
            found.append(("POST", "/publish", None, None, line))
        else:
            found.append(("POST", "/group", line.partition("\n")[2].encode() + b"\n", "text/plain", line))
    return found
