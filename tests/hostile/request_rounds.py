"""A round of requests of the search: a new file, some consecutive servers, and the check of all responses."""
import collections
import os
import random
import subprocess
from pathlib import Path

from tests.hostile import made_requests
from tests.hostile.made_requests import Made
from tests.hostile.made_scripts import BASES
from tests.hostile.script_runs import differing
from tests.program import Differs
from tests.reading import crash_model, disk_judge, request_judge
from tests.reading.front_model import Source
from tests.served_source import met, moment_of, served

SIZE = 2_097_152
SERVERS = 4
LIMITS = [2, 2, 2, 3, 4, 5, 4_000]
# The clocks of servers in milliseconds, and their steps per connection. Some last servers reach the last moment.
CLOCKS = [951_782_400_000] * 4 + [951_782_399_995, 1_700_000_000_000, 0, -5, 68_169_600_000_000]
LATE, LATE_SHARE = disk_judge.LAST_MOMENT - 60, 0.1
STEPS = [1, 1, 1, 0, 250, 1_000, 86_400_000, -1, -1_000]
# The longest request, in bytes, after which a client may leave at once: the system sends it in any case.
SMALL = 4_096


def is_lost(wanted: bytes, found: tuple[bytes, bool]) -> bool:
    """Return whether a reset cut the response; raise Differs if the response is wrong.

    A server that ends a connection with unread bytes may reset it, which loses bytes in transit.
    """
    response, is_reset = found
    if response == wanted:
        return False
    if is_reset and wanted.startswith(response):
        return True
    raise Differs(differing("the response", wanted, response))


class Round:
    """A new file, its right state, and the number of responses by status."""

    def __init__(self, program: str, environment: dict[str, str], folder: str, seed: int, number: int) -> None:
        self.program, self.environment, self.file = program, environment, os.path.join(folder, f"{os.getpid()}.disk")
        self.rng = random.Random(f"round {seed} {number}")
        limit = self.rng.choice(LIMITS)
        self.source = Source(crash_model.State(self.rng.choice(BASES), limit), SIZE)
        self.judge, self.counts = request_judge.Judge(self.source), collections.Counter[str]()
        self.requests = made_requests.requests_of(self.rng, number, limit)

    def look(self) -> None:
        """Send all requests of the round, and check the file afterwards."""
        self.format()
        each = len(self.requests) // SERVERS
        for first in range(0, len(self.requests), each):
            is_late = first + each >= len(self.requests) and self.rng.random() < LATE_SHARE
            clock = LATE if is_late else self.rng.choice(CLOCKS)
            self.serve(first, self.requests[first : first + each], clock, self.rng.choice(STEPS))
        disk = Path(self.file).read_bytes()
        verdict, source = disk_judge.verdict_of(disk)
        if verdict != disk_judge.OPENS:
            raise Differs(f"the file is {verdict} at the end: {source}")
        if disk_judge.state_of(disk, source) != self.source.state:
            raise Differs("the file has another state at the end than the accepted commands make")

    def format(self) -> None:
        """Make a new source on the file."""
        Path(self.file).unlink(missing_ok=True)
        words = [self.program, "format", self.file, str(SIZE), self.source.state.base, str(self.source.state.limit)]
        finished = subprocess.run(words, capture_output=True)
        if (finished.returncode, finished.stdout, finished.stderr) != (0, b"formatted %d\n" % SIZE, b""):
            raise Differs(f"format: status {finished.returncode}, {finished.stdout!r}, {finished.stderr!r}")

    def serve(self, first: int, requests: list[Made], clock: int, step: int) -> None:
        """Send these requests to one server."""
        environment = {**self.environment, "CLOCK": str(clock), "STEP": str(step)}
        with served(self.program, self.file, len(requests), environment) as port:
            for number, made in enumerate(requests, 1):
                try:
                    self.ask(port, made, moment_of(clock + step * number))
                except (Differs, OSError) as fault:
                    sent = made.data if len(made.data) < 2_000 else made.data[:300] + b".." + made.data[-100:]
                    message = fault if isinstance(fault, Differs) else repr(fault)
                    what = f"request {first + number - 1}, {made.what}, at {clock + step * number}"
                    raise Differs(f"{what}\n  sent {len(made.data)} bytes: {sent!r}\n  {message}") from None

    def ask(self, port: int, made: Made, now: int) -> None:
        """Send one request, and check its response."""
        before = self.source.state
        wanted = self.judge.answer(made.data, now)
        # A reset may lose sent bytes, and so may a client that leaves before `100 Continue`; if the request changes the
        # state, the client ends in the usual way.
        is_whole = made.ending == "leave" and len(made.data) < SMALL and not wanted.startswith(request_judge.CONTINUE)
        is_free = self.source.state is before or is_whole
        found = met(port, made.pieces, made.ending if is_free else "half")
        self.counts[wanted[9:12].decode() if found else "left"] += 1
        self.counts["lost"] += found is not None and is_lost(wanted, found)
