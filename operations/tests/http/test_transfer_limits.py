"""`Transfers` stays within the limits of a run: bytes, time, rate and memory."""
from __future__ import annotations

import hashlib
import os
import subprocess
import time
from collections.abc import Iterator

import pytest

from operations.tests import PYTHON
from operations.tests.harness.server import Answer, RawServer, answer, in_turn
from operations.tests.http.test_signals import OPERATIONS
from operations.tests.http.test_transfers import Noted, by_name, result_of
from ropepeach.http.limits import Limits, Rate, Spent
from ropepeach.http.transfers import Transfer, Transfers

HUGE = 2_000_000_000


def test_streamed_bytes_count_and_end_the_run_within_a_body() -> None:
    with RawServer(by_name) as server:
        limits = Limits(bytes=20_000_000)
        asked = [Noted(f"{server.base}/x/15000000", 1 << 30) for _ in range(4)]
        ended = []
        with pytest.raises(Spent, match="more than 20,000,000 bytes, as --max-bytes allows"):
            for transfer, _ in Transfers(server.base, limits=limits).each(asked):
                ended.append(len(transfer.taken))
        assert ended == [15_000_000] and len(asked[1].taken) <= 5_000_000
        assert 20_000_000 < limits.taken.add(0) < 22_000_000


def test_bytes_of_attempts_that_fail_count_too() -> None:
    cut = Answer([b"HTTP/1.1 200 OK\r\nContent-Length: 9\r\n\r\n12345"], "close")
    with RawServer(in_turn(cut, answer(b"x" * 100, "502 Bad"), answer(b"abcdefghi"))) as server:
        limits = Limits()
        list(Transfers(server.base, limits=limits).each([Noted(f"{server.base}/a")]))
        assert limits.taken.add(0) == 5 + 100 + 9


@pytest.mark.parametrize("connections", [1, 4])
def test_end_of_the_run_ends_transfers_in_time(connections: int) -> None:
    def pouring() -> Iterator[bytes]:
        yield b"HTTP/1.1 200 OK\r\n\r\n"
        while True:
            yield bytes(1 << 16)

    with RawServer(lambda _: Answer(pouring())) as server:
        started = time.monotonic()
        asked = [Transfer(f"{server.base}/{number}", 1 << 60) for number in range(connections)]
        with pytest.raises(Spent, match="--max-duration"):
            list(Transfers(server.base, limits=Limits(end=started + 0.7), connections=connections).each(asked))
        assert 0.6 < time.monotonic() - started < 3


@pytest.mark.parametrize("connections", [1, 3])
def test_rate_is_kept_over_all_connections(connections: int) -> None:
    with RawServer(by_name) as server:
        limits = Limits(rate=Rate(2_000_000))
        started = time.monotonic()
        asked = [Noted(f"{server.base}/x/500000") for _ in range(6)]
        for _, result in Transfers(server.base, limits=limits, connections=connections).each(asked):
            assert result_of(result).status == 200
        # (the last bytes do not wait)
        assert 1.3 < time.monotonic() - started < 4


def test_rate_is_kept_for_bodies_of_requests() -> None:
    class Put(Transfer):
        method, is_kept = "PUT", True
        body = bytes(3_000_000)

    with RawServer(lambda _: answer(b"")) as server:
        started = time.monotonic()
        list(Transfers(server.base, limits=Limits(rate=Rate(2_000_000))).each([Put(f"{server.base}/a", 9)]))
        assert 1.1 < time.monotonic() - started < 4
        assert server.requests[0].body == Put.body


def test_low_rate_ends_at_the_end_of_the_run() -> None:
    with RawServer(by_name) as server:
        started = time.monotonic()
        limits = Limits(end=started + 1, rate=Rate(100))
        with pytest.raises(Spent, match="--max-duration"):
            list(Transfers(server.base, limits=limits).each(Noted(f"{server.base}/x/5000") for _ in range(2)))
        assert 0.9 < time.monotonic() - started < 3


# A program that takes one body, and prints its digest and its peak memory in KiB.
ONE_BODY = r"""
import hashlib, re, sys
from ropepeach.http.transfers import Transfer, Transfers

class Hashed(Transfer):
    def begin(self, response):
        self.digest = hashlib.sha256()
    def take(self, piece):
        self.digest.update(piece)

for transfer, result in Transfers(sys.argv[1], connections=int(sys.argv[2])).each(
        Hashed(f"{sys.argv[1]}/{number}", 1 << 40) for number in range(int(sys.argv[2]))):
    assert result.status == 200
print(transfer.digest.hexdigest(), re.search(r"VmHWM:\s+(\d+) kB", open("/proc/self/status").read())[1])
"""


def most_memory(size: int, connections: int = 1) -> int:
    """Return the peak memory in bytes of a process that takes bodies of a size."""
    block = bytes(range(256)) * 4_096

    def generated() -> Iterator[bytes]:
        yield b"HTTP/1.1 200 OK\r\nContent-Length: %d\r\n\r\n" % size
        for _ in range(size // len(block)):
            yield block
        yield block[:size % len(block)]

    digest = hashlib.sha256()
    for _ in range(size // len(block)):
        digest.update(block)
    digest.update(block[:size % len(block)])
    with RawServer(lambda _: Answer(generated())) as server:
        run = subprocess.run([PYTHON, "-c", ONE_BODY, server.base, str(connections)], check=True, text=True,
                             capture_output=True, timeout=600, env=os.environ | {"PYTHONPATH": str(OPERATIONS)})
    found, most = run.stdout.split()
    assert found == digest.hexdigest()
    return int(most) << 10


@pytest.mark.parametrize(("size", "connections"), [(200_000_000, 1), (5_000_000, 64)])
def test_bodies_take_little_memory(size: int, connections: int) -> None:
    assert most_memory(size, connections) < 100_000_000


@pytest.mark.long
def test_huge_body_takes_little_memory() -> None:
    assert most_memory(HUGE) < 100_000_000
