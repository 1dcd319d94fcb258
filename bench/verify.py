"""Compare `verify` with the kit's SHA-256 over the same bytes: four bodies of 16 MiB, and 2,000 of 4 KiB, each on a
file of its own.

The time of `verify` is that of a script with it, minus that of a script with `status` alone; the least of five.
"""
import http.client
import os
import subprocess
import tempfile
import time

from bench import hashing
from bench.asked import serve
from tests.program import PROGRAM


def filled(file: str, size: int, count: int, length: int) -> None:
    """Make a source on a new file with `count` bodies of `length` bytes."""
    subprocess.run([str(PROGRAM), "format", file, str(size), "http://127.0.0.1:8080", "1000"],
                   stdout=subprocess.DEVNULL, check=True)
    server, port = serve(file, count)
    for i in range(count):
        connection = http.client.HTTPConnection("127.0.0.1", port, timeout=60)
        connection.request("PUT", f"/resource/r{i}", os.urandom(length))
        assert connection.getresponse().status == 201
        connection.close()
    server.wait()


def seconds_of(file: str, line: str, wanted: str) -> float:
    """Return the least time of a script of one line in five runs."""
    times = []
    for _ in range(5):
        began = time.perf_counter()
        output = subprocess.run([str(PROGRAM), "run", file], input=line + "\n", capture_output=True, text=True,
                                check=True).stdout
        times.append(time.perf_counter() - began)
        assert output.startswith(wanted), output
    return min(times)


def main() -> None:
    """Print the figures."""
    with tempfile.TemporaryDirectory() as room:
        sha256 = hashing.seconds()[2] / 16
        for count, length in ((4, 16 << 20), (2_000, 4_096)):
            file, mebibytes = f"{room}/{count}", count * length / (1 << 20)
            filled(file, (count * length + (32 << 20)) // 512 * 512, count, length)
            spent = seconds_of(file, "verify", f"verified {count}\n") - seconds_of(file, "status", "resources")
            print(f"verify: {count} bodies of {length} bytes in {1000 * spent:.1f} ms, {mebibytes / spent:.0f} MiB/s: "
                  f"{spent / (sha256 * mebibytes):.2f} times the kit's SHA-256 over them ({1 / sha256:.0f} MiB/s)")


if __name__ == "__main__":
    main()
