"""Time GETs on loopback, one per connection, against lighttpd (one thread) on the same machine; and PUTs and GETs of 16
MiB to a client on a bare socket, ten times in turn with the kit's own hashing, as medians. A PUT is also compared with
the calls that it cannot avoid: the same bytes written to a file in pieces of 4 KiB, and three syncs.

Needs Debian's wrk and lighttpd. ROOM in the environment is the folder for the source's file: /dev/shm shows the time
without the disk's syncs.
"""
import http.client
import os
import pathlib
import re
import socket
import statistics
import subprocess
import sys
import tempfile
import time

from bench import hashing
from bench.asked import serve
from tests.program import PROGRAM

LENGTHS = (100, 4096, 65_536)
SECONDS = 5
LARGE, PIECE, TIMES = 16 << 20, 4_096, 10


def ask(port: int, method: str, path: str, body: bytes | None = None) -> tuple[int, bytes]:
    """Return the status and the body of a response."""
    connection = http.client.HTTPConnection("127.0.0.1", port, timeout=60)
    connection.request(method, path, body)
    response = connection.getresponse()
    found = response.read()
    connection.close()
    return response.status, found


def load(url: str) -> float:
    """Return the requests per second that wrk makes of an address."""
    words = ["wrk", "-t1", "-c4", f"-d{SECONDS}s", "-H", "Connection: close", url]
    finished = subprocess.run(words, capture_output=True, text=True, check=True)
    return float(re.findall(r"Requests/sec:\s*([\d.]+)", finished.stdout)[0])


def beside(room: str) -> subprocess.Popen[bytes]:
    """Start lighttpd with a file of each length."""
    folder = f"{room}/www"
    os.makedirs(f"{folder}/resource")
    for n in LENGTHS:
        pathlib.Path(f"{folder}/resource/r{n}").write_bytes(bytes(n))
    conf = pathlib.Path(f"{room}/lighttpd.conf")
    conf.write_text(f'server.document-root = "{folder}"\nserver.bind = "127.0.0.1"\nserver.port = 8099\n'
                    'server.max-keep-alive-requests = 0\n')
    return subprocess.Popen(["lighttpd", "-D", "-f", str(conf)], stdout=subprocess.DEVNULL, stderr=subprocess.DEVNULL)


def loads(room: str, file: str) -> None:
    """Load the program and lighttpd in turn."""
    server, port = serve(file, 1_000_000_000)
    other = beside(room)
    time.sleep(0.5)
    try:
        for n in LENGTHS:
            assert ask(port, "PUT", f"/resource/r{n}", bytes(n))[0] == 201
            ours, theirs = load(f"http://127.0.0.1:{port}/resource/r{n}"), load(f"http://127.0.0.1:8099/resource/r{n}")
            print(f"GET of {n} bytes: {ours:.0f} a second, lighttpd {theirs:.0f}: {ours / theirs:.2f} of its rate")
    finally:
        server.kill()
        other.kill()
        server.wait()
        other.wait()


def raw(port: int, *pieces: bytes) -> tuple[float, bytes]:
    """Return the seconds from a request, sent in pieces, to the end of its response, and the response."""
    found = bytearray(LARGE + 4_096)
    with socket.create_connection(("127.0.0.1", port)) as connection:
        began, n = time.perf_counter(), 0
        for piece in pieces:
            connection.sendall(piece)
        while come := connection.recv_into(memoryview(found)[n:]):
            n += come
        return time.perf_counter() - began, bytes(found[:n])


def calls(file: str, data: bytes) -> float:
    """Return the seconds of the writes and syncs of a put of these bytes, which overwrite the file's content."""
    with open(file, "r+b", buffering=0) as disk:
        began = time.perf_counter()
        for at in range(0, len(data), PIECE):
            os.pwrite(disk.fileno(), data[at:at + PIECE], at)
        for _ in range(3):
            os.fsync(disk.fileno())
            os.pwrite(disk.fileno(), b"1", 0)
        return time.perf_counter() - began


def big(file: str, hasher: str) -> None:
    """Time PUTs and GETs in turn with the hashing, so that other load on the machine affects both alike."""
    server, port = serve(file, 2 * TIMES)
    data, rows, beside_it = os.urandom(LARGE), [], f"{file}.calls"
    pathlib.Path(beside_it).write_bytes(bytes(LARGE))
    head = f"PUT /resource/big HTTP/1.1\r\nHost: a\r\nContent-Length: {LARGE}\r\n\r\n".encode()
    for _ in range(TIMES):
        put, found = raw(port, head, data)
        assert found[9:12] in (b"201", b"204"), found[:80]
        get, found = raw(port, b"GET /resource/big HTTP/1.1\r\nHost: a\r\n\r\n")
        assert found.endswith(data)
        rows.append((put, hashing.once(hasher), calls(beside_it, data), get, hashing.once(hasher, "sha256", "alone")))
    server.wait()
    put, both, written, get, sha256 = (statistics.median(column) for column in zip(*rows))
    for name, seconds, than, least in (("PUT", put, "MD5 and SHA-256", both), ("GET", get, "SHA-256", sha256)):
        print(f"16 MiB: {name} {1000 * seconds:.0f} ms, {seconds / least:.2f} times the kit's {than} over it "
              f"({1000 * least:.0f} ms)")
    print(f"16 MiB: the writes and syncs of a PUT {1000 * written:.0f} ms; "
          f"it took {put / (both + written):.2f} times as long as these and its hashing")


def main() -> int:
    """Measure all, and return the exit status."""
    with tempfile.TemporaryDirectory(dir=os.environ.get("ROOM")) as room:
        os.chmod(room, 0o755)
        file = f"{room}/source"
        subprocess.run([str(PROGRAM), "format", file, str(64 << 20), "http://a", "1000"], check=True,
                       capture_output=True)
        loads(room, file)
        os.makedirs(f"{room}/hashing")
        big(file, hashing.built(f"{room}/hashing"))
    return 0


if __name__ == "__main__":
    sys.exit(main())
