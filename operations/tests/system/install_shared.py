"""Commands, requests and certificates that the tests of operations/install/ share."""
import contextlib
import http.client
import pathlib
import subprocess
import time
from collections.abc import Mapping
from types import MappingProxyType
from typing import Any

from operations.tests.harness.server import RawServer, answer
from tests.program import Differs
from tests.system.edge_runs import connected

SECONDS = 30
NO_HEADERS: Mapping[str, str] = MappingProxyType({})


def told_by(*words: str | pathlib.Path, **settings: Any) -> tuple[str, int]:
    """Run a command; return its output with its messages, and its exit status."""
    process = subprocess.run(words, stdout=subprocess.PIPE, stderr=subprocess.STDOUT, text=True, timeout=SECONDS,
                             **settings)
    return process.stdout, process.returncode


def wait_for(port: int, nginx: subprocess.Popen[bytes]) -> None:
    """Wait until nginx listens."""
    for _ in range(SECONDS * 100):
        with contextlib.suppress(ConnectionRefusedError), connected(port):
            return
        if nginx.poll() is not None:
            break
        time.sleep(0.01)
    raise Differs(f"nginx does not listen: status {nginx.poll()}")


def request(port: int, method: str, path: str, body: Any = None, headers: Mapping[str, str] = NO_HEADERS,
            seconds: float = SECONDS) -> tuple[int, bytes]:
    """Send one request; return the status of the response, and its body."""
    connection = http.client.HTTPConnection("127.0.0.1", port, timeout=seconds)
    with contextlib.closing(connection):
        connection.request(method, path, body, headers)
        response = connection.getresponse()
        return response.status, response.read()


def certified(room: str | pathlib.Path, name: str) -> str:
    """Return the path of a new self-signed certificate with its key."""
    words = ["-x509", "-newkey", "rsa:2048", "-nodes", "-days", "2", "-subj", f"/CN={name}", "-addext",
             "subjectAltName=IP:127.0.0.1"]
    key, certificate, both = (f"{room}/{name}.{suffix}" for suffix in ("key", "crt", "pem"))
    subprocess.run(["openssl", "req", *words, "-keyout", key, "-out", certificate], check=True, capture_output=True,
                   timeout=SECONDS)
    pathlib.Path(both).write_bytes(pathlib.Path(key).read_bytes() + pathlib.Path(certificate).read_bytes())
    return both


def answering(status: int, body: bytes) -> RawServer:
    """Return a server in `with`, which has one response for every request."""
    return RawServer(lambda _: answer(body, f"{status} Said", then="close"))
