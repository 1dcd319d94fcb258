"""Serve files by nginx, and mirror them."""
from __future__ import annotations

import contextlib
import dataclasses
import os
import pathlib
import pwd
import re
import subprocess
import sys
import time
from collections.abc import Iterator

from operations.tests.tools import running
from operations.tests.tools.running import ropepeach
from tests.served_source import free_port

SETTINGS = """daemon off; worker_processes 1; {user} pid {room}/nginx.pid; error_log {room}/errors;
events {{ worker_connections 256; }}
http {{
    access_log {room}/log; types {{ application/xml xml; application/zip zip; }} default_type text/plain;
    gzip on; gzip_types application/xml; gzip_min_length 100;
    client_body_temp_path {room}/t1; proxy_temp_path {room}/t2; fastcgi_temp_path {room}/t3;
    uwsgi_temp_path {room}/t4; scgi_temp_path {room}/t5;
    server {{ listen 127.0.0.1:{port}; root {room}/site; }}
}}
"""


@dataclasses.dataclass
class Site:
    """A folder that nginx serves."""

    room: pathlib.Path
    base: str
    process: subprocess.Popen[bytes]

    def hold(self, texts: dict[str, bytes]) -> None:
        """Serve these files by path."""
        for path, body in texts.items():
            place = self.room / "site" / re.sub("%([0-9A-F]{2})", lambda escape: chr(int(escape[1], 16)), path[1:])
            place.parent.mkdir(parents=True, exist_ok=True)
            if not place.is_file() or place.read_bytes() != body:
                place.write_bytes(body)

    def remove(self, path: str) -> None:
        """Stop serving a file."""
        (self.room / "site" / path[1:]).unlink()

    def statuses(self, front: str) -> dict[str, int]:
        """Return the last status of every path requested since the last call."""
        # (nginx writes a line after the response, possibly after the end of the run)
        time.sleep(0.2)
        log = self.room / "log"
        found = dict(re.findall(r'"GET (\S+) [^"]*" (\d+)', log.read_text()))
        log.write_bytes(b"")
        return {path: int(status) for path, status in found.items() if path.startswith(front)}


@contextlib.contextmanager
def site(room: pathlib.Path) -> Iterator[Site]:
    """Run nginx; stop it with the block."""
    port, settings = free_port(), room / "nginx.conf"
    (room / "site").mkdir(parents=True)
    # (if the master runs as root, its workers run as a user that cannot read here)
    user = f"user {pwd.getpwuid(os.getuid()).pw_name};" if os.getuid() == 0 else ""
    settings.write_text(SETTINGS.format(room=room, port=port, user=user))
    with subprocess.Popen(["nginx", "-p", room, "-e", room / "errors", "-c", settings]) as process:
        try:
            base = f"http://127.0.0.1:{port}"
            running.wait_until(lambda: answers(base) or process.poll() is not None, "nginx listens")
            yield Site(room, base, process)
        finally:
            process.terminate()
            process.wait(30)


def answers(base: str) -> bool:
    """Return whether nginx answers."""
    return subprocess.run([sys.executable, "-c", "import socket, sys; socket.create_connection(('127.0.0.1', "
                                                 "int(sys.argv[1])))", base.rpartition(":")[2]],
                          capture_output=True, check=False).returncode == 0


def files_of(folder: str = "m") -> dict[str, bytes]:
    """Return the files of a mirror below the folder of its host, without the mirror's own."""
    return {"/".join(path.relative_to(folder).parts[1:]): path.read_bytes() for path in pathlib.Path(folder).rglob("*")
            if path.is_file() and not path.name.startswith("#")}


def mirrored(base: str, *words: str, into: str = "m") -> str:
    """Run the mirror, check that it succeeds, and return its output."""
    status, output, messages = ropepeach("mirror", base, into, *words)
    assert status == 0, messages
    return output
