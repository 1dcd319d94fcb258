"""Run nginx with the site of operations/install/ in front of a source.

nginx listens on loopback, in a temporary folder, with the settings of the site, but other paths and ports; TLS is left
out unless a test needs it.
"""
import contextlib
import os
import pathlib
import pwd
import re
import subprocess
from collections.abc import Callable, Iterator

from operations.tests.system.install_shared import told_by, wait_for
from tests.program import ROOT
from tests.served_source import free_port

INSTALL = ROOT / "operations/install"
# The longest caching of a head in seconds: nginx counts whole seconds.
HEAD = 2.1


def site_on(room: str | pathlib.Path, port: int, source: int) -> str:
    """Return the site on a port of loopback only, before a source on another port, with its cache in a folder."""
    site = INSTALL.joinpath("ropepeach.nginx").read_text()
    site = re.sub(r"(?ms)^server \{\n    listen 80;.*?^\}\n", "", site)
    site = re.sub(r"(?m)^ *listen \[.*\n", "", site)
    for old, new in [("listen 443 ", f"listen 127.0.0.1:{port} "),
                     ("server 127.0.0.1:8080 ", f"server 127.0.0.1:{source} "),
                     ("server_name source.example.org;", "server_name 127.0.0.1;"),
                     ("/var/cache/ropepeach-source levels", f"{room}/cache levels")]:
        assert site.count(old) == 1, f"places of {old!r}"
        site = site.replace(old, new)
    return site.replace("/var/log/nginx/", f"{room}/")


def without_tls(site: str) -> str:
    """Return the site without TLS."""
    return re.sub(r"(?m)^ *(# )?ssl_.*\n", "", site).replace(" ssl;", ";")


def far(site: str) -> str:
    """Return the site without near addresses."""
    return site.replace("127.0.0.0/8   1;", "127.0.0.0/8   0;")


@contextlib.contextmanager
def proxied(program: str, room: str | pathlib.Path, change: Callable[[str], str] = without_tls,
            port: int | None = None) -> Iterator[tuple[int, subprocess.Popen[bytes], int]]:
    """Run nginx with the site in front of a source with 16 MiB of bodies and lists of two items; return nginx's port,
    the source's process and the source's port.
    """
    port = port or free_port()
    if not pathlib.Path(room, "a.disk").exists():
        subprocess.run([program, "format", "a.disk", str(64 << 20), "http://a.example", "2"], cwd=room, check=True,
                       capture_output=True)
    with subprocess.Popen([program, "serve", "a.disk", "0", "1000000"], cwd=room, stdout=subprocess.PIPE) as source:
        try:
            assert source.stdout
            behind = int(source.stdout.readline().rpartition(b":")[2])
            folders = re.findall(r"--http-([a-z-]+)-temp-path", told_by("nginx", "-V")[0])
            # (if the master runs as root, its workers run as a user that cannot write here)
            user = f"user {pwd.getpwuid(os.getuid()).pw_name};" if os.getuid() == 0 else ""
            config = pathlib.Path(room, "nginx.conf")
            places = "".join(f"{folder_name.replace('-', '_')}_temp_path {room}/{folder_name};\n"
                             for folder_name in folders)
            config.write_text(
                f"daemon off; worker_processes 1; {user} pid {room}/pid; error_log {room}/errors;\nevents {{}}\n"
                f"http {{\naccess_log off;\n{places}{change(site_on(room, port, behind))}}}\n")
            with subprocess.Popen(["nginx", "-p", room, "-e", f"{room}/errors", "-c", config]) as nginx:
                try:
                    wait_for(port, nginx)
                    yield port, source, behind
                finally:
                    nginx.terminate()
        finally:
            source.kill()
