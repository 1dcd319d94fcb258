"""Run a collection on this machine: settings, sources, and nginx with TLS and the site of `ropepeach collection`."""
from __future__ import annotations

import contextlib
import os
import pathlib
import pwd
import re
import shutil
import socket
import ssl
import subprocess
import time
from collections.abc import Iterable, Iterator, Mapping
from types import TracebackType
from unittest import mock
from urllib.parse import urlsplit

from operations.tests.collection.processes import used_by
from operations.tests.mirror.mirrors import DIRECT
from operations.tests.system.install_looks import HEAD
from operations.tests.system.install_shared import told_by, wait_for
from operations.tests.tools import COMMAND, running
from operations.tests.tools.running import SECONDS, Run, Server, files_of
from tests.program import TOOLS
from tests.served_source import free_port

SETTINGS = "collection.toml"
# The installed path of the page, which a site serves.
INSTALLED_PAGE = "/usr/local/share/ropepeach/site"
# The timeout of a run in seconds, long enough for a busy machine.
LONGEST = 300
PART = re.compile(r"/((?:resourcelist/\d+|changelist)/\d+\.xml)<")


class Host:
    """A host of several sources, in the current folder. `with` starts it, and ends every process that it started."""

    def __init__(self, program: str, room: str | pathlib.Path, names: list[str], size: int = 8 << 20, limit: int = 100,
                 address: str = "", page: str | pathlib.Path = "") -> None:
        self.page, self.program, self.size, self.limit = page, program, size, limit
        self.room = pathlib.Path(room).resolve()
        # Processor seconds of sources that have ended.
        self.port, self.ended = free_port(), 0.0
        self.nginx: subprocess.Popen[bytes] | None = None
        self.address = address or f"https://127.0.0.1:{self.port}"
        self.sources: dict[str, Server] = {}
        certify(self.room)
        self.environment = os.environ | DIRECT | {"SSL_CERT_FILE": f"{self.room}/server.crt"}
        for name in names:
            self.add(name)

    def add(self, name: str) -> None:
        """Make a source and its settings, without serving it or adding it to the site."""
        self.sources[name] = Server(self.program, f"{name}.disk", self.size, self.limit, f"{self.address}/{name}")
        self.settle()

    def settle(self, **other: Mapping[str, str]) -> None:
        """Write the settings; override the address, base or file of some sources."""
        pathlib.Path(SETTINGS).write_text(self.settings(**other))

    def settings(self, **other: Mapping[str, str]) -> str:
        """Return the file of the collection."""
        def setting(what: str, name: str, plain: object) -> object:
            return other.get(what, {}).get(name, plain)

        text = f'address = "{self.address}"\ncertificate = "{self.room}/server.crt"\nkey = "{self.room}/server.key"\n'
        return text + "".join(
            f'[source.{name}]\naddress = "{setting("address", name, server.url)}"\nbase = "{self.address}/{name}"\n'
            f'file = "{setting("file", name, server.disk.resolve())}"\n'
            for name, server in self.sources.items())

    def __enter__(self) -> Host:
        for server in self.sources.values():
            server.start()
        self.serve()
        return self

    def __exit__(self, *fault: type[BaseException] | BaseException | TracebackType | None) -> None:
        if self.nginx:
            self.nginx.terminate()
            self.nginx.wait(SECONDS)
        for server in self.sources.values():
            server.kill()

    def serve(self) -> None:
        """Serve the site that the command writes; reload nginx, as an operator does after adding a source."""
        status, output, messages = self.run("collection", SETTINGS, "--into", "site")
        assert status == 0, messages
        pathlib.Path("nginx.conf").write_text(self.configuration())
        if self.nginx:
            self.nginx.terminate()
            self.nginx.wait(SECONDS)
        self.nginx = subprocess.Popen(["nginx", "-p", self.room, "-e", f"{self.room}/errors", "-c",
                                       f"{self.room}/nginx.conf"])
        wait_for(self.port, self.nginx)

    def configuration(self) -> str:
        """Return the site on loopback only, with its cache in this folder."""
        site = pathlib.Path("site/collection.nginx").read_text()
        site = re.sub(r"(?m)^ *listen \[.*\n", "", site)
        for old, new in [(f"listen {self.port} ", f"listen 127.0.0.1:{self.port} "),
                         ("/var/cache/ropepeach-collection levels", f"{self.room}/cache levels")]:
            assert site.count(old) == 1, old
            site = site.replace(old, new)
        site = site.replace("/var/log/nginx/", f"{self.room}/")
        return nginx_settings(self.room, site.replace(INSTALLED_PAGE, str(self.page)) if self.page else site)

    def begin(self, *words: object) -> Run:
        """Start the command, which trusts the host's certificate."""
        return running.begun(*words, env=self.environment)

    def run(self, *words: object, seconds: float = LONGEST) -> tuple[int, str, str]:
        """Run the command. A mirror starts after nginx's cached headers expire."""
        if words[0] == "mirror":
            time.sleep(HEAD)
        return waited(self.begin(*words), seconds)

    def well(self, *words: object, seconds: float = LONGEST) -> str:
        """Run the command with exit status 0; return its output."""
        status, output, messages = self.run(*words, seconds=seconds)
        assert status == 0, f"{' '.join(map(str, words))}: {messages[-500:]}"
        return output

    def homes(self, names: Iterable[str]) -> dict[str, str]:
        """Return the source of every name, as the command prints it."""
        pathlib.Path("names").write_text("".join(f"{name}\n" for name in names))
        output = self.well("collection", SETTINGS, "--names", "names")
        return {name: home for home, name in (line.split(" ", 1) for line in output.splitlines())}

    def texts(self, name: str) -> list[str]:
        """Return the responses to requests for the lists of a source, the Resource List first."""
        heads = [request(self.sources[name].url, path).decode() for path in ("/resourcelist.xml", "/changelist.xml")]
        return [page for head in heads
                for page in [head,
                             *(request(self.sources[name].url, f"/{part}").decode() for part in PART.findall(head))]]

    def entries(self, name: str) -> list[str]:
        """Return the entries of a source's lists."""
        return [entry for text in self.texts(name)
                for entry in re.findall(r"<url>.*?</url>", text) if "/resource/" in entry]

    def resources_of(self, name: str) -> set[str]:
        """Return the names that a source holds, by its lists."""
        found = {path: 'change="deleted"' not in entry for entry in self.entries(name)
                 for path in re.findall(r"/resource/([^<]*)<", entry)}
        return {name for name, is_held in found.items() if is_held}

    def union(self, folder: str | pathlib.Path) -> dict[str, bytes]:
        """Return the files of all parts of a mirror; a name of two parts must have the same bytes."""
        found: dict[str, bytes] = {}
        for part in pathlib.Path(folder).iterdir():
            for name, body in files_of(part).items() if part.is_dir() else ():
                assert body == found.setdefault(name, body), name
        return found

    def disks(self) -> list[int]:
        """Return the times of the last write to the files of the sources."""
        return [server.disk.stat().st_mtime_ns for server in self.sources.values()]

    def says_nginx(self, answer: bytes) -> bool:
        """Return whether nginx itself refuses a request."""
        return answer.startswith(b"HTTP/1.1 4") and b"\r\nContent-Type: text/html\r\n" in answer

    def end(self, name: str) -> None:
        """Kill a source, and add up its processor time."""
        server = self.sources[name]
        used = used_by(server.process.pid) if server.process else 0.0
        server.kill()
        self.ended, server.process = self.ended + used, None

    def away(self, name: str, seconds: float = 1.0) -> None:
        """Kill a source, and restart it after some time."""
        self.end(name)
        time.sleep(seconds)
        self.sources[name].start()


def nginx_settings(room: str | pathlib.Path, sites: str) -> str:
    """Return nginx settings for these sites, with all files of nginx in a folder."""
    folders = re.findall(r"--http-([a-z-]+)-temp-path", told_by("nginx", "-V")[0])
    # (if the master runs as root, its workers run as a user that cannot write here)
    user = f"user {pwd.getpwuid(os.getuid()).pw_name};" if os.getuid() == 0 else ""
    temporary = "".join(f"{folder_name.replace('-', '_')}_temp_path {room}/{folder_name};\n" for folder_name in folders)
    return (f"daemon off; worker_processes 2; {user} pid {room}/pid; error_log {room}/errors;\n"
            "events { worker_connections 4096; }\n"
            f"http {{\naccess_log {room}/access;\n{temporary}{sites}}}\n")


def certify(room: pathlib.Path) -> None:
    """Make a key and a self-signed certificate."""
    words = ["-x509", "-newkey", "ec", "-pkeyopt", "ec_paramgen_curve:prime256v1", "-nodes", "-days", "2", "-subj",
             "/CN=server"]
    files = ["-addext", "subjectAltName=IP:127.0.0.1", "-keyout", f"{room}/server.key", "-out", f"{room}/server.crt"]
    subprocess.run(["openssl", "req", *words, *files], check=True, capture_output=True, timeout=LONGEST)


def waited(run: Run, seconds: float = LONGEST) -> tuple[int, str, str]:
    """Return the exit status, output and messages of a run; fail after a timeout in seconds."""
    try:
        output, complaints = run.communicate(timeout=seconds)
    except subprocess.TimeoutExpired:
        run.kill()
        raise AssertionError(f"a run takes more than {seconds} seconds: {run.args!r}") from None
    return run.returncode, output, complaints


def same_files(wanted: Mapping[str, bytes], found: Mapping[str, bytes]) -> None:
    """Check that two sets of files are equal; name a few that differ."""
    differing = sorted(path for path in {*wanted, *found} if wanted.get(path) != found.get(path))
    assert not differing, f"{len(differing)} files of {len(wanted)} differ: {differing[:5]}"


def names_in(homes: Mapping[str, str], source: str) -> set[str]:
    """Return the names that live in a source."""
    return {name for name, home in homes.items() if home == source}


@contextlib.contextmanager
def disks_stay(host: Host) -> Iterator[None]:
    """Check that the files of all sources stay unchanged."""
    before = {name: server.disk.read_bytes() for name, server in host.sources.items()}
    yield
    for name, server in host.sources.items():
        assert server.disk.read_bytes() == before[name], f"a refused run changed {name}"


def request(url: str, target: str, method: str = "GET", sent: bytes = b"",
            context: ssl.SSLContext | None = None) -> bytes:
    """Return the whole response to a request for this target, which is sent unchanged."""
    place = urlsplit(url)
    with socket.create_connection((place.hostname, place.port or 0), timeout=SECONDS) as connection:
        if context:
            connection = context.wrap_socket(connection, server_hostname=place.hostname)
        length = f"Content-Length: {len(sent)}\r\n" if method == "PUT" else ""
        head = f"{method} {target} HTTP/1.1\r\nHost: {place.netloc}\r\nConnection: close\r\n{length}\r\n"
        connection.sendall(head.encode("latin-1") + sent)
        found = b""
        while piece := connection.recv(65_536):
            found += piece
        return found


@contextlib.contextmanager
def commanded(path: pathlib.Path) -> Iterator[None]:
    """Run another command instead of `ropepeach`."""
    with mock.patch.object(running, "COMMAND", [COMMAND[0], str(path)]):
        yield


def copied(room: pathlib.Path, name: str, *edits: tuple[str, str, str]) -> pathlib.Path:
    """Return a copy of the command with texts replaced in some files; every old text must occur once."""
    place = pathlib.Path(room, name).resolve()
    shutil.copytree(TOOLS, place)
    for file, old, new in edits:
        text = (place / "ropepeach" / file).read_text()
        assert text.count(old) == 1, f"{file}: {old!r}"
        (place / "ropepeach" / file).write_text(text.replace(old, new))
    return place / "ropepeach-command"
