"""Certificates for tests of TLS, made by openssl: a CA, and servers and a client that it vouches for or not."""
from __future__ import annotations

import pathlib
import ssl
import subprocess
import time

CONFIGURATION = """
[ca]
default_ca = own
[own]
database = {folder}/index
new_certs_dir = {folder}
serial = {folder}/serial
certificate = {folder}/ca.pem
private_key = {folder}/ca.key
default_md = sha256
policy = any
copy_extensions = copy
[any]
commonName = supplied
[req]
distinguished_name = name
[name]
"""
DAY = 86_400
# The names in the servers' certificates, and the days until they end.
SERVERS = {"good": ("IP:127.0.0.1,DNS:localhost", 10), "other": ("DNS:other.example", 10),
           "expired": ("IP:127.0.0.1", -1), "early": ("IP:127.0.0.1", 20)}


class Certificates:
    """A folder of certificates, in files with their keys: NAME.pem."""

    def __init__(self, folder: pathlib.Path) -> None:
        self.folder = folder
        (folder / "configuration").write_text(CONFIGURATION.format(folder=folder))
        (folder / "index").write_text("")
        (folder / "serial").write_text("01\n")
        self.openssl("req", "-x509", "-newkey", "rsa:2048", "-nodes", "-keyout", "ca.key", "-out", "ca.pem",
                     "-subj", "/CN=Private CA", "-days", "30", "-addext", "basicConstraints=critical,CA:TRUE")
        for name, (names, days) in SERVERS.items():
            self.make(name, names, days)
        self.make("client", "DNS:client.example", 10)
        self.openssl("req", "-x509", "-newkey", "rsa:2048", "-nodes", "-keyout", "self.key", "-out", "self.crt",
                     "-subj", "/CN=127.0.0.1", "-addext", "subjectAltName=IP:127.0.0.1", "-days", "30")
        self.join("self")

    def openssl(self, *words: str) -> None:
        """Run openssl in the folder."""
        subprocess.run(["openssl", *words, *(["-config", "configuration"] if words[0] != "x509" else [])],
                       cwd=self.folder, check=True, capture_output=True, timeout=60)

    def make(self, name: str, names: str, days: int) -> None:
        """Make a certificate of the CA, which is valid for ten days up to a day from now."""
        self.openssl("req", "-newkey", "rsa:2048", "-nodes", "-keyout", f"{name}.key", "-out", f"{name}.request",
                     "-subj", f"/CN={name}", "-addext", f"subjectAltName={names}")
        start, end = (time.strftime("%Y%m%d%H%M%SZ", time.gmtime(time.time() + at * DAY)) for at in (days - 11, days))
        self.openssl("ca", "-batch", "-notext", "-in", f"{name}.request", "-out", f"{name}.crt", "-startdate", start,
                     "-enddate", end)
        self.join(name)

    def join(self, name: str) -> None:
        """Put a certificate and its key into one file."""
        self.path(name).write_bytes(b"".join((self.folder / f"{name}.{end}").read_bytes() for end in ("crt", "key")))

    def path(self, name: str) -> pathlib.Path:
        """Return the file of a certificate with its key, or the CA's certificate."""
        return self.folder / f"{name}.pem"

    def server(self, name: str, clients: ssl.VerifyMode = ssl.CERT_NONE) -> ssl.SSLContext:
        """Return the settings of a server with a certificate, which may ask clients for one of the CA."""
        context = ssl.SSLContext(ssl.PROTOCOL_TLS_SERVER)
        context.load_cert_chain(self.path(name))
        context.load_verify_locations(self.path("ca"))
        context.verify_mode = clients
        return context
