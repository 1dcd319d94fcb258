"""The nginx site of a source or a collection, from one template: site.nginx.

`@word@` in the template is a blank. A blank alone on a line takes any number of lines. The lines between `@if word@`
and `@end@` are left out if the site has no such part.
"""
import ipaddress
import re
from dataclasses import dataclass
from pathlib import Path

TEMPLATE, BLANK = Path(__file__).with_name("site.nginx"), re.compile("@([a-z]+)@")
OPTIONAL = re.compile(r"^@if ([a-z]+)@\n(.*?)^@end@\n", re.DOTALL | re.MULTILINE)
LINES = re.compile(r"^([ #]*)@([a-z]+)@\n", re.MULTILINE)
# Values that systemd and nginx take unchanged: the name of a source, an address without a path, the path of a file.
SOURCE_NAME = re.compile(r"[a-z0-9][a-z0-9-]{0,31}")
WHOLE_ADDRESS = re.compile(r"https?://[A-Za-z0-9.-]+(?::\d{1,5})?")
WHOLE_PATH = re.compile(r"/[A-Za-z0-9._~+@/-]+")
# The subject and the prefix of a rule, which nginx and its patterns take unchanged once they are escaped.
SUBJECT, PREFIX = re.compile(r"[A-Za-z0-9 =,.@_/:+()'#&~*-]{1,256}"), re.compile(r"[A-Za-z0-9._~!&'()*+,=:@%/-]{0,240}")
NO_DOTS = r"(?![^ ]*/(\.|%2[Ee]){1,2}[/ ])"
# Addresses of this machine.
LOOPBACK = ("127.0.0.0/8", "::1")
# The number of bodies of one source that a visitor gets at a time.
BODIES = 4
STRICT = 'add_header Strict-Transport-Security "max-age=31536000" always;'
UPSTREAM = """upstream {name} {{
    # There is no other server, so nginx never takes it as down.
    server {place} max_fails=0;
}}
"""
WHOLE_LINK = '</.well-known/resourcesync>; rel="resourcesync"'
SOURCE_LINK = '</capabilitylist.xml>; rel="resourcesync"'


def entry(key: str, value: str) -> str:
    """Return a line of a map or geo block of nginx."""
    return f"{key:<13} {value};"


def network(value: object) -> str:
    """Return an address or a network as nginx takes it. Raise ValueError if the value is neither."""
    try:
        # (an address may be a number for this module, or have any text as its zone)
        found = ipaddress.ip_network(str(value))
        if "%" in str(found):
            raise ValueError
        return str(found)
    except ValueError:
        raise ValueError(f"{value!r} is no address, and no network as 192.0.2.0/24 is") from None


def escaped(path: str) -> str:
    """Return the path of a base within a pattern of nginx."""
    return re.escape(path).replace("\\-", "-")


@dataclass(frozen=True)
class Served:
    """A source of a site: the name of its upstream, the address of its program, and the path of its base."""

    upstream: str
    place: str
    path: str = ""

    def route(self) -> str:
        """Return the entry that leads from the path of the base to the source."""
        # (a name within a pattern has 32 letters at most; sites share it, as a request has one site)
        return entry(f'"~^{escaped(self.path)}(?<rp_at>/.*)$"', f"{self.upstream}$rp_at")

    def tab(self) -> str:
        """Return the entry that leads from the base to the source's tab of the page."""
        # (nginx treats the value `0` as empty, so a value is a whole address)
        return entry(f'"~^(GET|HEAD) {escaped(self.path)}/?(\\?|$)"', f'"/#source={self.path[1:]}"')


@dataclass(frozen=True)
class Tls:
    """The files of TLS: a certificate, its key, and the authority whose clients may change a source."""

    certificate: str
    key: str
    depositors: str = ""


@dataclass(frozen=True)
class Permission:
    """A rule: the certificate of a subject may change names with a prefix, or everything if the prefix is empty."""

    subject: str
    prefix: str

    def fault(self) -> str:
        """Return why nginx could not take this rule unchanged, or an empty text."""
        if not SUBJECT.fullmatch(self.subject):
            return (f"{self.subject!r}: a subject is as nginx has it, such as CN=alice,O=Library, of letters, digits "
                    "and  =,.@_/:+()'#&~*-")
        if not PREFIX.fullmatch(self.prefix):
            return f"{self.prefix!r}: a prefix is that of names, such as papers/, as they are sent"
        return ""

    def line(self) -> str:
        """Return the entry of this rule."""
        # (a browser joins segments of dots to the path, also encoded ones, so that the name is another one to it)
        path = rf"{NO_DOTS}/resource/{re.escape(self.prefix)}[^ ]+" if self.prefix else "/[^ ]*"
        return entry(f'"~^[^/ ]+{path} {re.escape(self.subject)}$"', "1")


@dataclass(frozen=True)
class Site:
    """The values in which sites differ. A collection has a file for its Source Description."""

    head: str
    name: str
    host: str
    port: int
    sources: tuple[Served, ...]
    near: tuple[str, ...] = LOOPBACK
    tls: Tls | None = None
    description: str = ""
    rules: tuple[Permission, ...] = ()

    def word(self) -> str:
        """Return the name within the names of nginx's variables."""
        return self.name.replace("-", "_")

    def sitemaps(self) -> str:
        """Return the lines of robots.txt about the Resource Lists."""
        scheme, usual_port = ("https", 443) if self.tls else ("http", 80)
        address = f"{scheme}://{self.host}" + (f":{self.port}" if self.port != usual_port else "")
        return "".join(f"Sitemap: {address}{source.path}/resourcelist.xml\\n" for source in self.sources)

    def parts(self) -> dict[str, bool]:
        """Return the optional parts of the template, and whether this site has them."""
        return {"rules": bool(self.rules), "whole": bool(self.description), "tls": bool(self.tls),
                "moved": bool(self.tls) and self.port == 443}

    def blocks(self) -> dict[str, list[str]]:
        """Return the lines for the blanks alone on a line."""
        return {
            "head": self.head.splitlines(),
            "near": [entry(text, "1") for text in self.near],
            "rules": [rule.line() for rule in self.rules],
            "paths": [source.route() for source in self.sources],
            "tabs": [source.tab() for source in self.sources],
            "upstreams": [UPSTREAM.format(name=source.upstream, place=source.place) for source in self.sources],
            "strict": [STRICT] if self.tls else [],
        }

    def blanks(self) -> dict[str, str]:
        """Return the texts for the blanks within lines."""
        is_whole, tls = bool(self.description), self.tls or Tls("", "")
        return {
            "name": self.name, "word": self.word(), "host": self.host, "port": str(self.port),
            "ssl": " ssl" if self.tls else "",
            "certificate": tls.certificate, "key": tls.key,
            "mark": "" if tls.depositors else "# ",
            "depositors": tls.depositors or "/etc/ssl/certs/depositors.pem",
            "keys": "16m" if is_whole else "4m", "kept": "8g" if is_whole else "2g",
            "links": WHOLE_LINK if is_whole else f"{SOURCE_LINK}, {WHOLE_LINK}",
            "description": self.description, "sitemaps": self.sitemaps(), "bodies": str(BODIES),
        }

    def text(self) -> str:
        """Return the text of the site."""
        parts, blocks, blanks = self.parts(), self.blocks(), self.blanks()
        text = OPTIONAL.sub(lambda part: part[2] if parts[part[1]] else "", TEMPLATE.read_text())
        text = LINES.sub(lambda blank: "".join(f"{blank[1]}{line}\n" for line in blocks[blank[2]]), text)
        return BLANK.sub(lambda blank: blanks[blank[1]], text)


def tls_of(host: str, files: dict[str, str]) -> Tls:
    """Return the files of TLS of a host: those that are named, and else the usual ones."""
    plain = {"certificate": f"/etc/ssl/certs/{host}.pem", "key": f"/etc/ssl/private/{host}.key"}
    return Tls(**plain | files)
