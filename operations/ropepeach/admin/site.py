"""Writes the nginx site for one source to standard output.

BASE is the address with which the source was formatted. One nginx serves many sources: each site needs its own
--name. `ropepeach collection` writes the site of a collection.
"""
import argparse
from urllib.parse import urlsplit

from ropepeach.admin.site_text import (
    LOOPBACK, SOURCE_NAME, WHOLE_ADDRESS, WHOLE_PATH, Permission, Served, Site, network, tls_of,
)
from ropepeach.cli import numbers, output
from ropepeach.cli.statuses import Status
from ropepeach.faults import Misused

SOURCE_SITE_HEAD = """The site of nginx for {base}, by `ropepeach site`, in front of a program on {place}.
Change by hand: the name {host}, the files of TLS, and the clients that may change the source."""


def add_arguments(parser: argparse.ArgumentParser) -> None:
    """Add the arguments of the command."""
    parser.add_argument("base", metavar="BASE", help="the address of the source, as https://source.example.org")
    parser.add_argument("--name", default="source", help="the name of the source and of its unit (source)")
    parser.add_argument("--port", type=numbers.port, default=8080, help="the port of the program (8080)")
    parser.add_argument("--certificate", metavar="FILE", help="the certificate of the host (/etc/ssl/certs/HOST.pem)")
    parser.add_argument("--key", metavar="FILE", help="its key (/etc/ssl/private/HOST.key)")
    add_access_arguments(parser)


def add_access_arguments(parser: argparse.ArgumentParser) -> None:
    """Add the arguments for the clients that may change a source."""
    parser.add_argument("--depositors", metavar="FILE", help="the authority whose clients may change the source")
    parser.add_argument("--may", metavar=("SUBJECT", "PREFIX"), nargs=2, action="append", default=[],
                        help="let a certificate change only names with a prefix, or all if that is ''; "
                             "may be given again")
    parser.add_argument("--near", metavar="NETWORK", action="append",
                        help="let these addresses change the source; may be given again; `none`: no address "
                             "(127.0.0.0/8 and ::1)")


def near_of(texts: list[str] | None) -> tuple[str, ...]:
    """Return the addresses that may change the source."""
    if texts is None:
        return LOOPBACK
    try:
        return tuple(network(text) for text in texts if text != "none")
    except ValueError as fault:
        raise Misused(f"--near: {fault}") from None


def site_for(arguments: argparse.Namespace) -> Site:
    """Return the site for these arguments. Raise `Misused` for a value that nginx would not take unchanged."""
    if not WHOLE_ADDRESS.fullmatch(arguments.base):
        raise Misused(f"{arguments.base!r}: an address is http:// or https:// and a host, without a path")
    if not SOURCE_NAME.fullmatch(arguments.name):
        raise Misused(f"--name: {arguments.name!r}: a name is 1 to 32 of a-z, 0-9 and -, and begins with a "
                      f"letter or digit")
    place = urlsplit(arguments.base)
    host, _, port_text = place.netloc.partition(":")
    is_safe = place.scheme == "https"
    port = int(port_text or (443 if is_safe else 80))
    if not 0 < port <= numbers.MOST_PORT:
        raise Misused("a port is 1 to 65535")
    files = {word: getattr(arguments, word) for word in ("certificate", "key", "depositors")
             if getattr(arguments, word) is not None}
    for word, path in files.items():
        if not WHOLE_PATH.fullmatch(path):
            raise Misused(f"--{word}: {path!r}: a file is a whole path, of letters, digits and ._~+@/-")
    rules = tuple(Permission(*words) for words in arguments.may)
    for rule in rules:
        if rule.fault() or "depositors" not in files or not is_safe:
            raise Misused(f"--may: {rule.fault() or 'it wants https:// and --depositors FILE'}")
    host, listener = host.lower(), f"127.0.0.1:{arguments.port}"
    head = SOURCE_SITE_HEAD.format(base=arguments.base, place=listener, host=host)
    return Site(head, arguments.name, host, port, (Served(f"ropepeach_{arguments.name}", listener),),
                near_of(arguments.near), tls_of(host, files) if is_safe else None, rules=rules)


def run(arguments: argparse.Namespace) -> int:
    """Write the site."""
    text = site_for(arguments).text()
    output.results(text.splitlines(), {"text": text})
    return Status.DONE
