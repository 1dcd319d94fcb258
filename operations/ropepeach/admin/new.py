"""Creates a source on this machine: its file, its settings, its units and its nginx site.

Completed steps are skipped, so a run that was stopped can be run again. Before the first write it checks the address,
the size and the room for it, the port, the certificate and nginx.
"""
from __future__ import annotations

import argparse
import dataclasses
import os
from pathlib import Path
from urllib.parse import urlsplit

from ropepeach.admin import USER, machine, site
from ropepeach.admin.site_text import Tls
from ropepeach.admin.steps import Action, Program, Write, add_dry_run, as_user, cache_steps, carry_out
from ropepeach.cli import numbers, output
from ropepeach.cli.statuses import Status
from ropepeach.disk import formula
from ropepeach.faults import Fault, Misused, Unusable

LETS_ENCRYPT = Path("/etc/letsencrypt/live")
DEFAULT_SIZE = 128 * 1_048_576
SMALLEST = 16_384
# The bytes that stay free on the file system of a source.
SPARE = 16 * 1_048_576


def add_arguments(parser: argparse.ArgumentParser) -> None:
    """Add the arguments of the command."""
    parser.add_argument("name", metavar="NAME", help="the name of the source: a-z, 0-9 and -")
    parser.add_argument("--base", required=True, metavar="URL",
                        help="its address for mirrors, as https://source.example.org; it cannot change later")
    sizes = parser.add_mutually_exclusive_group()
    sizes.add_argument("--for", dest="folder", metavar="FOLDER", help="make room for the files of this folder")
    sizes.add_argument("--size", type=numbers.size, default=DEFAULT_SIZE, metavar="BYTES",
                       help="its size, as 512MiB (128MiB)")
    parser.add_argument("--items", type=numbers.count, default=1000, metavar="N",
                        help="entries in one part of a list (1,000)")
    parser.add_argument("--port", type=numbers.port, metavar="PORT",
                        help="its port on 127.0.0.1 (the first free port from 8080 on)")
    parser.add_argument("--http", action="store_true", help="serve it by http, without TLS, to try it")
    parser.add_argument("--certificate", metavar="FILE", help="the certificate of the host (found by its name)")
    parser.add_argument("--key", metavar="FILE", help="its key (found by its name)")
    site.add_access_arguments(parser)
    parser.add_argument("--no-guard", action="store_true",
                        help="leave its port open to all users of this machine, and 127.0.0.0/8 a near network")
    parser.add_argument("--no-site", action="store_true", help="do not configure nginx")
    add_dry_run(parser)


def file_steps(path: Path, size: int, base: str, items: int) -> list[Action]:
    """Return the steps of the file, which gets its own name when it is complete, reserved and synced."""
    file, user = str(path), USER
    fresh, folder = f"{file}.new", str(path.parent)
    steps: list[Action] = []
    if path.parent == machine.STATE_FOLDER and not path.parent.is_dir():
        steps.append(Program("the folder of sources", ("install", "-d", "-o", user, "-g", user, "-m", "700", folder)))
    return [
        *steps,
        Program("no file of a run that was stopped", as_user(user, "rm", "-f", fresh)),
        Program("an empty source", as_user(user, "rs_source", "format", fresh, str(size), base, str(items))),
        Program("its room, reserved", as_user(user, "fallocate", "--length", str(size), fresh)),
        Program("all of it on the disk", as_user(user, "sync", fresh)),
        Program("its own name", as_user(user, "mv", "-n", "-T", fresh, file)),
        Program("the name on the disk", as_user(user, "sync", folder)),
    ]


def guard_steps(place: machine.Place, is_wanted: bool) -> list[Action]:
    """Return the steps that close the port of a new source to other users, or open it again."""
    reload = Program("systemd, which takes it", ("systemctl", "daemon-reload"))
    if not is_wanted:
        opened = Program("its port, open to all users", ("rm", str(place.guard)))
        return [opened, reload] if place.guard.exists() else []
    # (an older source keeps its users)
    if place.guard.exists() or place.known() is not None:
        return []
    text = machine.guard_text()
    if text is None:
        output.message("other users of this machine can change the source: there is no nftables here (or --no-guard)")
        return []
    return [Write("its port, closed to other users", place.guard, text), reload]


def site_steps(place: machine.Place, text: str) -> list[Action]:
    """Return the steps of the site, which nginx tests first."""
    steps: list[Action] = []
    if not place.site.exists():
        steps.append(Write("its site", place.site, text))
    if not os.path.lexists(place.enabled_site):
        link, file = str(place.enabled_site), str(place.site)
        steps += [Program("its site, enabled", ("ln", "-s", file, link)),
                  Program("nginx tests the site", ("nginx", "-t"), undo=("rm", link, file))]
    return [*steps, Program("nginx, which takes the site", ("systemctl", "reload-or-restart", "nginx"))]


def bytes_for(folder: str, base: str) -> int:
    """Return the bytes of a file for the files of a folder, as `ropepeach size` prints them."""
    from ropepeach.disk.size import bodies_in, size_of
    from ropepeach.fill.files import Files, Kinds

    bodies, _ = bodies_in(Files(folder), Kinds())
    if bodies.count > formula.MOST_RESOURCES:
        raise Fault(f"{folder}: too much for one source, which holds {formula.MOST_RESOURCES:,} resources at most")
    return size_of(bodies, base, formula.MOST_CHANGES)


def check_address(base: str, is_plain: bool) -> None:
    """Raise `Misused` for an address that no source of this machine can have."""
    if base.endswith("/"):
        raise Misused(f"--base: {base!r}: an address ends without a slash, as {base.rstrip('/')}")
    scheme = urlsplit(base).scheme
    if scheme == "http" and not is_plain:
        raise Misused("--base: http:// is without TLS: take https://, or add --http for a try")
    if scheme == "https" and is_plain:
        raise Misused("--http: the base is https://, and mirrors would ask by TLS")


def tls_for(host: str, certificate: str | None, key: str | None) -> tuple[str, str]:
    """Return the certificate of a host and its key, which belong together."""
    import ssl

    if (certificate is None) != (key is None):
        raise Misused("--certificate and --key come together")
    if certificate is None or key is None:
        pairs = [(LETS_ENCRYPT / host / "fullchain.pem", LETS_ENCRYPT / host / "privkey.pem"),
                 (Path(f"/etc/ssl/certs/{host}.pem"), Path(f"/etc/ssl/private/{host}.key"))]
        found = next((pair for pair in pairs if all(path.exists() for path in pair)), None)
        if found is None:
            places = " or ".join(f"{first} and {second}" for first, second in pairs)
            raise Unusable(
                f"there is no certificate for {host} at {places}: name one by --certificate and --key, or try --http")
        certificate, key = map(str, found)
    try:
        ssl.SSLContext(ssl.PROTOCOL_TLS_SERVER).load_cert_chain(certificate, key, password=lambda: "")
    except (ssl.SSLError, OSError) as fault:
        raise Unusable(f"{certificate} and {key}: no certificate with its key: {fault}") from None
    return certificate, key


def settings_for(place: machine.Place, wanted_port: int | None) -> machine.Settings:
    """Return the file and the port of the source."""
    known, others = place.known(), machine.other_settings(place.name)
    if known is not None and wanted_port in (None, known.port):
        return known
    taken = {other.port: name for name, other in others.items()}
    if wanted_port in taken:
        raise Unusable(f"--port: {wanted_port} is that of the source {taken[wanted_port]}")
    file = known.file if known else machine.STATE_FOLDER / f"{place.name}.disk"
    owner = next((name for name, other in others.items() if other.file == file), None)
    if owner:
        raise Unusable(f"{file} is the file of the source {owner}")
    port = wanted_port or machine.free_port(set(taken))
    if not machine.is_free(port):
        raise Unusable(f"--port: {port} is in use; without --port a free one is taken")
    return machine.Settings(file, port)


def site_text_of(settings: machine.Settings, arguments: argparse.Namespace, is_guarded: bool) -> str | None:
    """Return the text of the nginx site. All users of this machine share its addresses: a guarded source has none."""
    if arguments.no_site:
        return None
    near = ["none"] if arguments.near is None and is_guarded else arguments.near
    made = site.site_for(argparse.Namespace(**vars(arguments) | {"port": settings.port, "near": near}))
    if made.tls:
        certificate, key = tls_for(made.host, arguments.certificate, arguments.key)
        made = dataclasses.replace(made, tls=Tls(certificate, key, made.tls.depositors))
    return made.text()


def plan_of(place: machine.Place, arguments: argparse.Namespace) -> tuple[machine.Settings, list[Action]]:
    """Check all requirements; return the settings of the source, and the steps that remain."""
    check_address(arguments.base, arguments.http)
    settings = settings_for(place, arguments.port)
    guard = guard_steps(place, not arguments.no_guard)
    text = site_text_of(settings, arguments, bool(guard or place.guard.exists()) and not arguments.no_guard)
    base = machine.base_of(settings.file)
    if base not in (None, arguments.base):
        raise Unusable(f"{settings.file}: the source there has the base {base}, which can't change: take another name")
    size = bytes_for(arguments.folder, arguments.base) if arguments.folder else arguments.size
    if not SMALLEST <= size <= formula.MOST_BYTES:
        raise Misused(f"the file has {size:,} bytes: a source uses {SMALLEST:,} to {formula.MOST_BYTES:,}")
    steps: list[Action] = []
    if base is None:
        folder = next(parent for parent in settings.file.parents if parent.is_dir())
        machine.check_room(folder, size + SPARE, "make room, or take a smaller --size")
        # (a source of this name that was removed may have left parts)
        steps += [*cache_steps(place.cache), *file_steps(settings.file, size, arguments.base, arguments.items)]
    steps += guard
    if settings != place.known():
        steps.append(Write("the settings of its units", place.settings, settings.text()))
    # (this does not affect running units)
    steps.append(Program("its units", ("systemctl", "enable", "--now", place.unit(), *place.timers())))
    return settings, [*steps, *(site_steps(place, text) if text else [])]


def run(arguments: argparse.Namespace) -> int:
    """Create the source, and print the next commands."""
    if not arguments.dry_run:
        machine.wants("rs_source", "runuser", "fallocate", "systemctl", *([] if arguments.no_site else ["nginx"]))
    place, base = machine.Place(arguments.name), arguments.base
    settings, steps = plan_of(place, arguments)
    carry_out(steps, arguments.dry_run)
    if arguments.dry_run:
        return Status.DONE
    unit, file, address = place.unit(), str(settings.file), f"http://127.0.0.1:{settings.port}"
    lines = [f"{base} is served from {file} by {unit}, on port {settings.port}",
             f"look:   curl {base}/.well-known/resourcesync",
             f"fill:   ropepeach fill FOLDER {address}",
             f"backup: ropepeach backup {place.name} FILE"]
    output.results(lines, {"base": base, "file": file, "unit": unit, "address": address})
    return Status.DONE
