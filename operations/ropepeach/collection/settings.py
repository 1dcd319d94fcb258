"""The settings of a collection: a file in TOML, which names the address of the whole and all sources.

    address = "https://archive.example.org"      where all are served: a host, whose description names all sources
    name = "archive"                             the name of the whole in the site, where it is not `collection`
    near = ["192.0.2.0/24"]                      who may change them through the site, if not this machine only
    certificate = "/etc/ssl/certs/archive.pem"   the files of TLS, if the site's own names do not do
    key = "/etc/ssl/private/archive.key"
    depositors = "/etc/ssl/certs/depositors.pem"    who vouches for clients that may change them, if there are such
    may = [["CN=alice,O=Library", "papers/"]]    which certificate may change which names only, by their prefix

    [source.s1]                                  a name, which never changes: by it names find their source
    address = "http://127.0.0.1:8081"            where the program listens
    base = "https://archive.example.org/s1"      the address below which the source is served, as it was formatted with
    file = "/var/lib/ropepeach/s1.disk"
"""
from __future__ import annotations

import itertools
import re
import tomllib
from dataclasses import dataclass
from typing import Any
from urllib.parse import urlsplit

from ropepeach.admin.site_text import LOOPBACK, SOURCE_NAME, WHOLE_ADDRESS, WHOLE_PATH, Permission, network
from ropepeach.cli.numbers import MOST_PORT
from ropepeach.collection.placement import Homes
from ropepeach.faults import Misused, Unusable

KEYS = {"address", "name", "near", "certificate", "key", "depositors", "may", "source"}
NEEDED = {"address", "source"}
SOURCE_KEYS = {"address", "base", "file"}
LISTENING = re.compile(r"http://([A-Za-z0-9.-]+):(\d{1,5})")
# A base ends in a path of plain segments (docs/SCRIPT.md has the rules of bases).
PATH = re.compile(r"(?:/[A-Za-z0-9_~-][A-Za-z0-9._~-]*)+")
LONGEST_BASE = 128
# The path of the scripts of the site's page.
PAGE = "/site/"


@dataclass(frozen=True)
class Member:
    """A source of a collection."""

    name: str
    address: str
    base: str
    file: str

    @property
    def listener(self) -> str:
        """Return the host and the port on which the program listens."""
        return urlsplit(self.address).netloc


class CollectionSettings:
    """A collection as its file describes it. Wrong settings are refused before any request."""

    def __init__(self, path: str) -> None:
        settings = settings_in(path)
        self.path = path
        self.check_keys("", settings, KEYS, NEEDED)
        self.address = self.text("address", settings["address"], WHOLE_ADDRESS,
                                 "an address is http:// or https:// and a host, without a path")
        self.name = self.text("name", settings.get("name", "collection"), SOURCE_NAME,
                              "a name is 1 to 32 of a-z, 0-9 and -")
        self.near: tuple[str, ...] = LOOPBACK
        if "near" in settings:
            self.near = tuple(map(self.network, self.list_of("near", settings["near"], "addresses")))
        self.files = {key: self.text(key, settings[key], WHOLE_PATH, "a file is a whole path")
                      for key in ("certificate", "key", "depositors") if key in settings}
        self.rules = tuple(self.rule(pair) for pair in self.list_of("may", settings.get("may", []), "pairs"))
        if not isinstance(settings["source"], dict) or not settings["source"]:
            raise self.wrong("source", "a collection has a table [source.NAME] for each source")
        self.members = {name: self.member(name, table) for name, table in settings["source"].items()}
        self.check_apart()
        self.homes = Homes(self.members)

    def wrong(self, where: str, why: str) -> Misused:
        """Return the fault of a wrong place of the file."""
        return Misused(f"{self.path}: {where}: {why}")

    def check_keys(self, where: str, table: dict[str, Any], keys: set[str], needed: set[str]) -> None:
        """Refuse unknown and missing keys."""
        for key in table:
            if key not in keys:
                raise self.wrong(f"{where}{key}", f"there is no such key; the keys are {', '.join(sorted(keys))}")
        for key in sorted(needed):
            if key not in table:
                raise self.wrong(f"{where}{key}", "this key is missing")

    def text(self, where: str, value: Any, form: re.Pattern[str], why: str) -> str:
        """Return a value, which must be a text of a form."""
        if not isinstance(value, str) or not form.fullmatch(value):
            raise self.wrong(where, f"{value!r}: {why}")
        return value

    def list_of(self, where: str, value: Any, items: str) -> list[Any]:
        """Return a value that is a list."""
        if not isinstance(value, list):
            raise self.wrong(where, f"wants a list of {items}")
        return value

    def network(self, value: Any) -> str:
        """Return an address or a network, as nginx takes it."""
        try:
            return network(value)
        except ValueError as fault:
            raise self.wrong("near", str(fault)) from None

    def rule(self, pair: Any) -> Permission:
        """Return the rule of a certificate: the prefix of the names that it may change."""
        if not isinstance(pair, list) or len(pair) != 2 or not all(isinstance(text, str) for text in pair):
            raise self.wrong("may", f"{pair!r} is no pair of a subject and a prefix")
        rule = Permission(*pair)
        if rule.fault() or "depositors" not in self.files or not self.address.startswith("https:"):
            raise self.wrong("may", rule.fault() or "it wants https:// and depositors")
        return rule

    def member(self, name: str, table: Any) -> Member:
        """Return the source that a table describes."""
        where = f"source.{name}."
        if not SOURCE_NAME.fullmatch(name):
            raise self.wrong(f"source.{name}", "a name is 1 to 32 of a-z, 0-9 and -, and begins with a letter or digit")
        if not isinstance(table, dict):
            raise self.wrong(f"source.{name}", "is no table")
        self.check_keys(where, table, SOURCE_KEYS, SOURCE_KEYS)
        address = self.text(where + "address", table["address"], LISTENING,
                            "an address is http://, a host and a port, as http://127.0.0.1:8081")
        if not 0 < int(address.rpartition(":")[2]) <= MOST_PORT:
            raise self.wrong(where + "address", "a port is 1 to 65535")
        base = table["base"]
        path = base.removeprefix(self.address) if isinstance(base, str) else ""
        if path == base or not PATH.fullmatch(path) or len(base) > LONGEST_BASE:
            raise self.wrong(where + "base", f"{base!r}: a base is {self.address} and a path, "
                                             f"as {self.address}/{name}, of {LONGEST_BASE} bytes at most")
        if f"{path}/".startswith(PAGE):
            raise self.wrong(where + "base", f"{base}: the page has its files below {PAGE}")
        file = self.text(where + "file", table["file"], WHOLE_PATH,
                         "a file is a whole path, of letters, digits and ._~+@/-")
        return Member(name, address, base, file)

    def check_apart(self) -> None:
        """Refuse two sources of one base, address or file, and a base below another."""
        for key in ("base", "address", "file"):
            known: dict[str, Member] = {}
            for member in self.members.values():
                value = getattr(member, key)
                other = known.setdefault(value, member)
                if other is not member:
                    raise self.wrong(f"source.{member.name}.{key}", f"{value} is the {key} of {other.name}, too")
        for member, other in itertools.permutations(self.members.values(), 2):
            if member.base.startswith(other.base + "/"):
                raise self.wrong(f"source.{member.name}.base", f"{member.base} lies below the base of {other.name}")


def settings_in(path: str) -> dict[str, Any]:
    """Return the content of a TOML file."""
    try:
        with open(path, "rb") as file:
            return tomllib.load(file)
    except OSError as fault:
        raise Unusable(f"{path}: cannot be read: {fault.strerror}") from None
    except (tomllib.TOMLDecodeError, UnicodeDecodeError) as fault:
        raise Misused(f"{path}: is no TOML: {fault}") from None
    except RecursionError:
        raise Misused(f"{path}: its lists are too deep") from None
