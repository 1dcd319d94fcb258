"""Test the settings of a collection, without a server: refused files, files written from them, the sources of names."""
import pathlib
import re
import subprocess
import xml.etree.ElementTree as ElementTree

import pytest

from operations.tests.tools.command_runs import page_of
from operations.tests.tools.line_runs import here
from operations.tests.tools.running import SECONDS, ropepeach
from ropepeach.collection import show
from ropepeach.collection.settings import CollectionSettings
from ropepeach.faults import Misused
from tests.program import ROOT

HOMES = ROOT / "operations/tests/collection/homes.txt"
# A file of a collection of this many sources.
HEAD = 'address = "https://archive.example.org"\n'
SOURCE = ('[source.s{0}]\naddress = "http://127.0.0.1:{1}"\nbase = "https://archive.example.org/s{0}"\n'
          'file = "/var/lib/ropepeach/s{0}.disk"\n')
# The IPv4 and IPv6 networks with the longest texts.
LONGEST_NETWORKS = ["255.255.255.255/32", "ffff:ffff:ffff:ffff:ffff:ffff:ffff:ffff/128"]
SITEMAP, RS = "{http://www.sitemaps.org/schemas/sitemap/0.9}", "{http://www.openarchives.org/rs/terms/}"


def settings(count: int) -> str:
    """Return the file of a collection of this many sources."""
    return HEAD + "".join(SOURCE.format(number, 8080 + number) for number in range(1, count + 1))


# Changes to the settings of two sources, and the message of the refusal.
WRONG = [
    ("", "colour = 1\n", "colour: there is no such key"),
    ('file = "/var/lib/ropepeach/s2.disk"', 'file = "/var/lib/ropepeach/s2.disk"\nsize = 1',
     "source.s2.size: there is no such key"),
    (HEAD, "", "address: this key is missing"),
    ('file = "/var/lib/ropepeach/s2.disk"\n', "", "source.s2.file: this key is missing"),
    ("archive.example.org/s2", "archive.example.org/s1",
     "source.s2.base: https://archive.example.org/s1 is the base of s1, too"),
    ("archive.example.org/s2", "archive.example.org/s1/s2",
     "source.s2.base: https://archive.example.org/s1/s2 lies below the base of s1"),
    ("http://127.0.0.1:8082", "http://127.0.0.1:8081",
     "source.s2.address: http://127.0.0.1:8081 is the address of s1, too"),
    ("s2.disk", "s1.disk", "source.s2.file: /var/lib/ropepeach/s1.disk is the file of s1, too"),
    ("https://archive.example.org/s2", "https://other.example.org/s2",
     "source.s2.base: 'https://other.example.org/s2': a base is"),
    ("archive.example.org/s2", "archive.example.org/../s2", "a base is"),
    ("archive.example.org/s2", "archive.example.org/.well-known", "a base is"),
    ("archive.example.org/s2", "archive.example.org/s2/", "a base is"),
    ("archive.example.org/s2", "archive.example.org", "a base is"),
    ("archive.example.org/s2", "archive.example.org/s2;}", "a base is"),
    ("archive.example.org/s2", "archive.example.org/" + "a" * 120, "a base is"),
    ("http://127.0.0.1:8082", "127.0.0.1:8082", "source.s2.address: '127.0.0.1:8082': an address is"),
    ("http://127.0.0.1:8082", "http://127.0.0.1", "an address is"),
    ("http://127.0.0.1:8082", "http://127.0.0.1:99999", "a port is 1 to 65535"),
    ("http://127.0.0.1:8082", "http://127.0.0.1:0", "a port is 1 to 65535"),
    ("/var/lib/ropepeach/s2.disk", "s2.disk", "a file is a whole path"),
    ("/var/lib/ropepeach/s2.disk", "/var/lib/a b", "a file is a whole path"),
    (HEAD, HEAD + 'near = ["::1%x;"]\n', "near: '::1%x;' is no address"),
    ("[source.s2]", '[source."../s2"]', "a name is 1 to 32 of"),
    ("[source.s2]", "[source.S2]", "a name is 1 to 32 of"),
    ("[source.s2]", "[[source.s2]]", "source.s2: is no table"),
    ('address = "https://archive.example.org"', 'address = "https://archive.example.org/a"',
     "example.org/a': an address is"),
    ('address = "https://archive.example.org"', "address = 1", "address: 1: an address is"),
    (HEAD, HEAD + 'near = "127.0.0.1"\n', "near: wants a list"),
    (HEAD, HEAD + 'near = ["127.0.0.1/8; }"]\n', "is no address, and no network"),
    (HEAD, HEAD + 'name = "a b"\n', "name: 'a b': a name is 1 to 32 of"),
    ("archive.example.org/s2", "archive.example.org/site",
     "source.s2.base: https://archive.example.org/site: the page has its files below"),
    ("archive.example.org/s2", "archive.example.org/site/s2", "the page has its files below /site/"),
    (HEAD, HEAD + 'key = "/a b"\n', "key: '/a b': a file is a whole path"),
    (HEAD, HEAD + "address =\n", "is no TOML"),
]


def write_wrong_settings(old: str, new: str) -> None:
    """Write the settings of two sources with the last occurrence of an old text replaced."""
    text = settings(2)
    assert old in text
    place = 0 if old == HEAD or old.startswith("address") else text.rindex(old)
    pathlib.Path("c.toml").write_text(text[:place] + new + text[place + len(old):] if old else new + text)


@pytest.mark.parametrize(("old", "new", "why"), WRONG)
def test_wrong_settings_are_refused(room: pathlib.Path, old: str, new: str, why: str) -> None:
    write_wrong_settings(old, new)
    with pytest.raises(Misused) as fault:
        CollectionSettings("c.toml")
    assert why in str(fault.value)


@pytest.mark.parametrize("words", [["collection", "c.toml", "--into", "site"], ["fill", "folder", "c.toml"],
                                   ["grow", "c.toml"]], ids=["collection", "fill", "grow"])
def test_each_command_with_wrong_settings_ends_before_it_writes_or_asks(room: pathlib.Path, words: list[str]) -> None:
    pathlib.Path("folder").mkdir()
    for old, new, why in WRONG[:2]:
        write_wrong_settings(old, new)
        status, output, messages = ropepeach(*words)
        assert (status, output, messages.count("\n")) == (2, "", 1), f"{new!r}: {messages}"
        assert why in messages
    assert not pathlib.Path("site").exists()


def test_missing_settings_and_settings_without_a_source_are_refused(room: pathlib.Path) -> None:
    assert ropepeach("collection", "none.toml", "--into", "site")[0] == 3
    pathlib.Path("c.toml").write_text(HEAD + "source = {}\n")
    assert ropepeach("collection", "c.toml", "--into", "site")[0] == 2
    assert not pathlib.Path("site").exists()


def test_files_for_units_site_and_description_are_written(room: pathlib.Path) -> None:
    """The Source Description names every source's Capability List once."""
    pathlib.Path("c.toml").write_text(settings(3))
    assert ropepeach("collection", "c.toml", "--into", "site")[0] == 0
    names = sorted(path.name for path in pathlib.Path("site").iterdir())
    assert names == ["collection.nginx", "resourcesync.xml", "s1.env", "s2.env", "s3.env"]
    lines = [line for line in pathlib.Path("site/s2.env").read_text().splitlines() if not line.startswith("#")]
    assert lines == ["FILE=/var/lib/ropepeach/s2.disk", "PORT=8082", "COUNT=1000000000"]
    root = ElementTree.fromstring(pathlib.Path("site/resourcesync.xml").read_bytes())
    assert root.tag == SITEMAP + "urlset"
    assert root.find(f"{RS}md[@capability='description']") is not None
    found = [(child.findtext(SITEMAP + "loc"), [link.get("capability") for link in child.findall(RS + "md")])
             for child in root.findall(SITEMAP + "url")]
    assert found == [(f"https://archive.example.org/s{number}/capabilitylist.xml", ["capabilitylist"])
                     for number in (1, 2, 3)]
    before = {path.name: path.read_bytes() for path in pathlib.Path("site").iterdir()}
    assert ropepeach("collection", "c.toml", "--into", "site")[0] == 0
    assert {path.name: path.read_bytes() for path in pathlib.Path("site").iterdir()} == before


# Arguments of `ropepeach site` that are refused, and the reasons.
WRONG_SITES = [
    (["http://"], "an address is"), (["https://a.example/s1"], "an address is"),
    (["https://a.example;}"], "an address is"),
    (["a.example"], "an address is"), (["https://a.example:0"], "a port is"),
    (["https://a.example:99999"], "a port is"),
    (["https://a.example", "--port", "0"], "a port is"), (["https://a.example", "--port", "65536"], "a port is"),
    (["https://a.example", "--port", "x"], "a port is"), (["https://a.example", "--name", "a b"], "a name is 1 to 32"),
    (["https://a.example", "--name", "a_b"], "a name is 1 to 32"),
    (["https://a.example", "--name", ""], "a name is 1 to 32"),
    (["https://a.example", "--near", "1.2.3.4/8; }"], "no network"),
    (["https://a.example", "--near", ""], "no network"),
    (["https://a.example", "--key", "a b"], "a file is a whole path"),
    (["https://a.example", "--depositors", "/a;b"], "a file is a whole path"),
    (["https://a.example", "--certificate", ""], "a file is a whole path"), ([], "arguments are required"),
]


@pytest.mark.parametrize(("words", "why"), WRONG_SITES)
def test_wrong_words_of_site_are_refused(room: pathlib.Path, words: list[str], why: str) -> None:
    """ropepeach site refuses arguments that nginx would read differently."""
    status, output, messages = ropepeach("site", *words)
    assert (status, output) == (2, ""), messages
    assert why in messages


def test_a_site_over_http_has_its_words_in_their_places(room: pathlib.Path) -> None:
    base = "http://A.example:8088"
    output = ropepeach("site", base, "--name", "a-b", "--port", 99, "--near", "192.0.2.0/24", "--near",
                       "2001:db8::/32")[1]
    assert near_in(output, "a_b") == ["default", "0;", "192.0.2.0/24", "1;", "2001:db8::/32", "1;"]
    long = ropepeach("site", base, "--near", LONGEST_NETWORKS[0], "--near", LONGEST_NETWORKS[1])[1]
    assert near_in(long, "source") == ["default", "0;", LONGEST_NETWORKS[0], "1;", LONGEST_NETWORKS[1], "1;"]
    for words, count in [("server 127.0.0.1:99 max_fails=0;", 1), ("listen 8088;", 1), ("server_name a.example;", 1),
                         ("ssl_certificate", 0),
                         ("Strict-Transport-Security", 0), ("http://$rp_a_b_asked;", 4),
                         ("upstream ropepeach_a-b {", 1), ("rp_source", 0),
                         ("/var/cache/ropepeach-a-b ", 1), ("Sitemap: http://a.example:8088/resourcelist.xml\\n", 1)]:
        assert output.count(words) == count, f"places of {words}"


def test_a_site_over_https_has_its_words_in_their_places(room: pathlib.Path) -> None:
    files = ["--certificate", "/c.pem", "--key", "/k.pem", "--depositors", "/d.pem"]
    output = ropepeach("site", "https://a.example", *files, "--near", "none")[1]
    for words in ("    ssl_certificate     /c.pem;", "    ssl_certificate_key /k.pem;",
                  "    ssl_client_certificate /d.pem;",
                  "    ssl_verify_client      optional;", "return 301 https://$server_name$request_uri;"):
        assert output.count(f"{words}\n") == 1, f"places of {words}"
    assert near_in(output, "source") == ["default", "0;"]


@pytest.mark.parametrize(("address", "port", "counts"), [
    ("http://a.example", 65_535, [("listen 80;", 1), ("server 127.0.0.1:65535 max_fails=0;", 1),
                                  ("Sitemap: http://a.example/resourcelist.xml\\n", 1)]),
    ("https://a.example:65535", 1, [("server 127.0.0.1:1 ", 1), ("listen 65535 ssl;", 1), ("return 301", 0),
                                    ("Sitemap: https://a.example:65535/", 1)])])
def test_a_site_has_the_port_of_its_address_and_that_of_its_source(
        room: pathlib.Path, address: str, port: int, counts: list[tuple[str, int]]) -> None:
    output = ropepeach("site", address, "--port", port)[1]
    for words, count in counts:
        assert output.count(words) == count, words


def near_in(site: str, name: str) -> list[str]:
    """Return the near addresses of a site."""
    text: str = re.findall(rf"(?s)geo \$rp_{name}_near {{\n(.*?)}}", site)[0]
    return text.split()


def test_the_site_has_the_name_and_near_addresses_of_its_settings(room: pathlib.Path) -> None:
    """The site defaults to the near addresses of this machine, and escapes a base in patterns."""
    odd = settings(2).replace("archive.example.org/s2", "archive.example.org/s.2-a")
    tries: list[tuple[str, str, list[str]]] = [
        (odd, "collection", ["127.0.0.0/8", "1;", "::1", "1;"]), (f"near = []\n{odd}", "collection", []),
        (f'name = "all-of-it"\nnear = ["192.0.2.7"]\n{odd}', "all_of_it", ["192.0.2.7/32", "1;"])]
    for text, name, near in tries:
        pathlib.Path("c.toml").write_text(text)
        assert ropepeach("collection", "c.toml", "--into", "site")[0] == 0
        site = pathlib.Path("site/collection.nginx").read_text()
        assert near_in(site, name) == ["default", "0;", *near], f"near, {name}"
        upstream = name.replace("_", "-")
        assert site.count(f'"~^/s\\.2-a(?<rp_at>/.*)$" ropepeach_{upstream}.s2$rp_at;\n') == 1
        for words in (f"upstream ropepeach_{upstream}.s2 {{", f"/var/cache/ropepeach-{upstream} ",
                      "Sitemap: https://archive.example.org/s.2-a/",
                      f"alias                 {pathlib.Path('site').resolve()}/resourcesync.xml;"):
            assert site.count(words) == 1, f"places of {words}"


def spelled(names: list[str], count: int) -> dict[str, tuple[str, str]]:
    """Return the source of every name among s1, s2.., and its digest by sha256sum."""
    files = [(f"spelled/{number}-{number_of_home}", name, f"s{number_of_home}") for number, name in enumerate(names)
             for number_of_home in range(1, count + 1)]
    pathlib.Path("spelled").mkdir(exist_ok=True)
    for path, name, source in files:
        pathlib.Path(path).write_bytes(f"{source}\0{name}".encode())
    process = subprocess.run(["sha256sum", *(file[0] for file in files)], capture_output=True, check=True,
                             timeout=SECONDS, text=True)
    digests = {path: digest for digest, path in map(str.split, process.stdout.splitlines())}
    found: dict[str, tuple[str, str]] = {}
    for path, name, source in files:
        found[name] = max(found.get(name, ("", "")), (digests[path], source))
    return found


def test_names_live_where_the_table_says(room: pathlib.Path) -> None:
    """sha256sum and the command give the same table of sources; a fifth source takes about 20% of the names, and no
    other name moves.
    """
    table = [line.split() for line in HOMES.read_text().splitlines() if not line.startswith("#")]
    names = [row[0] for row in table]
    four, five = spelled(names, 4), spelled(names, 5)
    assert [[name, four[name][1], *reversed(five[name])] for name in names] == table
    many, homes = [f"d{number % 40}/{number}.txt" for number in range(4_000)], {}
    for column, count in ((1, 4), (2, 5)):
        pathlib.Path("c.toml").write_text(settings(count))
        pathlib.Path("names").write_text("".join(f"{name}\n" for name in names + many))
        lines = [line.split() for line in ropepeach("collection", "c.toml", "--names", "names")[1].splitlines()]
        assert lines[: len(names)] == [[row[column], row[0]] for row in table], f"homes among {count}"
        homes[count] = {name: home for home, name in lines[len(names):]}
    moved = [name for name in many if homes[4][name] != homes[5][name]]
    assert {homes[5][name] for name in moved} == {"s5"}
    # (four standard deviations around 20%)
    assert 700 <= len(moved) <= 900, f"about one of five moves: {len(moved)} of 4,000"


@pytest.mark.parametrize("name", ["site", "collection", "grow"])
def test_the_manual_page_has_the_options_and_statuses_of_its_command(name: str) -> None:
    page_of(name)


def test_a_file_of_deep_lists_is_refused(room: pathlib.Path) -> None:
    """The message is one line."""
    pathlib.Path("c.toml").write_text("a = " + "[" * 100_000)
    status, _, messages = ropepeach("collection", "c.toml")
    assert (status, messages) == (2, "ropepeach collection: c.toml: its lists are too deep\n")


def test_a_folder_that_nginx_would_not_take_is_refused(room: pathlib.Path) -> None:
    """Its path is in the site."""
    pathlib.Path("c.toml").write_text(settings(1))
    for folder in ("my archive", "x; } location = /pwn {", "a\nb", "$uri", "#x"):
        status, _, messages = ropepeach("collection", "c.toml", "--into", folder)
        assert (status, messages.count("\n"), "the path of a folder has letters" in messages) == (2, 1, True), messages
        assert not pathlib.Path(folder).exists()


def test_writing_a_collection_empties_the_cache_of_its_site(
        room: pathlib.Path, monkeypatch: pytest.MonkeyPatch) -> None:
    """A source of the collection may have another file now. A dry run keeps the cache."""
    monkeypatch.setattr(show, "CACHES", room)
    pathlib.Path("c.toml").write_text(settings(1))
    part = room / "ropepeach-collection/0/part"
    part.parent.mkdir(parents=True)
    part.write_bytes(b"an old part")
    assert (here("collection", "c.toml", "--into", "a", "--dry-run").returncode, part.exists()) == (0, True)
    assert (here("collection", "c.toml", "--into", "a").returncode, part.exists()) == (0, False)
