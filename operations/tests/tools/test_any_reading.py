"""Read documents of other software by ANSI/NISO Z39.99-2017, Sitemap 0.9 and W3C Datetime.

The examples are those of the standard, from memory; the expected values were worked out by hand.
"""
import gzip
import hashlib
from collections.abc import Callable, Mapping

import pytest

from operations.tests.harness.documents import NAMESPACES
from operations.tests.tools.any_values import moment, refused
from ropepeach.resync.addresses import Hosts
from ropepeach.resync.discovery import Discovery, Lists
from ropepeach.resync.facts import Algorithm, Check, check_of, digest_of, fit, kind_of, length_of
from ropepeach.resync.lenient import Reading
from ropepeach.resync.lists import Dropped, Entry
from ropepeach.resync.pages import links_of_fields, links_of_page, sitemaps_of
from ropepeach.resync.sitemaps import LONGEST_UNPACKED, Document, Take, document_in, unpacked

SITE = "http://example.com"
RESOURCE_LIST = f"""<?xml version="1.0" encoding="UTF-8"?>
<urlset {NAMESPACES}>
  <rs:ln rel="up" href="http://example.com/dataset1/capabilitylist.xml"/>
  <rs:md capability="resourcelist" at="2013-01-03T09:00:00Z" completed="2013-01-03T09:01:00Z"/>
  <url>
      <loc>http://example.com/res1</loc>
      <lastmod>2013-01-02T13:00:00Z</lastmod>
      <rs:md hash="md5:1584abdf8ebdc9802ac0c6a7402c03b6" length="8876" type="text/html"/>
  </url>
  <url>
      <loc>http://example.com/res2</loc>
      <lastmod>2013-01-02T14:00:00Z</lastmod>
      <rs:md hash="md5:1e0d5cb8ef6ba40c99b14c0237be735e
                   sha-256:854f61290e2e197a11bc91063afce22e43f8ccc655237050ace766adc68dc784"
             length="14599" type="application/pdf"/>
  </url>
</urlset>"""
CHANGE_LIST = f"""<?xml version="1.0" encoding="UTF-8"?>
<urlset {NAMESPACES}>
  <rs:ln rel="up" href="http://example.com/dataset1/capabilitylist.xml"/>
  <rs:md capability="changelist" from="2013-01-03T00:00:00Z"/>
  <url>
      <loc>http://example.com/res1.html</loc><lastmod>2013-01-03T11:00:00Z</lastmod>
      <rs:md change="created" datetime="2013-01-03T11:00:00Z"/>
  </url>
  <url>
      <loc>http://example.com/res2.pdf</loc><lastmod>2013-01-03T13:00:00Z</lastmod>
      <rs:md change="updated" datetime="2013-01-03T13:00:00Z"/>
  </url>
  <url><loc>http://example.com/res3.tiff</loc><rs:md change="deleted" datetime="2013-01-03T18:00:00Z"/></url>
  <url>
      <loc>http://example.com/res2.pdf</loc><lastmod>2013-01-03T21:00:00Z</lastmod>
      <rs:md change="updated" datetime="2013-01-03T21:00:00Z"/>
  </url>
</urlset>"""
CAPABILITY_LIST = f"""<?xml version="1.0" encoding="UTF-8"?>
<urlset {NAMESPACES}>
  <rs:ln rel="describedby" href="http://example.com/info_about_set1_of_resources.xml"/>
  <rs:ln rel="up" href="http://example.com/resourcesync_description.xml"/>
  <rs:md capability="capabilitylist"/>
  <url><loc>http://example.com/dataset1/resourcelist.xml</loc><rs:md capability="resourcelist"/></url>
  <url><loc>http://example.com/dataset1/resourcedump.xml</loc><rs:md capability="resourcedump"/></url>
  <url><loc>http://example.com/dataset1/changelist.xml</loc><rs:md capability="changelist"/></url>
</urlset>"""
DESCRIPTION = f"""<?xml version="1.0" encoding="UTF-8"?>
<urlset {NAMESPACES}>
  <rs:md capability="description"/>
  <rs:ln rel="describedby" href="http://example.com/info_about_source.xml"/>
  <url><loc>http://example.com/dataset1/capabilitylist.xml</loc><rs:md capability="capabilitylist"/></url>
</urlset>"""
RESOURCE_INDEX = f"""<?xml version="1.0" encoding="UTF-8"?>
<sitemapindex {NAMESPACES}>
  <rs:ln rel="up" href="http://example.com/dataset1/capabilitylist.xml"/>
  <rs:md capability="resourcelist" at="2013-01-03T09:00:00Z"/>
  <sitemap><loc>http://example.com/resourcelist1.xml</loc><rs:md at="2013-01-03T09:00:00Z"/></sitemap>
</sitemapindex>"""
LISTS = Lists(f"{SITE}/dataset1/resourcelist.xml", f"{SITE}/dataset1/changelist.xml",
              f"{SITE}/dataset1/resourcedump.xml")


class Documents:
    """Documents by address, instead of a source."""

    def __init__(self, texts: Mapping[str, str], hosts: tuple[str, ...] = ("example.com",)) -> None:
        self.texts, self.hosts, self.documents = texts, Hosts(hosts), 0

    def document(self, address: str, take: Take | None = None) -> Document:
        """Return a document."""
        return document_in(address, self.texts[address].encode(), take)


def reading(texts: Mapping[str, str]) -> Reading:
    """Return a reader of these documents."""
    return Reading(Documents(texts))  # type: ignore[arg-type]


def test_the_resource_list_of_the_standard_is_read() -> None:
    """The list has two resources and `at` 9 o'clock; the second resource has two digests, on two lines."""
    moment_at, entries = reading({f"{SITE}/r.xml": RESOURCE_LIST}).resources(f"{SITE}/r.xml")
    assert str(moment_at) == "2013-01-03T09:00:00Z"
    assert list(entries) == ["http+example.com/res1", "http+example.com/res2"]
    first, second = (entry.choices[0] for entry in entries.values())
    assert (length_of(first), length_of(second)) == (8_876, 14_599)
    assert (kind_of(first), kind_of(second)) == ("text/html", "application/pdf")
    assert digest_of(first, Algorithm.MD5) == bytes.fromhex("1584abdf8ebdc9802ac0c6a7402c03b6")
    assert digest_of(first, Algorithm.SHA_256) is None
    assert digest_of(second, Algorithm.SHA_256) == bytes.fromhex(
        "854f61290e2e197a11bc91063afce22e43f8ccc655237050ace766adc68dc784")
    assert (check_of(first), check_of(second)) == (Check.MD5, Check.SHA_256)


def test_a_resource_list_in_parts_is_read_and_an_index_within_an_index_refused() -> None:
    whole = reading({f"{SITE}/r.xml": RESOURCE_LIST}).resources(f"{SITE}/r.xml")
    index = {f"{SITE}/i.xml": RESOURCE_INDEX, f"{SITE}/resourcelist1.xml": RESOURCE_LIST}
    assert reading(index).resources(f"{SITE}/i.xml")[1] == whole[1]
    within = index | {f"{SITE}/resourcelist1.xml": RESOURCE_INDEX}
    with refused("an index within an index"):
        reading(within).resources(f"{SITE}/i.xml")


def test_a_list_of_the_other_kind_is_refused() -> None:
    with refused("it is a changelist, and no Resource List"):
        reading({f"{SITE}/c.xml": CHANGE_LIST}).resources(f"{SITE}/c.xml")
    with refused("it is a resourcelist, and no Change List"):
        changes_of(RESOURCE_LIST, "2013-01-03")


def changes_of(text: str, since: str) -> dict[str, tuple[str, str]]:
    """Return the changes of a list since a moment, by the last segment of their addresses."""
    found = reading({f"{SITE}/c.xml": text}).changes(f"{SITE}/c.xml", moment(since))
    return {place.rpartition("/")[2]: (entry.change, entry.moment) for place, entry in found.entries.items()}


NO_FROM = CHANGE_LIST.replace(' from="2013-01-03T00:00:00Z"', "")


@pytest.mark.parametrize(("text", "since", "names"), [
    pytest.param(CHANGE_LIST, "2013-01-03T00:00:00Z", "res1.html res2.pdf res3.tiff", id="since from"),
    pytest.param(CHANGE_LIST, "2013-01-03T12:00:00+01:00", "res1.html res2.pdf res3.tiff", id="of another offset"),
    pytest.param(CHANGE_LIST, "2013-01-03T18:00:00Z", "res2.pdf res3.tiff", id="since a change"),
    pytest.param(CHANGE_LIST, "2013-01-03T21:00:00Z", "res2.pdf", id="since the last change"),
    pytest.param(CHANGE_LIST, "2013-01-03T21:00:01Z", "", id="after the last change"),
    pytest.param(CHANGE_LIST, "2013-01-03", "res1.html res2.pdf res3.tiff", id="since any instant of a day"),
    pytest.param(NO_FROM, "2013-01-03T11:00:00Z", "res1.html res2.pdf res3.tiff", id="without from")])
def test_the_change_list_of_the_standard_is_read_from_a_moment_on(text: str, since: str, names: str) -> None:
    """The later of two changes of a resource counts; changes at that moment are read again."""
    changes = {"res1.html": ("created", "2013-01-03T11:00:00Z"), "res2.pdf": ("updated", "2013-01-03T21:00:00Z"),
               "res3.tiff": ("deleted", "2013-01-03T18:00:00Z")}
    assert changes_of(text, since) == {name: changes[name] for name in names.split()}


@pytest.mark.parametrize(("text", "since", "says"), [
    (CHANGE_LIST, "2013-01-02T23:59:59Z", "begins at 2013-01-03T00:00:00Z"),
    (NO_FROM, "2013-01-03T10:59:59Z", "begins at 2013-01-03T11:00:00Z"),
    (f'<urlset {NAMESPACES}><rs:md capability="changelist"/></urlset>', "2013-01-03", "neither `from` nor a change")],
    ids=["from", "first change", "nothing"])
def test_a_change_list_that_begins_after_a_moment_lacks_changes(text: str, since: str, says: str) -> None:
    with refused(says, Dropped):
        changes_of(text, since)


@pytest.mark.parametrize(("old", "new", "says"), [
    ('change="deleted"', 'change="moved"', "is 'moved'"),
    ("2013-01-03T18:00:00Z", "9999-01-03T18:00:00Z", "a day ahead"),
    ("2013-01-03T18:00:00Z", "18:00", "'18:00' is no moment")])
def test_an_odd_change_is_refused(old: str, new: str, says: str) -> None:
    with refused(says):
        changes_of(CHANGE_LIST.replace(old, new), "2013-01-03")


NINE, TEN = "2013-01-03T09:00:00Z", "2013-01-03T10:00:00.25Z"


def change(name: str, word: str, when: str, body: bytes = b"") -> str:
    """Return an entry of a Change List."""
    digest = f' hash="md5:{hashlib.md5(body).hexdigest()}"' if body else ""
    return f'<url><loc>{SITE}/{name}</loc><rs:md change="{word}" datetime="{when}"{digest}/></url>'


def list_of(start: str, *changes: str) -> str:
    """Return a Change List."""
    return f'<urlset {NAMESPACES}><rs:md capability="changelist" from="{start}"/>{"".join(changes)}</urlset>'


def entry_of(start: str, *changes: str) -> Entry:
    """Return the entry of the resource `a`, of a Change List."""
    found = reading({f"{SITE}/c.xml": list_of(start, *changes)}).changes(f"{SITE}/c.xml", moment(start))
    return found.entries["http+example.com/a"]


@pytest.mark.parametrize(("changes", "is_doubtful", "bodies"), [
    ([change("a", "deleted", NINE), change("a", "created", "2013-01-03T10:00:00+01:00", b"1")], True, [b"1"]),
    ([change("a", "updated", NINE, b"1"), change("a", "updated", NINE, b"2")], False, [b"1", b"2"]),
    ([change("a", "deleted", "2013-01-03"), change("a", "created", NINE, b"1")], True, [b"1"])],
    ids=["deleted and created", "updated twice", "deleted on that day"])
@pytest.mark.parametrize("step", [1, -1])
def test_a_resource_with_several_changes_of_one_moment_is_asked_for(
        changes: list[str], is_doubtful: bool, bodies: list[bytes], step: int) -> None:
    """Changes of one moment may have any order. The resource may be deleted (`is_doubtful`), or have any of the bodies
    that they list.
    """
    entry = entry_of(NINE, change("z", "created", TEN), *changes[::step])
    assert (entry.facts is not None, entry.is_doubtful) == (True, is_doubtful)
    assert [body for body in (b"1", b"2", b"3") if any(fit(facts, body) for facts in entry.choices)] == bodies


@pytest.mark.parametrize("changes", [
    [NINE, change("a", "deleted", TEN), change("a", "created", NINE, b"1")],
    ["2013-01-02", change("a", "deleted", NINE), change("a", "created", "2013-01-03T10:30:00+02:00", b"1")]],
    ids=["out of order", "of another offset"])
def test_the_change_of_the_later_instant_counts(changes: list[str]) -> None:
    """The deletion is later, although it is listed first, or its text is smaller."""
    entry = entry_of(*changes)
    assert (entry.facts, entry.is_doubtful) == (None, False)


@pytest.mark.parametrize(("since", "read"), [("2013-01-01T00:00:00Z", "abc"), ("2013-01-02T00:00:00Z", "abc"),
                                             ("2013-01-03T00:00:00Z", "bc"), ("2013-01-04", "c")])
def test_parts_of_a_change_list_that_end_before_a_moment_are_not_read(since: str, read: str) -> None:
    """A part that ends at the moment is read, as it may have more changes of that moment."""
    parts = [("a", "2013-01-01T00:00:00Z", "2013-01-02T00:00:00Z"),
             ("b", "2013-01-02T00:00:00Z", "2013-01-03T00:00:00Z"),
             ("c", "2013-01-03T00:00:00Z", "")]
    texts = {f"{SITE}/{name}.xml": list_of(start, change(name, "created", until or "2013-01-04"))
             for name, start, until in parts}
    bounds = [(name, f'from="{start}"' + (f' until="{until}"' if until else "")) for name, start, until in parts]
    pointers = [f"<sitemap><loc>{SITE}/{name}.xml</loc><rs:md {attributes}/></sitemap>" for name, attributes in bounds]
    texts[f"{SITE}/i.xml"] = list_of(parts[0][1], *pointers).replace("urlset", "sitemapindex")
    changes = reading(texts).changes(f"{SITE}/i.xml", moment(since))
    assert [place[-1] for place in changes.entries] == list(read)
    assert str(changes.newest) == "2013-01-04"


def found_from(name: str, texts: Mapping[str, str]) -> list[Lists]:
    """Return the lists to which a document leads."""
    asking = Documents({f"{SITE}/{path}.xml": text for path, text in texts.items()})
    return Discovery(asking).of_document(asking.document(f"{SITE}/{name}.xml"))  # type: ignore[arg-type]


SET = {"dataset1/capabilitylist": CAPABILITY_LIST, "dataset1/resourcelist": RESOURCE_LIST,
       "dataset1/changelist": CHANGE_LIST, "description": DESCRIPTION,
       "index": DESCRIPTION.replace("urlset", "sitemapindex").replace("<url>", "<sitemap>").replace(
           "</url>", "</sitemap>").replace("dataset1/capabilitylist", "description")}


@pytest.mark.parametrize("name", SET)
def test_each_document_of_a_set_leads_to_its_lists(name: str) -> None:
    """A Source Description, its index, a Capability List, and lists with links up lead to the lists."""
    assert found_from(name, SET) == [LISTS]


def test_a_list_without_a_capability_list_that_names_it_is_mirrored_alone() -> None:
    """A dump, a Resource List and a plain sitemap are mirrored alone."""
    dump = RESOURCE_LIST.replace("resourcelist", "resourcedump").replace('"up"', '"x"')
    assert found_from("x", {"x": dump}) == [Lists(f"{SITE}/x.xml", dump=f"{SITE}/x.xml")]
    assert found_from("x", {"x": RESOURCE_LIST} | SET) == [Lists(f"{SITE}/x.xml")]
    plain = f"<urlset {NAMESPACES}><url><loc>{SITE}/a</loc></url></urlset>"
    assert found_from("x", {"x": plain}) == [Lists(f"{SITE}/x.xml")]


def test_links_of_the_head_of_a_page_are_found() -> None:
    page = b"""<!DOCTYPE html><html><head><link rel=stylesheet href=a.css>
        <LINK REL="alternate ResourceSync" href="/c.xml"><!-- <link rel="resourcesync" href="/no.xml"> -->
        </head><body><link rel="resourcesync" href="/body.xml"></body></html>"""
    assert links_of_page(page) == ["/c.xml"]
    assert links_of_page(b"\xff\x00<<<link rel='resourcesync") == []


def test_links_of_a_field_link_are_found() -> None:
    field = ('<http://example.com/a>; rel="next", </c.xml>;rel=resourcesync, '
             '<d>; title="x, <e>; rel=resourcesync"; rel="up resourcesync"')
    assert links_of_fields(field) == ["/c.xml", "d"]


def test_sitemaps_of_robots_txt_are_found() -> None:
    text = b"User-agent: *\nSitemap: http://a/1.xml\r\nsitemap:/2.xml\nDisallow: /\n"
    assert sitemaps_of(text) == ["http://a/1.xml", "/2.xml"]


TEXT = RESOURCE_LIST.encode()


@pytest.mark.parametrize("body", [TEXT, gzip.compress(TEXT), gzip.compress(gzip.compress(TEXT)),
                                  gzip.compress(TEXT[:100]) + gzip.compress(TEXT[100:])],
                         ids=["plain", "gzip", "gzip twice", "two members"])
def test_a_document_is_decompressed(body: bytes) -> None:
    assert unpacked(f"{SITE}/a", body) == TEXT


@pytest.mark.parametrize(("make", "says"), [
    (lambda: gzip.compress(bytes(LONGEST_UNPACKED + 1)), "unpacks to more than 52,428,800 bytes"),
    (lambda: gzip.compress(gzip.compress(bytes(LONGEST_UNPACKED + 1))), "unpacks to more than"),
    (lambda: gzip.compress(bytes(LONGEST_UNPACKED // 2 + 1)) * 2, "unpacks to more than"),
    (lambda: gzip.compress(b"") * 500_000, "more than 10,000 members of gzip"),
    (lambda: gzip.compress(TEXT)[:-9], "it is cut"), (lambda: b"\x1f\x8b" + bytes(50), "can't be unpacked")],
    ids=["long", "long, gzip twice", "long in two members", "many members", "cut", "no gzip"])
@pytest.mark.timeout(60)
def test_a_document_that_unpacks_to_too_much_or_not_at_all_is_refused(make: Callable[[], bytes], says: str) -> None:
    with refused(says):
        unpacked(f"{SITE}/a", make())


def test_other_markup_is_no_document() -> None:
    with refused("no document of Sitemap 0.9"):
        document_in(f"{SITE}/a", b"<a/>")
