"""Test moments, digests, addresses and paths in texts of other software, by W3C Datetime, RFC 3986 and the manual.

The expected values were worked out by hand.
"""
import dataclasses
import hashlib
import os

import pytest

from operations.tests.tools.any_values import at, moment, refused
from operations.tests.tools.generating import st, tried
from ropepeach.mirror.report import counted, exactness
from ropepeach.resync.addresses import Address, Hosts, address_in
from ropepeach.resync.facts import (
    Algorithm, Check, any_facts, check_of, digests_in, exact_facts, fit, has_length)
from ropepeach.resync.moments import SECOND, moment_in
from ropepeach.resync.places import normalized, place_of


@pytest.mark.parametrize(("first", "second"), [
    ("2013", "2013-01"), ("2013-01-03T09:00Z", "2013-01-03T09:00:00Z"),
    ("2013-01-03T09:00:00.5Z", "2013-01-03T09:00:00.500000000Z"),
    ("2013-01-03T09:00:00-05:30", "2013-01-03T14:30:00Z"), ("2013-01-03T00:30:00+01:00", "2013-01-02T23:30:00Z"),
    ("2000-02-29", "2000-02-29T00:00Z")])
def test_texts_of_one_instant_are_equal(first: str, second: str) -> None:
    assert moment(first).first == moment(second).first


@pytest.mark.parametrize(("text", "seconds"), [
    ("2013", 365 * 86_400), ("2012", 366 * 86_400), ("2012-02", 29 * 86_400), ("2013-12", 31 * 86_400),
    ("2013-01-03", 86_400), ("2013-01-03T09:00Z", 60), ("2013-01-03T09:00:00Z", 1), ("9999", 365 * 86_400)])
def test_a_moment_spans_all_instants_that_it_may_mean(text: str, seconds: int) -> None:
    assert (moment(text).end - moment(text).first) // SECOND == seconds


ORDER = ["2012", "2013-01-02", "2013-01-03T08:59:59.999999999999999999999999999Z", "2013-01-03T10:00:00+01:00",
         "2013-01-03T09:00:01.1Z", "2013-01-03T09:00:01.11Z", "2013-02"]


@pytest.mark.parametrize(("first", "second"), zip(ORDER, ORDER[1:]))
def test_moments_are_ordered_by_their_first_instants(first: str, second: str) -> None:
    assert moment(first).first < moment(second).first
    assert not moment(second).is_before(moment(first))


def test_a_day_is_not_before_its_hours() -> None:
    assert not moment("2013-01-03").is_before(moment("2013-01-03T23:59:59Z"))


@pytest.mark.parametrize("text", [
    "", "13", "2013-1", "2013-13", "2013-02-29", "2013-01-03T09Z", "2013-01-03T09:00", "2013-01-03T09:00:00",
    "2013-01-03T24:00:00Z", "2013-01-03T09:00:60Z", "2013-01-03 09:00:00Z", "2013-01-03T09:00:00z",
    "2013-01-03T09:00:00,5Z", "2013-01-03T09:00:00.Z", "20130103", "2013-01-03T09:00:00+24:00",
    "2013-01-03T09:00:00+01:60", "2013-01-03T09:00:00+0100", "0000-01-01", " 2013", "2013\n",
    "\u0662\u0660\u0661\u0663", "2013-01-03T09:00:00." + "1" * 31 + "Z", "+2013", "2013-W01"])
def test_other_texts_are_no_moments(text: str) -> None:
    assert moment_in(text) is None


BODY = b"body"
DIGESTS = {algorithm.word: hashlib.new(algorithm.word.replace("-", ""), BODY).hexdigest() for algorithm in Algorithm}
WHOLE = " ".join(f"{word}:{digest}" for word, digest in DIGESTS.items())


@pytest.mark.parametrize("word", DIGESTS)
def test_a_known_digest_is_compared_and_an_unknown_one_passed_over(word: str) -> None:
    facts = any_facts({"hash": f"crc:1 {word}:{DIGESTS[word].upper()}"})
    assert (fit(facts, BODY), fit(facts, b"doby"), check_of(facts), has_length(facts)) == (
        True, False, Check(word), False)


@pytest.mark.parametrize("word", DIGESTS)
def test_all_digests_have_to_be_right(word: str) -> None:
    digest = DIGESTS[word]
    assert fit(any_facts({"hash": WHOLE, "length": " 4 "}), BODY)
    assert not fit(any_facts({"hash": WHOLE.replace(digest, "0" * len(digest)), "length": "4"}), BODY)


def test_a_length_alone_is_compared() -> None:
    facts = any_facts({"length": "4"})
    assert (fit(facts, BODY), fit(facts, b"bod"), check_of(facts)) == (True, False, Check.LENGTH)
    assert not fit(any_facts({"length": "9" * 18}), BODY)


def test_a_body_of_which_nothing_is_listed_is_right() -> None:
    assert (fit(any_facts({}), BODY), check_of(any_facts({}))) == (True, Check.NOTHING)


@pytest.mark.parametrize("text", ["md5:12", "md5:" + "g" * 32, f"md5:{DIGESTS['md5']} md5:{DIGESTS['md5']}", "md5",
                                  "MD5:" + DIGESTS["md5"]])
def test_an_odd_digest_is_passed_over(text: str) -> None:
    assert check_of(any_facts({"hash": text})) == Check.NOTHING


@pytest.mark.parametrize("text", ["-1", "1e3", "\u0664", "", "4" * 19])
def test_an_odd_length_is_passed_over(text: str) -> None:
    assert not has_length(any_facts({"length": text}))


@pytest.mark.parametrize("attributes", [{"length": "4"}, {"hash": WHOLE}, {"length": "4", "hash": "crc:1"}])
def test_a_ropepeach_lists_a_length_and_a_known_digest(attributes: dict[str, str]) -> None:
    assert exact_facts(attributes) is None
    assert digests_in("crc:1") == {}


SEVERAL = {Check.SHA_256: 412, Check.LENGTH: 3, Check.NOTHING: 9}


def test_files_are_counted_by_what_was_compared() -> None:
    assert counted(SEVERAL) == "412 by SHA-256, 3 by length, 9 not at all"
    assert counted({}) == "none"


@pytest.mark.parametrize(("compared", "passed", "when", "text"), [
    ({Check.SHA_256: 1, Check.MD5: 2}, {}, "2013", "exact, as listed at 2013"),
    (SEVERAL, {}, "2013", "not exact (12 without a digest), as listed at 2013"),
    ({Check.MD5: 1}, {"of other hosts": 2}, "2013", "not exact (2 of other hosts passed over), as listed at 2013"),
    ({Check.SHA_512: 1}, {}, None, "not exact (the Resource List has no `at`)"),
    ({}, {}, "2013", "exact, as listed at 2013"),
    ({Check.LENGTH: 1}, {}, "2013", "not exact (1 without a digest), as listed at 2013")])
def test_a_folder_is_exact_with_digests_of_all_files_and_a_moment_of_the_lists(
        compared: dict[Check, int], passed: dict[str, int], when: str | None, text: str) -> None:
    """A folder is exact if also no entry was skipped."""
    assert exactness(compared, passed, when) == text


@pytest.mark.parametrize("text", [
    "", "a", "//example.com/", "ftp://example.com/", "file:///etc/passwd", "http://", "http:///a",
    "http://u@example.com/", "http://u:p@h/", "http://example.com/#a", "http://example.com/a b",
    "http://example.com/\u00e9", "http://example.com:0/", "http://example.com:65536/", "http://example.com:/",
    "http://[1.2.3.4]/", "http://a..b/", "http://-a/", "http://example.com\\@evil/", "http://example.com/\n",
    "javascript:alert(1)", "http://example.com/" + "a" * 2_048, "http://ex%61mple.com/"])
def test_an_address_is_of_http_with_a_host_in_visible_ascii_without_user_and_fragment(text: str) -> None:
    assert address_in(text) is None


@pytest.mark.parametrize(("first", "second"), [
    ("HTTP://Example.COM", "http://example.com/"), ("https://a:443/x", "https://a/x"),
    ("http://[::1]:80/", "http://[::1]/")])
def test_scheme_host_and_default_port_have_one_form(first: str, second: str) -> None:
    assert at(first) == at(second)


@pytest.mark.parametrize(("text", "is_allowed"), [
    ("http://example.com/", True), ("https://example.com/a", True), ("http://example.com:8080/", False),
    ("http://example.com.evil/", False), ("http://other.org/", False), ("http://other.org:8080/", True),
    ("http://[::1]:81/", True), ("http://[::1]/", False), ("http://xexample.com/", False)])
def test_a_host_is_allowed_by_its_name_or_with_its_port(text: str, is_allowed: bool) -> None:
    assert Hosts(["example.com", "other.org:8080", "[::1]:81"]).allow(at(text)) is is_allowed


@pytest.mark.parametrize("name", ["", "a/b", "http://a", "a b", "a:x", "a#b", "a?b", "u@a"])
def test_other_texts_are_no_hosts(name: str) -> None:
    with refused("is no host"):
        Hosts([name])


PLACES = {
    "https://example.org/": "example.org/!", "https://example.org/a/b.pdf": "example.org/a/b.pdf",
    "http://example.org/a": "http+example.org/a",
    "https://example.org:8443/a": "example.org:8443/a", "https://example.org/a/": "example.org/a/!",
    "https://example.org//a": "example.org/!/a",
    "https://example.org/../a": "example.org/!2E./a", "https://example.org/./.": "example.org/!2E/!2E",
    "https://example.org/...": "example.org/...",
    "https://example.org/a?b=c/d?e": "example.org/a!3Fb=c!2Fd!3Fe",
    "https://example.org/?": "example.org/!3F", "https://example.org/!": "example.org/!21",
    "https://example.org/%2e%2E/": "example.org/!2E./!", "https://example.org/%zz%": "example.org/!25zz!25",
    "https://example.org/a^\\`{|}": "example.org/a!5E!5C!60!7B!7C!7D",
    "https://[::1]:81/a": "!3A!3A1:81/a", "https://example.org/!long/0": "example.org/!21long/0",
}


LONG = "https://example.org/" + "a" * 230


@pytest.mark.parametrize(("text", "place"), [
    *PLACES.items(), (LONG, f"example.org/!long/{hashlib.sha256(LONG.encode()).hexdigest()}")])
def test_an_address_has_a_place_and_a_long_one_that_of_its_digest(text: str, place: str) -> None:
    assert place_of(at(text)) == place


@pytest.mark.skipif(st is None, reason="there is no python3-hypothesis here")
def test_no_two_addresses_share_a_place() -> None:
    """A path is below the folder, in short segments without `#`. Equivalent addresses are one."""
    segment = st.sampled_from(["", ".", "..", "a", "A", "!", "!21", "!2E", "%2e", "%", "%2", "a!", "?", "a?",
                               "?/", "a?b/c", "!long", "~", "a" * 120, "\\", "&=+"])
    path = st.lists(segment | st.text("aA.!%2Ee?/:+=&~\\^", max_size=5), max_size=5).map("/".join)
    host = st.sampled_from(["a", "A", "http+a", "a:80", "a:443", "a:81", "[::1]", "[::1]:81", "a.", "a-1",
                            "1.2.3.4", "b:443"])
    text = st.tuples(st.sampled_from(["http://", "https://"]), host,
                     path).map(lambda parts: f"{parts[0]}{parts[1]}/{parts[2]}")
    places: dict[str, Address] = {}

    def look(text: str) -> None:
        address = address_in(text)
        if address is None:
            return
        place, address = place_of(address), dataclasses.replace(address, target=normalized(address.target))
        assert places.setdefault(place, address) == address, text
        assert os.path.normpath(os.path.join("/folder", place)) == f"/folder/{place}", text
        assert not ("#" in place or "\0" in place or len(place) > 240), text
        assert all(0 < len(segment) <= 200 for segment in place.split("/")), text

    tried({"text": text}, look, 1_500)
    assert len(places) > 400
