"""Names, and the facts of a body in a list: its length, its digests and its media type."""
from __future__ import annotations

import enum
import functools
import hashlib
import re
from collections.abc import Iterable, Mapping
from typing import NewType

from ropepeach.disk.formula import LONGEST_BODY, LONGEST_NAME

SEGMENT = r"(?!\.{1,2}(?:/|\Z))(?:[A-Za-z0-9._~!$&'()*+,;=:@-]|%[0-9A-Fa-f]{2})+"
NAME = re.compile(rf"{SEGMENT}(?:/{SEGMENT})*")
HEX, LENGTH, SHORT_LENGTH = (re.compile(form) for form in ("[0-9A-Fa-f]*", "[0-9]{1,18}", "[0-9]{1,8}"))
# The most characters of a media type of any source: a longer one is cut.
LONGEST_KIND = 200


class Algorithm(enum.Enum):
    """The algorithm of a digest: its word in a list, and its length in bytes. The weakest comes first."""

    MD5 = "md5", 16
    SHA_1 = "sha-1", 20
    SHA_256 = "sha-256", 32
    SHA_512 = "sha-512", 64

    # (the hash of an Enum is a slow call of Python)
    __hash__ = object.__hash__

    def __init__(self, word: str, size: int) -> None:
        self.word, self.size, self.flag = word, size, 1 << len(self.__class__.__members__)
        self.begin = functools.partial(getattr(hashlib, word.replace("-", "")), usedforsecurity=False)


BY_WORD = {algorithm.word: algorithm for algorithm in Algorithm}
ALL_FLAGS = sum(algorithm.flag for algorithm in Algorithm)
BY_FLAGS = [tuple(algorithm for algorithm in Algorithm if flags & algorithm.flag)
            for flags in range(ALL_FLAGS + 1)]
# The flags of a length and of a moment, the bytes before the digests, and those of a moment.
HAS_LENGTH, HAS_MOMENT, FRONT, MOMENT = ALL_FLAGS + 1, 2 * (ALL_FLAGS + 1), 6, 7
# The end of the digests, by their flags.
ENDS = [FRONT + sum(algorithm.size for algorithm in algorithms) for algorithms in BY_FLAGS]
# The greatest length of a body, in bytes.
LONGEST_LENGTH = (1 << 40) - 1


class Check(enum.Enum):
    """The strongest comparison of a body that a list allows. The weakest comes first."""

    NOTHING = "nothing"
    LENGTH = "length"
    MD5 = "md5"
    SHA_1 = "sha-1"
    SHA_256 = "sha-256"
    SHA_512 = "sha-512"

    def is_at_least(self, other: Check) -> bool:
        """Return whether this check is the other one, or stronger."""
        checks = list(Check)
        return checks.index(self) >= checks.index(other)


# The strongest check by the flags of digests and of a length.
CHECKS = [Check(algorithms[-1].word) if algorithms else Check.NOTHING for algorithms in BY_FLAGS]
CHECKS += [Check.LENGTH, *CHECKS[1:]]

# The facts of a body in a list, as bytes: an object with slots would take 64 bytes more, a subclass of bytes 16. A byte
# of flags, 5 bytes of length, the digests in the order of their algorithms, 7 bytes of a moment if there is one, the
# media type.
Facts = NewType("Facts", bytes)


def facts_of(length: int | None, digests: Mapping[Algorithm, bytes], kind: str) -> Facts:
    """Return the facts of a length, which may be unknown, digests and a media type."""
    flags = 0
    for algorithm in digests:
        flags |= algorithm.flag
    joined = b"".join([digests[algorithm] for algorithm in BY_FLAGS[flags]])
    if length is not None:
        flags |= HAS_LENGTH
    return Facts(bytes((flags,)) + min(length or 0, LONGEST_LENGTH).to_bytes(5, "big") + joined + kind.encode())


def is_facts(text: bytes) -> bool:
    """Return whether bytes have the form of facts without a moment."""
    if len(text) < FRONT or text[0] & HAS_MOMENT or len(text) < ENDS[text[0] & ALL_FLAGS]:
        return False
    try:
        return len(kind_of(Facts(text))) <= LONGEST_KIND
    except UnicodeDecodeError:
        return False


def length_of(facts: Facts) -> int:
    """Return the listed bytes of a body, or 0."""
    return int.from_bytes(facts[1:FRONT], "big")


def has_length(facts: Facts) -> bool:
    """Return whether the bytes of a body are listed."""
    return bool(facts[0] & HAS_LENGTH)


def has_digest(facts: Facts) -> bool:
    """Return whether a digest is listed."""
    return bool(facts[0] & ALL_FLAGS)


def algorithms_of(facts: Facts) -> tuple[Algorithm, ...]:
    """Return the algorithms of the listed digests, the weakest first."""
    return BY_FLAGS[facts[0] & ALL_FLAGS]


def algorithms_for(choices: Iterable[Facts]) -> tuple[Algorithm, ...]:
    """Return the algorithms of all digests that some facts list, and SHA-256."""
    flags = Algorithm.SHA_256.flag
    for facts in choices:
        flags |= facts[0] & ALL_FLAGS
    return BY_FLAGS[flags]


def digest_of(facts: Facts, wanted: Algorithm) -> bytes | None:
    """Return the listed digest of an algorithm."""
    start = FRONT
    for algorithm in algorithms_of(facts):
        if algorithm is wanted:
            return facts[start : start + algorithm.size]
        start += algorithm.size
    return None


def dated(facts: Facts, moment: int) -> Facts:
    """Return facts that have no moment with one: milliseconds since 1970."""
    end = ENDS[facts[0] & ALL_FLAGS]
    return Facts(bytes((facts[0] | HAS_MOMENT,)) + facts[1:end] + moment.to_bytes(MOMENT, "big", signed=True)
                 + facts[end:])


def date_of(facts: Facts) -> int | None:
    """Return the moment, if these facts have one."""
    end = ENDS[facts[0] & ALL_FLAGS]
    return int.from_bytes(facts[end : end + MOMENT], "big", signed=True) if facts[0] & HAS_MOMENT else None


def kind_of(facts: Facts) -> str:
    """Return the media type, or an empty text."""
    return facts[ENDS[facts[0] & ALL_FLAGS] + (MOMENT if facts[0] & HAS_MOMENT else 0) :].decode()


def are_one_body(one: Facts, other: Facts) -> bool:
    """Return whether facts are equal, or have an equal digest, no other one, and no other length."""
    shared = [word for word in algorithms_of(one) if word in algorithms_of(other)]
    is_length = not has_length(one) or not has_length(other) or length_of(one) == length_of(other)
    return one == other or (bool(shared) and is_length
                            and all(digest_of(one, word) == digest_of(other, word) for word in shared))


def check_of(facts: Facts) -> Check:
    """Return the strongest check that these facts allow."""
    return CHECKS[facts[0] & (ALL_FLAGS | HAS_LENGTH)]


class Measure:
    """The length of a body and its digests by some algorithms."""

    def __init__(self, algorithms: Iterable[Algorithm]) -> None:
        self.size, self.hashes = 0, {algorithm: algorithm.begin() for algorithm in algorithms}

    def take(self, piece: bytes) -> None:
        """Take the next piece of the body."""
        self.size += len(piece)
        for digest in self.hashes.values():
            digest.update(piece)

    def digest(self, algorithm: Algorithm) -> bytes:
        """Return the digest of all pieces so far."""
        digest: bytes = self.hashes[algorithm].digest()
        return digest

    def fits(self, facts: Facts) -> bool:
        """Return whether the body has the listed length and digests."""
        if has_length(facts) and self.size != length_of(facts):
            return False
        listed = facts[FRONT : ENDS[facts[0] & ALL_FLAGS]]
        return b"".join([self.digest(algorithm) for algorithm in algorithms_of(facts)]) == listed


def fit(facts: Facts, body: bytes) -> bool:
    """Return whether a body has the listed length and digests."""
    measure = Measure(algorithms_of(facts))
    measure.take(body)
    return measure.fits(facts)


def is_name(text: str) -> bool:
    """Return whether a text is a valid name, which leads to no place outside a folder."""
    return len(text) <= LONGEST_NAME and NAME.fullmatch(text) is not None


def digests_in(hashes: str) -> dict[Algorithm, bytes] | None:
    """Return the known digests of an attribute `hash`, or None if one is malformed or repeated."""
    digests: dict[Algorithm, bytes] = {}
    for part in hashes.split():
        word, _, text = part.partition(":")
        algorithm = BY_WORD.get(word)
        if algorithm is not None:
            if algorithm in digests or not HEX.fullmatch(text) or len(text) != 2 * algorithm.size:
                return None
            digests[algorithm] = bytes.fromhex(text)
    return digests


def any_facts(attributes: Mapping[str, str]) -> Facts:
    """Return the facts in an `rs:md` of any source. A malformed attribute counts as not listed."""
    length, digests = attributes.get("length", "").strip(), digests_in(attributes.get("hash", ""))
    return facts_of(int(length) if LENGTH.fullmatch(length) else None, digests or {},
                    attributes.get("type", "")[:LONGEST_KIND])


def exact_facts(attributes: Mapping[str, str]) -> Facts | None:
    """Return the facts in an `rs:md` of a Ropepeach, or None without a length or a known digest."""
    length, digests = attributes.get("length", ""), digests_in(attributes.get("hash", ""))
    if not SHORT_LENGTH.fullmatch(length) or int(length) > LONGEST_BODY or not digests:
        return None
    return facts_of(int(length), digests, attributes.get("type", ""))
