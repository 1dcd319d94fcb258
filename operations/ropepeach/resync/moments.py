"""Moments: those of a Ropepeach, texts of 24 bytes in the order of time, and W3C Datetimes, compared as instants."""
from __future__ import annotations

import datetime
import functools
import re
import time
from typing import NamedTuple

EPOCH, MILLISECOND = datetime.datetime(1970, 1, 1), datetime.timedelta(milliseconds=1)
MOMENT_FORM = re.compile(r"[0-9]{4}-[0-9]{2}-[0-9]{2}T[0-9]{2}:[0-9]{2}:[0-9]{2}\.[0-9]{3}Z")
NEVER, LAST = "1970-01-01T00:00:00.000Z", "9999-12-31T23:59:59.999Z"
# A W3C Datetime: a year, a month, a day, a minute, a second or a fraction of one; a time has an offset from UTC.
W3C = re.compile(r"""(\d{4}) (?:-(\d\d) (?:-(\d\d)
    (?:T (\d\d):(\d\d) (?: :(\d\d) (?:\.(\d{1,30}))? )? (Z|[+-]\d\d:\d\d) )? )? )?""", re.ASCII | re.VERBOSE)
ALMOST_W3C = re.compile(r"(\d{4}-\d\d-\d\dT[\d:.]+)(?:([+-]\d\d)(\d\d))?", re.ASCII)
# The unit of instants is 10 to the power of -30 of a second, so that every fraction is a whole number.
DIGITS = 30
SECOND: int = 10**DIGITS
# The milliseconds by which a source's clock may be ahead of a mirror's.
AHEAD = 86_400_000


def moment_text(moment: int) -> str:
    """Return the text of a moment: milliseconds since 1970."""
    seconds, thousandths = divmod(moment, 1_000)
    return f"{second_text(seconds)}.{thousandths:03}Z"


@functools.lru_cache(1_000)
def second_text(seconds: int) -> str:
    """Return the date and the time of a second since 1970. (Most lists have few different seconds.)"""
    return (EPOCH + datetime.timedelta(seconds=seconds)).isoformat()


def milliseconds(text: str) -> int:
    """Return the milliseconds since 1970 of the text of a moment."""
    return (datetime.datetime.fromisoformat(text.removesuffix("Z")) - EPOCH) // MILLISECOND


def is_moment(text: object) -> bool:
    """Return whether a value is the text of a moment, with a date and a time that exist."""
    if not isinstance(text, str) or not MOMENT_FORM.fullmatch(text):
        return False
    try:
        datetime.datetime.fromisoformat(text[:-1])
    except ValueError:
        return False
    return True


def latest_now() -> str:
    """Return the latest moment that a mirror takes from a source: a day ahead of this machine's clock."""
    return min(LAST, moment_text(time.time_ns() // 1_000_000 + AHEAD))


class Moment(NamedTuple):
    """A W3C Datetime: its first instant, the first one after it, and its text. `2013-01-03` lasts a day."""

    first: int
    end: int
    text: str

    def __str__(self) -> str:
        return self.text

    def is_before(self, other: Moment) -> bool:
        """Return whether this moment ends before the other one begins."""
        return self.end <= other.first


def moment_in(text: str) -> Moment | None:
    """Return the moment of a W3C Datetime, or None for another text."""
    parts = W3C.fullmatch(text)
    if not parts:
        return None
    year, month, day, hour, minute, second, fraction, offset = parts.groups()
    try:
        first_day = datetime.date(int(year), int(month or 1), int(day or 1)).toordinal()
        clock = datetime.time(int(hour or 0), int(minute or 0), int(second or 0))
        start = first_day * 86_400 + clock.hour * 3_600 + clock.minute * 60 + clock.second - seconds_of(offset or "Z")
    except ValueError:
        return None
    if fraction:
        unit = 10 ** (DIGITS - len(fraction))
        first = start * SECOND + int(fraction) * unit
        return Moment(first, first + unit, text)
    seconds = (1 if second else 60) if hour else days_of(int(year), month, day) * 86_400
    return Moment(start * SECOND, (start + seconds) * SECOND, text)


def any_moment(text: str) -> Moment | None:
    """Return the moment of a W3C Datetime, or of one without an offset, which is read as UTC, or without its colon."""
    moment = moment_in(text)
    if moment is None and (parts := ALMOST_W3C.fullmatch(text)) is not None:
        moment = moment_in(parts[1] + (f"{parts[2]}:{parts[3]}" if parts[2] else "Z"))
    return moment


def days_of(year: int, month: str | None, day: str | None) -> int:
    """Return the number of days of a year, a month or a day."""
    if day is not None:
        return 1
    # (few moments are those of a month or a year)
    import calendar

    if month is None:
        return 366 if calendar.isleap(year) else 365
    return calendar.monthrange(year, int(month))[1]


def seconds_of(offset: str) -> int:
    """Return the seconds by which an offset, `Z` or as `+01:30`, is ahead of UTC."""
    if offset == "Z":
        return 0
    hours, minutes = int(offset[1:3]), int(offset[4:6])
    if hours > 23 or minutes > 59:
        raise ValueError(offset)
    return (hours * 3_600 + minutes * 60) * (-1 if offset[0] == "-" else 1)


def clamped(moment: Moment) -> Moment:
    """Return a moment, or the current one if it is later: a change until then has a moment in between."""
    now = moment_in(moment_text(time.time_ns() // 1_000_000))
    return now if now is not None and now.first < moment.first else moment


def latest_instant() -> int:
    """Return the latest instant that a mirror takes from a source: a day ahead of this machine's clock."""
    epoch = EPOCH.toordinal() * 86_400_000
    return (epoch + time.time_ns() // 1_000_000 + AHEAD) * (SECOND // 1_000)
