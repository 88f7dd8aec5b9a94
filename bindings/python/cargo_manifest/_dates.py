"""Date-times of TOML as those of `datetime`."""
from __future__ import annotations

from datetime import date, datetime, time, timedelta, timezone
from typing import NamedTuple, Union

from ._library import broken
from ._reader import Reader


class DateParts(NamedTuple):
    """A date, as it is written."""

    year: int
    month: int
    day: int


class TimeParts(NamedTuple):
    """A time, as it is written, in the parts that `datetime` has."""

    hour: int
    minute: int
    second: int
    microsecond: int


def _date(reader: Reader) -> DateParts:
    month, day = reader.byte(), reader.byte()
    return DateParts(reader.number(), month, day)


def _time(reader: Reader) -> TimeParts:
    hour, minute = reader.byte(), reader.byte()
    second = reader.part(reader.byte) or 0
    nanosecond = reader.part(reader.number) or 0
    return TimeParts(hour, minute, second, nanosecond // 1000)


def _offset(reader: Reader) -> timezone:
    tag = reader.byte()
    if tag == 0:
        return timezone.utc
    number = reader.number()
    return timezone(timedelta(minutes=number if tag == 1 else -1 - number))


def date_time(reader: Reader) -> Union[datetime, date, time]:
    """A date-time; what `datetime` cannot hold is its ValueError."""
    day = reader.part(lambda: _date(reader))
    moment = reader.part(lambda: _time(reader))
    offset = reader.part(lambda: _offset(reader))
    if day is not None and moment is not None:
        return datetime(*day, *moment, tzinfo=offset)
    if day is not None:
        return date(*day)
    if moment is not None:
        return time(*moment)
    raise broken()
