"""From the arguments of the calls, datetimes and timedeltas, to whole numbers; exact, and without floats."""

from __future__ import annotations

from datetime import date, datetime, timedelta
from typing import Optional, Tuple

from ._whole import Pair
from .times import (
    NANOSECONDS_OF_MICROSECOND,
    below_microsecond,
    duration_numbers,
    instant_numbers,
    naive_error,
    nanosecond_of,
    second_of_day,
)

_AWARE = "datetime(2026, 1, 5, 8, 0, tzinfo=timezone.utc)"
_NAIVE = "datetime(2026, 1, 5, 8, 0)"

LocalNumbers = Tuple[int, int, int, int, int]


def _no_datetime(value: object, name: str, example: str) -> TypeError:
    """What is raised for an argument that is no datetime."""
    kind = type(value).__name__
    if isinstance(value, date):
        told = f"{name} is a {kind}, {value.isoformat()}, which tells no time of day"
    elif isinstance(value, str):
        told = f"{name} is a {kind}, {value!r}"
    else:
        told = f"{name} is of type {kind}"
    return TypeError(f"{told}; give a datetime, such as {example}")


def instant(value: datetime, name: str) -> Pair:
    """The seconds and nanoseconds of an aware datetime."""
    if not isinstance(value, datetime):
        raise _no_datetime(value, name, _AWARE)
    offset = value.utcoffset()
    if offset is None:
        raise naive_error(value, name)
    return instant_numbers(value, offset)


def duration(value: timedelta, name: str) -> Pair:
    """The seconds and nanoseconds of a timedelta."""
    if not isinstance(value, timedelta):
        raise TypeError(f"{name} is of type {type(value).__name__}; give a timedelta, such as timedelta(hours=8)")
    return duration_numbers(value)


def whole_seconds(value: timedelta, name: str) -> int:
    """The seconds of a timedelta that has no part of a second."""
    seconds, nanoseconds = duration(value, name)
    if nanoseconds:
        raise ValueError(f"{name} is {value}, no whole number of seconds; round it first")
    return seconds


def local(value: datetime, nanosecond: Optional[int], name: str) -> LocalNumbers:
    """Year, month, day, second of the day and nanoseconds of a naive datetime and of what is below its microsecond."""
    if not isinstance(value, datetime):
        raise _no_datetime(value, name, _NAIVE)
    if value.tzinfo is not None:
        raise ValueError(
            f"{name} is an aware datetime, {value.isoformat()}; a local time has no time zone: "
            f"write {name}.replace(tzinfo=None)"
        )
    if value.fold:
        raise ValueError(
            f"{name} has fold=1, and of a time that is read twice the earlier one is given: "
            f"write {name}.replace(fold=0) if that is meant"
        )
    below = nanosecond_of(value) if nanosecond is None else below_microsecond(nanosecond, "nanosecond")
    nanoseconds = value.microsecond * NANOSECONDS_OF_MICROSECOND + below
    return value.year, value.month, value.day, second_of_day(value), nanoseconds
