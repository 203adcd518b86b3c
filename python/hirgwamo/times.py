"""Durations and instants with nanoseconds: `Duration`, a timedelta, and `Instant`, an aware datetime.

Python's timedelta and datetime end at microseconds. These two keep the nanoseconds below: 0 to 999 of them, counted
from the whole microsecond at or before. With 0 nanoseconds they are equal to the timedelta and the datetime of the same
value and have the same hash. Sums, differences and comparisons with each other and with timedelta and datetime are
exact, by whole numbers, with one exception, which Python does not let a class decide: `datetime + Duration` and
`datetime - Duration`, with a plain datetime on the left, leave the nanoseconds of the Duration out. Write
`Instant.of(t) + d` and `Instant.of(t) - d` there.

Other subclasses of timedelta and datetime that tell nanoseconds below the microsecond, as attributes `nanoseconds` and
`nanosecond`, are read with them.
"""

from __future__ import annotations

import re
from datetime import datetime, timedelta, timezone
from datetime import tzinfo as TimeZone
from fractions import Fraction
from time import struct_time
from typing import Any, Optional, Tuple, Union, overload

from ._whole import Pair, whole_number

MICROSECOND = timedelta(microseconds=1)
NANOSECONDS_OF_MICROSECOND = 1_000
NANOSECONDS_OF_SECOND = 1_000_000_000
MICROSECONDS_OF_SECOND = 1_000_000
SECONDS_OF_MINUTE = 60
SECONDS_OF_HOUR = 3_600
SECONDS_OF_DAY = 86_400

_EPOCH = datetime(1970, 1, 1, tzinfo=timezone.utc)
_EPOCH_DAY = _EPOCH.toordinal()
_FIRST_SECOND = (datetime.min.toordinal() - _EPOCH_DAY) * SECONDS_OF_DAY  # 0001-01-01T00:00:00Z
_LAST_SECOND = (datetime.max.toordinal() - _EPOCH_DAY + 1) * SECONDS_OF_DAY - 1  # 9999-12-31T23:59:59Z

_TO_MICROSECONDS = len("2026-01-05T08:00:00.000000")  # how long a time with microseconds is when it is written
_LONG_FRACTION = re.compile(r"([0-9W-]+.[0-9:]+[.,][0-9]{6})([0-9]+)(.*)")  # to microseconds, more digits, the rest
_DIGITS_BELOW = 3  # digits of the nanoseconds below a microsecond


class BeyondDatetime(OverflowError):
    """An answer is an instant before the year 1 or after the year 9999, which no datetime can be.

    seconds, nanoseconds: the instant, as `hirgwamo.numbers` gives it.
    """

    def __init__(self, seconds: int, nanoseconds: int) -> None:
        self.seconds = seconds
        self.nanoseconds = nanoseconds
        super().__init__(seconds, nanoseconds)

    def __str__(self) -> str:
        side = "before the year 1" if self.seconds < _FIRST_SECOND else "after the year 9999"
        return (
            f"the instant {self.seconds} s {self.nanoseconds} ns from 1970-01-01T00:00:00Z is {side}, "
            "where no datetime is; the calls of hirgwamo.numbers give it as numbers"
        )


# ---- whole numbers of timedelta and datetime


def below_microsecond(value: object, name: str) -> int:
    """Nanoseconds from 0 to 999."""
    number = whole_number(value, name)
    if not 0 <= number < NANOSECONDS_OF_MICROSECOND:
        raise ValueError(f"{name} is {number}; give a number from 0 to 999")
    return number


def _whole_microseconds(d: timedelta) -> int:
    """How many whole microseconds a duration has, rounded down; of a subclass too those of timedelta itself."""
    return timedelta.__floordiv__(d, MICROSECOND)


def _total(d: timedelta) -> int:
    """A duration in nanoseconds."""
    below = below_microsecond(getattr(d, "nanoseconds", 0), "nanoseconds")
    return _whole_microseconds(d) * NANOSECONDS_OF_MICROSECOND + below


def _plain(t: datetime) -> datetime:
    """The datetime of the same microsecond, of no subclass."""
    if type(t) is datetime:
        return t
    return datetime(t.year, t.month, t.day, t.hour, t.minute, t.second, t.microsecond, t.tzinfo, fold=t.fold)


def nanosecond_of(t: datetime) -> int:
    """The nanoseconds that a datetime has below its microsecond; 0 where it has none to tell."""
    return below_microsecond(getattr(t, "nanosecond", 0), "nanosecond")


def duration_numbers(d: timedelta) -> Pair:
    """A duration as seconds and nanoseconds, both of one sign or zero."""
    total = _total(d)
    seconds, nanoseconds = divmod(abs(total), NANOSECONDS_OF_SECOND)
    return (seconds, nanoseconds) if total >= 0 else (-seconds, -nanoseconds)


def second_of_day(t: datetime) -> int:
    """The second of its day that a datetime shows."""
    return t.hour * SECONDS_OF_HOUR + t.minute * SECONDS_OF_MINUTE + t.second


def instant_numbers(t: datetime, offset: timedelta) -> Pair:
    """The seconds (rounded down) and nanoseconds from 1970-01-01T00:00:00Z: what a datetime shows, less its offset."""
    shown = (t.toordinal() - _EPOCH_DAY) * SECONDS_OF_DAY + second_of_day(t)
    microseconds = shown * MICROSECONDS_OF_SECOND + t.microsecond - _whole_microseconds(offset)
    seconds, below = divmod(microseconds, MICROSECONDS_OF_SECOND)
    return seconds, below * NANOSECONDS_OF_MICROSECOND + nanosecond_of(t)


def naive_error(t: datetime, name: str) -> ValueError:
    """What is raised for a datetime that tells no instant."""
    return ValueError(
        f"{name} is a naive datetime, {t.isoformat()}: without a time zone it tells no instant; "
        f"write {name}.replace(tzinfo=timezone.utc) if it is in UTC, or give it the time zone that it is in"
    )


# ---- durations


class Duration(timedelta):
    """A timedelta with nanoseconds.

    It is made as a timedelta is, of whole numbers alone, and of `nanoseconds`, of any size and sign. Like a timedelta
    it has `days` of any sign, and `seconds`, `microseconds` and `nanoseconds` (0 to 999) that are not negative: minus
    one nanosecond is Duration(days=-1, seconds=86399, microseconds=999999, nanoseconds=999). Where a product or a
    quotient is no whole number of nanoseconds it is rounded to the nearest, half to even.
    """

    __slots__ = ("_nanoseconds",)
    _nanoseconds: int

    def __new__(
        cls,
        days: int = 0,
        seconds: int = 0,
        microseconds: int = 0,
        milliseconds: int = 0,
        minutes: int = 0,
        hours: int = 0,
        weeks: int = 0,
        *,
        nanoseconds: int = 0,
    ) -> Duration:
        names = ("days", "seconds", "microseconds", "milliseconds", "minutes", "hours", "weeks")
        values = (days, seconds, microseconds, milliseconds, minutes, hours, weeks)
        parts = {name: whole_number(value, name) for name, value in zip(names, values)}
        carried, below = divmod(whole_number(nanoseconds, "nanoseconds"), NANOSECONDS_OF_MICROSECOND)
        parts["microseconds"] += carried
        self = super().__new__(cls, **parts)
        self._nanoseconds = below
        return self

    @classmethod
    def of(cls, d: timedelta) -> Duration:
        """The Duration of a timedelta."""
        return Duration(nanoseconds=_total(d))

    @classmethod
    def of_numbers(cls, seconds: int, nanoseconds: int = 0) -> Duration:
        """The Duration of seconds and nanoseconds, as `hirgwamo.numbers` gives them."""
        return Duration(seconds=seconds, nanoseconds=nanoseconds)

    def numbers(self) -> Pair:
        """Seconds and nanoseconds, both of one sign or zero, as `hirgwamo.numbers` takes them."""
        return duration_numbers(self)

    @property
    def nanoseconds(self) -> int:
        """The nanoseconds below the microsecond, 0 to 999."""
        return self._nanoseconds

    def total_nanoseconds(self) -> int:
        """All of it in nanoseconds."""
        return _total(self)

    def total_seconds(self) -> float:
        """All of it in seconds, rounded to a float."""
        return _total(self) / NANOSECONDS_OF_SECOND

    def whole_microseconds(self) -> timedelta:
        """The timedelta without the nanoseconds, rounded down."""
        return timedelta(microseconds=_whole_microseconds(self))

    # A datetime on the right too: without this its sum with a Duration would lose the nanoseconds.
    @overload  # type: ignore[override]
    def __add__(self, other: timedelta) -> Duration: ...

    @overload
    def __add__(self, other: datetime) -> datetime: ...

    def __add__(self, other: Union[timedelta, datetime]) -> Union[Duration, datetime]:
        if isinstance(other, timedelta):
            return Duration(nanoseconds=_total(self) + _total(other))
        if isinstance(other, datetime) and self._nanoseconds:
            return Instant.of(other) + self
        return NotImplemented

    def __radd__(self, other: timedelta) -> Duration:
        if not isinstance(other, timedelta):
            return NotImplemented
        return Duration(nanoseconds=_total(other) + _total(self))

    def __sub__(self, other: timedelta) -> Duration:
        if not isinstance(other, timedelta):
            return NotImplemented
        return Duration(nanoseconds=_total(self) - _total(other))

    def __rsub__(self, other: timedelta) -> Duration:
        if not isinstance(other, timedelta):
            return NotImplemented
        return Duration(nanoseconds=_total(other) - _total(self))

    def __neg__(self) -> Duration:
        return Duration(nanoseconds=-_total(self))

    def __pos__(self) -> Duration:
        return self

    def __abs__(self) -> Duration:
        return Duration(nanoseconds=abs(_total(self)))

    def __mul__(self, factor: float) -> Duration:
        if not isinstance(factor, (int, float)):
            return NotImplemented
        return Duration(nanoseconds=round(_total(self) * Fraction(factor)))

    __rmul__ = __mul__

    @overload
    def __truediv__(self, other: timedelta) -> float: ...

    @overload
    def __truediv__(self, other: float) -> Duration: ...

    def __truediv__(self, other: Union[timedelta, float]) -> Union[Duration, float]:
        if isinstance(other, timedelta):
            return _total(self) / _total(other)
        if isinstance(other, (int, float)):
            return Duration(nanoseconds=round(_total(self) / Fraction(other)))
        return NotImplemented

    def __rtruediv__(self, other: timedelta) -> float:
        if not isinstance(other, timedelta):
            return NotImplemented
        return _total(other) / _total(self)

    @overload
    def __floordiv__(self, other: timedelta) -> int: ...

    @overload
    def __floordiv__(self, other: int) -> Duration: ...

    def __floordiv__(self, other: Union[timedelta, int]) -> Union[Duration, int]:
        if isinstance(other, timedelta):
            return _total(self) // _total(other)
        if isinstance(other, int):
            return Duration(nanoseconds=_total(self) // other)
        return NotImplemented

    def __rfloordiv__(self, other: timedelta) -> int:
        if not isinstance(other, timedelta):
            return NotImplemented
        return _total(other) // _total(self)

    def __mod__(self, other: timedelta) -> Duration:
        if not isinstance(other, timedelta):
            return NotImplemented
        return Duration(nanoseconds=_total(self) % _total(other))

    def __rmod__(self, other: timedelta) -> Duration:
        if not isinstance(other, timedelta):
            return NotImplemented
        return Duration(nanoseconds=_total(other) % _total(self))

    def __divmod__(self, other: timedelta) -> Tuple[int, Duration]:
        if not isinstance(other, timedelta):
            return NotImplemented
        return self // other, self % other

    def __rdivmod__(self, other: timedelta) -> Tuple[int, Duration]:
        if not isinstance(other, timedelta):
            return NotImplemented
        return divmod(Duration.of(other), self)

    def __eq__(self, other: object) -> bool:
        if not isinstance(other, timedelta):
            return NotImplemented
        return _total(self) == _total(other)

    def __ne__(self, other: object) -> bool:
        if not isinstance(other, timedelta):
            return NotImplemented
        return _total(self) != _total(other)

    def __lt__(self, other: timedelta) -> bool:
        if not isinstance(other, timedelta):
            return NotImplemented
        return _total(self) < _total(other)

    def __le__(self, other: timedelta) -> bool:
        if not isinstance(other, timedelta):
            return NotImplemented
        return _total(self) <= _total(other)

    def __gt__(self, other: timedelta) -> bool:
        if not isinstance(other, timedelta):
            return NotImplemented
        return _total(self) > _total(other)

    def __ge__(self, other: timedelta) -> bool:
        if not isinstance(other, timedelta):
            return NotImplemented
        return _total(self) >= _total(other)

    def __hash__(self) -> int:
        whole = hash(self.whole_microseconds())
        return hash((whole, self._nanoseconds)) if self._nanoseconds else whole

    def __bool__(self) -> bool:
        return _total(self) != 0

    def __repr__(self) -> str:
        names = ("days", "seconds", "microseconds", "nanoseconds")
        parts = [f"{name}={getattr(self, name)}" for name in names if getattr(self, name)]
        return f"Duration({', '.join(parts) or '0'})"

    def __str__(self) -> str:
        if not self._nanoseconds:
            return str(self.whole_microseconds())
        whole = str(self.whole_microseconds())
        return f"{whole}{'' if self.microseconds else '.000000'}{self._nanoseconds:03}"

    def __reduce__(self) -> Tuple[Any, ...]:
        return _duration_again, (_total(self),)


def _duration_again(total: int) -> Duration:
    """A Duration from what `__reduce__` keeps of it."""
    return Duration(nanoseconds=total)


Duration.min = Duration.of(timedelta.min)
Duration.max = Duration.of(timedelta.max) + Duration(nanoseconds=NANOSECONDS_OF_MICROSECOND - 1)
Duration.resolution = Duration(nanoseconds=1)


# ---- instants


class Instant(datetime):
    """An aware datetime with nanoseconds.

    It is made as a datetime is, always with a time zone, and of `nanosecond`, 0 to 999. `date`, `time`, `strftime`,
    `timestamp` and the like tell the whole microsecond; `str` and `isoformat` write nine digits where there are
    nanoseconds. Sums and differences mean what they mean for a datetime: within one time zone they count what its
    clocks show.
    """

    __slots__ = ("_nanosecond",)
    _nanosecond: int

    def __new__(
        cls,
        year: int,
        month: int,
        day: int,
        hour: int = 0,
        minute: int = 0,
        second: int = 0,
        microsecond: int = 0,
        tzinfo: Optional[TimeZone] = None,
        *,
        fold: int = 0,
        nanosecond: int = 0,
    ) -> Instant:
        self = super().__new__(cls, year, month, day, hour, minute, second, microsecond, tzinfo, fold=fold)
        self._nanosecond = below_microsecond(nanosecond, "nanosecond")
        if self.utcoffset() is None:
            raise ValueError("an Instant is aware; give it a time zone, such as tzinfo=timezone.utc")
        return self

    @classmethod
    def _with(cls, t: datetime, nanosecond: int) -> Instant:
        parts = (t.year, t.month, t.day, t.hour, t.minute, t.second, t.microsecond)
        return Instant(*parts, t.tzinfo, fold=t.fold, nanosecond=nanosecond)

    @classmethod
    def of(cls, t: datetime) -> Instant:
        """The Instant of an aware datetime, in the same time zone."""
        if not isinstance(t, datetime):
            raise TypeError(f"t is of type {type(t).__name__}; give an aware datetime")
        if t.utcoffset() is None:
            raise naive_error(t, "t")
        return cls._with(t, nanosecond_of(t))

    @classmethod
    def of_numbers(cls, seconds: int, nanoseconds: int = 0) -> Instant:
        """The Instant of seconds and nanoseconds (0 to 999,999,999) from 1970-01-01T00:00:00Z, in UTC."""
        if not 0 <= whole_number(nanoseconds, "nanoseconds") < NANOSECONDS_OF_SECOND:
            raise ValueError(f"nanoseconds is {nanoseconds}; give a number from 0 to 999999999")
        if not _FIRST_SECOND <= whole_number(seconds, "seconds") <= _LAST_SECOND:
            raise BeyondDatetime(seconds, nanoseconds)
        microseconds, below = divmod(nanoseconds, NANOSECONDS_OF_MICROSECOND)
        return cls._with(_EPOCH + timedelta(seconds=seconds, microseconds=microseconds), below)

    def numbers(self) -> Pair:
        """Seconds and nanoseconds from 1970-01-01T00:00:00Z, as `hirgwamo.numbers` takes them."""
        offset = self.utcoffset()
        if offset is None:
            raise naive_error(self, "the Instant")
        return instant_numbers(self, offset)

    @classmethod
    def fromisoformat(cls, date_string: str) -> Instant:
        """As of datetime, with a UTC offset and with up to nine digits of a second."""
        if not isinstance(date_string, str):
            raise TypeError(f"date_string is of type {type(date_string).__name__}; give a str")
        found = _LONG_FRACTION.fullmatch(date_string)
        if not found:
            return cls.of(datetime.fromisoformat(date_string))
        front, digits, behind = found.groups()
        if len(digits) > _DIGITS_BELOW:
            raise ValueError(f"{date_string!r} has more than nine digits of a second")
        whole = datetime.fromisoformat(front + behind)
        return cls._with(cls.of(whole), int(digits.ljust(_DIGITS_BELOW, "0")))

    @property
    def nanosecond(self) -> int:
        """The nanoseconds below the microsecond, 0 to 999."""
        return self._nanosecond

    def whole_microseconds(self) -> datetime:
        """The datetime without the nanoseconds, rounded down."""
        return _plain(self)

    def replace(self, *parts: Any, nanosecond: Optional[int] = None, **named: Any) -> Any:
        """As of datetime, and of `nanosecond`, which stays where it is not told.

        With tzinfo=None it gives a naive datetime; that is refused where nanoseconds would be lost.
        """
        below = self._nanosecond if nanosecond is None else nanosecond
        plain = _plain(self).replace(*parts, **named)
        if plain.tzinfo is not None:
            return self._with(plain, below)
        if below:
            raise ValueError(
                f"a naive datetime cannot keep {below} ns; write replace(tzinfo=None, nanosecond=0) to leave them out"
            )
        return plain

    __replace__ = replace

    def astimezone(self, tz: Optional[TimeZone] = None) -> Instant:
        """The same instant in another time zone."""
        return self._with(_plain(self).astimezone(tz), self._nanosecond)

    # A time zone is asked about the plain datetime, which every tzinfo knows.

    def utcoffset(self) -> Optional[timedelta]:
        """As of datetime."""
        return _plain(self).utcoffset()

    def dst(self) -> Optional[timedelta]:
        """As of datetime."""
        return _plain(self).dst()

    def tzname(self) -> Optional[str]:
        """As of datetime."""
        return _plain(self).tzname()

    def timestamp(self) -> float:
        """As of datetime, of the whole microsecond."""
        return _plain(self).timestamp()

    def timetuple(self) -> struct_time:
        """As of datetime."""
        return _plain(self).timetuple()

    def utctimetuple(self) -> struct_time:
        """As of datetime."""
        return _plain(self).utctimetuple()

    def __add__(self, other: timedelta) -> Instant:
        if not isinstance(other, timedelta):
            return NotImplemented
        microseconds, below = divmod(self._nanosecond + _total(other), NANOSECONDS_OF_MICROSECOND)
        return self._with(_plain(self) + timedelta(microseconds=microseconds), below)

    __radd__ = __add__

    @overload  # type: ignore[override]
    def __sub__(self, other: datetime) -> Duration: ...

    @overload
    def __sub__(self, other: timedelta) -> Instant: ...

    def __sub__(self, other: Union[datetime, timedelta]) -> Union[Duration, Instant]:
        if isinstance(other, datetime):
            return Duration(nanoseconds=_total(_plain(self) - _plain(other)) + self._nanosecond - nanosecond_of(other))
        if isinstance(other, timedelta):
            return self + -Duration.of(other)
        return NotImplemented

    def __rsub__(self, other: datetime) -> Duration:
        if not isinstance(other, datetime):
            return NotImplemented
        return Duration(nanoseconds=_total(_plain(other) - _plain(self)) + nanosecond_of(other) - self._nanosecond)

    def _order(self, other: datetime) -> int:
        """Negative where this one is earlier, positive where it is later, else 0."""
        mine, theirs = _plain(self), _plain(other)
        if mine < theirs:
            return -1
        return 1 if theirs < mine else self._nanosecond - nanosecond_of(other)

    def __eq__(self, other: object) -> bool:
        if not isinstance(other, datetime):
            return super().__eq__(other)
        return _plain(self) == _plain(other) and self._nanosecond == nanosecond_of(other)

    def __ne__(self, other: object) -> bool:
        return not self == other

    def __lt__(self, other: Any) -> bool:
        return self._order(other) < 0 if isinstance(other, datetime) else super().__lt__(other)

    def __le__(self, other: Any) -> bool:
        return self._order(other) <= 0 if isinstance(other, datetime) else super().__le__(other)

    def __gt__(self, other: Any) -> bool:
        return self._order(other) > 0 if isinstance(other, datetime) else super().__gt__(other)

    def __ge__(self, other: Any) -> bool:
        return self._order(other) >= 0 if isinstance(other, datetime) else super().__ge__(other)

    def __hash__(self) -> int:
        whole = hash(_plain(self))
        return hash((whole, self._nanosecond)) if self._nanosecond else whole

    def isoformat(self, sep: str = "T", timespec: str = "auto") -> str:
        """As of datetime; with nine digits where there are nanoseconds, and with timespec='nanoseconds'."""
        if timespec != "nanoseconds" and not (timespec == "auto" and self._nanosecond):
            return _plain(self).isoformat(sep, timespec)
        text = _plain(self).isoformat(sep, "microseconds")
        return f"{text[:_TO_MICROSECONDS]}{self._nanosecond:03}{text[_TO_MICROSECONDS:]}"

    def __str__(self) -> str:
        return self.isoformat(" ")

    def __repr__(self) -> str:
        parts = repr(_plain(self)).partition("(")[2][:-1]
        return f"Instant({parts}, nanosecond={self._nanosecond})" if self._nanosecond else f"Instant({parts})"

    def __reduce_ex__(self, protocol: Any) -> Tuple[Any, ...]:
        return _instant_again, (_plain(self), self.fold, self._nanosecond)


def _instant_again(plain: datetime, fold: int, nanosecond: int) -> Instant:
    """An Instant from what `__reduce_ex__` keeps of it. The earlier protocols do not keep the fold of a datetime."""
    return Instant._with(plain.replace(fold=fold), nanosecond)


Instant.min = Instant.of(datetime.min.replace(tzinfo=timezone.utc))
Instant.max = Instant.of(datetime.max.replace(tzinfo=timezone.utc)).replace(nanosecond=NANOSECONDS_OF_MICROSECOND - 1)
Instant.resolution = Duration.resolution
