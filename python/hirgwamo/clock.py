"""The clock on datetimes and timedeltas."""

from __future__ import annotations

from datetime import datetime, timedelta
from typing import Iterable, List, NamedTuple, Tuple, TypeVar, Union

from . import numbers
from ._arguments import duration, instant, whole_seconds
from .marks import MarkedPeriod
from .queries import Period, Query
from .refusals import Refusal, refusal
from .times import BeyondDatetime, Duration, Instant

AnswerType = TypeVar("AnswerType")


class Hardest(NamedTuple):
    """The hardest stretch of a log: its running time that was working time, and where its window starts."""

    time: Duration
    start: Instant


class Clock:
    """The working-hours clock of a rule book and a zone pack.

    The constructor copies the bytes of both and raises the refusal (1 to 6) of a book that does not build. The calls

    - take aware datetimes in any time zone, and timedeltas; a naive datetime is a ValueError, another type a TypeError;
    - give instants as `Instant`, an aware datetime with nanoseconds, always in UTC, whatever time zone the arguments
      have: in UTC no time is read twice or skipped, and a difference is the time that passes. `astimezone` turns an
      answer into another time zone;
    - give durations as `Duration`, a timedelta with nanoseconds;
    - raise a `Refusal` where the clock refuses, and `BeyondDatetime` where an answer lies before the year 1, where no
      datetime is. `hirgwamo.numbers` has the same calls on numbers, for all instants.

    A Clock does not change, and any number of threads may use it at once. Each call builds the book again; `answers`
    builds it once for many queries.
    """

    __slots__ = ("_book", "_pack")

    def __init__(self, book: numbers.BytesLike, pack: numbers.BytesLike) -> None:
        self._book = numbers.as_bytes(book, "book")
        self._pack = numbers.as_bytes(pack, "pack")
        numbers.build(self._book, self._pack)

    @property
    def book(self) -> bytes:
        """The bytes of the rule book."""
        return self._book

    @property
    def pack(self) -> bytes:
        """The bytes of the zone pack."""
        return self._pack

    def __repr__(self) -> str:
        return f"<Clock: a book of {len(self._book)} bytes, a pack of {len(self._pack)} bytes>"

    def between(self, a: datetime, b: datetime) -> Duration:
        """The working time from a to b, negative where b is earlier."""
        told = numbers.between(self._book, self._pack, *instant(a, "a"), *instant(b, "b"))
        return Duration.of_numbers(*told[:2])

    def add(self, t: datetime, d: timedelta) -> Instant:
        """The instant that is d of working time after t: the earliest by which so much has passed.

        A negative d goes back.
        """
        told = numbers.add(self._book, self._pack, *instant(t, "t"), *duration(d, "d"))
        return Instant.of_numbers(*told[:2])

    def sub(self, t: datetime, d: timedelta) -> Instant:
        """The same before t."""
        told = numbers.sub(self._book, self._pack, *instant(t, "t"), *duration(d, "d"))
        return Instant.of_numbers(*told[:2])

    def next_period(self, t: datetime) -> Period:
        """The working period about t or the next one after it.

        It starts at t where that lies inside, and is cut to the search limit.
        """
        return Period.of_numbers(numbers.next_period(self._book, self._pack, *instant(t, "t")))

    def previous_period(self, t: datetime) -> Period:
        """The last working period that begins before t.

        It ends at t where that lies inside, and is cut to the search limit.
        """
        return Period.of_numbers(numbers.previous_period(self._book, self._pack, *instant(t, "t")))

    def next_period_marked(self, t: datetime) -> MarkedPeriod:
        """The period of `next_period`, and the marks of both ends.

        Each end has the `Mark` of the local time at which work, a break or a holiday begins or ends there. An end that
        was moved to t or to the search limit is plain.
        """
        return MarkedPeriod.of_numbers(numbers.next_period_marked(self._book, self._pack, *instant(t, "t")))

    def previous_period_marked(self, t: datetime) -> MarkedPeriod:
        """The period of `previous_period`, and the marks of both ends, as `next_period_marked` tells them."""
        return MarkedPeriod.of_numbers(numbers.previous_period_marked(self._book, self._pack, *instant(t, "t")))

    def list(self, a: datetime, b: datetime) -> List[Period]:
        """All maximal working stretches from a to b, in their order."""
        told = numbers.list(self._book, self._pack, *instant(a, "a"), *instant(b, "b"))
        return [Period.of_numbers(stretch) for stretch in told]

    def hardest(self, t: datetime, log: Iterable[Tuple[timedelta, timedelta]], width: timedelta) -> Hardest:
        """The hardest stretch of a log of runs.

        The log is pairs: a run's offset from t and its length. Of the windows of the width that start with a run it is
        the earliest of those with the most running time that was working time. Offsets, lengths and the width are whole
        seconds.
        """
        at = instant(t, "t")
        runs: List[int] = []
        for place, (offset, length) in enumerate(log):
            runs.append(whole_seconds(offset, f"log[{place}][0]"))
            runs.append(whole_seconds(length, f"log[{place}][1]"))
        told = numbers.hardest(self._book, self._pack, *at, runs, whole_seconds(width, "width"))
        return Hardest(Duration.of_numbers(*told[:2]), Instant.of_numbers(*told[2:]))

    def answers(self, queries: Iterable[Query[AnswerType]]) -> List[Union[AnswerType, Refusal, BeyondDatetime]]:
        """The answers to many queries, in their order, by one call that builds the book once.

        A query is a `Between`, `Add`, `Sub`, `NextPeriod` or `PreviousPeriod`. An answer is what its single call
        returns; where that raises a `Refusal` or `BeyondDatetime` it is this exception, not raised, so that the other
        answers are given.
        """
        asked = [_checked(query, place) for place, query in enumerate(queries)]
        told = numbers.answers(self._book, self._pack, [query.numbers for query in asked])
        return [_answer(query, answer, self._book) for query, answer in zip(asked, told)]


def _checked(query: Query[AnswerType], place: int) -> Query[AnswerType]:
    if not isinstance(query, Query):
        kind = type(query).__name__
        raise TypeError(f"queries[{place}] is of type {kind}; give a query, such as Add(t, timedelta(hours=8))")
    return query


def _answer(
    query: Query[AnswerType], told: numbers.AnswerNumbers, book: bytes
) -> Union[AnswerType, Refusal, BeyondDatetime]:
    number, place = told[:2]
    if number:
        return refusal(number, place, book)
    try:
        return query.answer(told[2:])
    except BeyondDatetime as beyond:
        return beyond
