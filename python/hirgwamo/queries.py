"""Queries for `Clock.answers`, which asks many at once. Each says what its single call says."""

from __future__ import annotations

from dataclasses import dataclass
from datetime import datetime, timedelta
from typing import Generic, NamedTuple, TypeVar

from ._arguments import duration, instant
from .numbers import ADD, BETWEEN, NEXT, PREVIOUS, SUB, QueryNumbers, Stretch
from .times import Duration, Instant

AnswerType = TypeVar("AnswerType", covariant=True)


class Period(NamedTuple):
    """A stretch of working time: where it starts and where it ends."""

    start: Instant
    end: Instant

    @classmethod
    def of_numbers(cls, stretch: Stretch) -> Period:
        """The Period of four numbers: start second, nanoseconds, end second, nanoseconds."""
        return cls(Instant.of_numbers(*stretch[:2]), Instant.of_numbers(*stretch[2:]))


class Query(Generic[AnswerType]):
    """A query, and what its answer is: use `Between`, `Add`, `Sub`, `NextPeriod` and `PreviousPeriod`.

    numbers: the query as `hirgwamo.numbers.answers` takes it. A naive datetime or a wrong type is refused when the
    query is made.
    """

    numbers: QueryNumbers

    def __post_init__(self) -> None:
        object.__setattr__(self, "numbers", self._as_numbers())

    def _as_numbers(self) -> QueryNumbers:
        raise NotImplementedError

    def answer(self, told: Stretch) -> AnswerType:
        """The answer of its numbers."""
        raise NotImplementedError


@dataclass(frozen=True)
class Between(Query[Duration]):
    """The working time from an instant to another."""

    a: datetime
    b: datetime

    def _as_numbers(self) -> QueryNumbers:
        return (BETWEEN, *instant(self.a, "a"), *instant(self.b, "b"))

    def answer(self, told: Stretch) -> Duration:
        """The answer of its numbers."""
        return Duration.of_numbers(*told[:2])


@dataclass(frozen=True)
class Add(Query[Instant]):
    """The instant that is a duration of working time after an instant."""

    t: datetime
    d: timedelta

    def _as_numbers(self) -> QueryNumbers:
        return (ADD, *instant(self.t, "t"), *duration(self.d, "d"))

    def answer(self, told: Stretch) -> Instant:
        """The answer of its numbers."""
        return Instant.of_numbers(*told[:2])


@dataclass(frozen=True)
class Sub(Query[Instant]):
    """The instant that is a duration of working time before an instant."""

    t: datetime
    d: timedelta

    def _as_numbers(self) -> QueryNumbers:
        return (SUB, *instant(self.t, "t"), *duration(self.d, "d"))

    def answer(self, told: Stretch) -> Instant:
        """The answer of its numbers."""
        return Instant.of_numbers(*told[:2])


@dataclass(frozen=True)
class NextPeriod(Query[Period]):
    """The working period about an instant or the next one after it."""

    t: datetime

    def _as_numbers(self) -> QueryNumbers:
        return (NEXT, *instant(self.t, "t"), 0, 0)

    def answer(self, told: Stretch) -> Period:
        """The answer of its numbers."""
        return Period.of_numbers(told)


@dataclass(frozen=True)
class PreviousPeriod(Query[Period]):
    """The last working period that begins before an instant."""

    t: datetime

    def _as_numbers(self) -> QueryNumbers:
        return (PREVIOUS, *instant(self.t, "t"), 0, 0)

    def answer(self, told: Stretch) -> Period:
        """The answer of its numbers."""
        return Period.of_numbers(told)
