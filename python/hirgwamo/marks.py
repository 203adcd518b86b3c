"""Marks: what the changes of the clock did to a local time, and answers that tell them."""

from __future__ import annotations

from enum import IntEnum
from typing import NamedTuple

from . import numbers
from .times import Instant


class Mark(IntEnum):
    """What the changes of the clock did to a local time. Where merged ends lie at one instant, the greatest is kept.

    PLAIN: one instant reads so. Also an end that is not a rule's own: the instant given, or the search limit.
    REPEATED: more than one instant reads so, since the clock was set back; the earliest is given.
    SKIPPED: no instant reads so, since the clock was set forward over it; the time moves on by the gap.
    BEYOND: the instant would lie beyond the range; the first or the last instant is given.
    """

    PLAIN = numbers.PLAIN
    REPEATED = numbers.REPEATED
    SKIPPED = numbers.SKIPPED
    BEYOND = numbers.BEYOND


class MarkedInstant(NamedTuple):
    """The instant of a local time, and the local time's mark."""

    instant: Instant
    mark: Mark


class MarkedPeriod(NamedTuple):
    """A stretch of working time: where it starts and where it ends, and the marks of both."""

    start: Instant
    end: Instant
    start_mark: Mark
    end_mark: Mark

    @classmethod
    def of_numbers(cls, told: numbers.MarkedStretch) -> MarkedPeriod:
        """The MarkedPeriod of six numbers: start second, nanoseconds, end second, nanoseconds, the marks of both."""
        start, end = Instant.of_numbers(*told[:2]), Instant.of_numbers(*told[2:4])
        return cls(start, end, Mark(told[4]), Mark(told[5]))
