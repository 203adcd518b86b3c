"""Hirgwamo, a working-hours clock: the proved code for Python.

`Clock` answers questions about working time by a rule book and a zone pack, `Zone` about one zone file, on datetimes
and timedeltas. `hirgwamo.numbers` has the same calls on whole numbers, for all instants and durations. All working time
and all zones are computed by the proved code, in a shared library; this package turns arguments into numbers and
numbers into answers.

    from datetime import datetime, timedelta, timezone
    from hirgwamo import Clock

    clock = Clock(open("book.bin", "rb").read(), open("zones.bin", "rb").read())
    due = clock.add(datetime(2026, 4, 2, 14, 30, tzinfo=timezone.utc), timedelta(hours=8))
"""

from . import numbers
from .clock import Clock, Hardest
from .marks import Mark, MarkedInstant, MarkedPeriod
from .queries import Add, Between, NextPeriod, Period, PreviousPeriod, Query, Sub
from .refusals import (
    BookLayout,
    BookLimit,
    DurationMalformed,
    InstantOutOfRange,
    LogMalformed,
    NoWorkingTime,
    OutOfRange,
    PackLayout,
    Refusal,
    TooFewNumbers,
    UnknownZone,
    WidthOutOfRange,
    ZoneUnusable,
)
from .times import BeyondDatetime, Duration, Instant
from .zone import Zone

__version__ = "1.1.0"

__all__ = [
    "Add",
    "Between",
    "BeyondDatetime",
    "BookLayout",
    "BookLimit",
    "Clock",
    "Duration",
    "DurationMalformed",
    "Hardest",
    "Instant",
    "InstantOutOfRange",
    "LogMalformed",
    "Mark",
    "MarkedInstant",
    "MarkedPeriod",
    "NextPeriod",
    "NoWorkingTime",
    "OutOfRange",
    "PackLayout",
    "Period",
    "PreviousPeriod",
    "Query",
    "Refusal",
    "Sub",
    "TooFewNumbers",
    "UnknownZone",
    "WidthOutOfRange",
    "Zone",
    "ZoneUnusable",
    "numbers",
]
