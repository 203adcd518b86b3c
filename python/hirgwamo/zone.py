"""The calls on one zone file (TZif), on datetimes and timedeltas."""

from __future__ import annotations

from datetime import datetime, timedelta
from typing import Optional

from . import numbers
from ._arguments import instant, local as local_numbers
from .marks import Mark, MarkedInstant
from .times import Instant


class Zone:
    """A time zone by its zone file (TZif).

    The constructor copies the bytes and raises `ZoneUnusable` (refusal 5) where the file is not usable. Instants are
    taken and given as those of `Clock`: aware datetimes in any time zone are taken, and an `Instant` in UTC is given. A
    Zone does not change, and any number of threads may use it at once.
    """

    __slots__ = ("_file",)

    def __init__(self, file: numbers.BytesLike) -> None:
        self._file = numbers.as_bytes(file, "file")
        numbers.offset(self._file, 0, 0)

    @property
    def file(self) -> bytes:
        """The bytes of the zone file."""
        return self._file

    def __repr__(self) -> str:
        return f"<Zone: a file of {len(self._file)} bytes>"

    def offset(self, t: datetime) -> timedelta:
        """The offset at t, positive east of Greenwich."""
        return timedelta(seconds=numbers.offset(self._file, *instant(t, "t")))

    def next_change(self, t: datetime) -> Optional[Instant]:
        """The next change of the offset after t; None where it stays to the end of the range."""
        change = numbers.next_change(self._file, *instant(t, "t"))
        return None if change is None else Instant.of_numbers(*change)

    def resolve(self, local: datetime, nanosecond: Optional[int] = None) -> Instant:
        """The instant of a local time, a naive datetime; `nanosecond` is 0 to 999 below its microsecond.

        Of a time that is read twice it is the earlier one, and a datetime with fold=1 is a ValueError; a time that is
        skipped moves on by the gap.
        """
        return Instant.of_numbers(*numbers.resolve(self._file, *local_numbers(local, nanosecond, "local")))

    def resolve_marked(self, local: datetime, nanosecond: Optional[int] = None) -> MarkedInstant:
        """The instant of `resolve`, and the `Mark` of the local time: whether it was skipped or comes twice."""
        told = numbers.resolve_marked(self._file, *local_numbers(local, nanosecond, "local"))
        return MarkedInstant(Instant.of_numbers(*told[:2]), Mark(told[2]))
