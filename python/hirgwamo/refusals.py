"""Refusals of the clock as exceptions: one class for each number, with the place and a sentence.

`docs/FORMATS.md` has the table of refusals and the order in which they apply.
"""

from __future__ import annotations

from typing import ClassVar, Dict, Tuple, Type

# A record of a book begins with its kind and the length of a zone's name, one byte each, and then the name.
_NAME_LENGTH_AT = 1
_NAME_AT = 2


class Refusal(Exception):
    """The clock refuses a call.

    number: which refusal it is, 1 to 12.
    place: where the record that is refused begins in the book, for 4 and 5; else 0.
    sentence: what happened, in words; also what `str` gives.
    """

    number: ClassVar[int] = 0
    _told: ClassVar[str] = "the clock refuses the call"

    def __init__(self, place: int = 0, sentence: str = "") -> None:
        self.place = place
        self.sentence = sentence or self._told
        super().__init__(self.place, self.sentence)

    def __str__(self) -> str:
        return self.sentence


class BookLayout(Refusal):
    """1: the book breaks its layout."""

    number = 1
    _told = "the book breaks its layout"


class BookLimit(Refusal):
    """2: the book passes a limit."""

    number = 2
    _told = "the book passes a limit: too many records, too many of one kind, or too many dates"


class PackLayout(Refusal):
    """3: the pack breaks its layout."""

    number = 3
    _told = "the pack breaks its layout"


class UnknownZone(Refusal):
    """4: a zone that the book names is not in the pack."""

    number = 4
    _told = "a zone that the book names is not in the pack"


class ZoneUnusable(Refusal):
    """5: the file of a zone is not usable."""

    number = 5
    _told = "the zone file is not usable"


class NoWorkingTime(Refusal):
    """6: there is no working time."""

    number = 6
    _told = "no working time: the book has none, or a gap is longer than the search limit"


class OutOfRange(Refusal):
    """7: the search meets the end of the range, or -2^63 s is to be negated."""

    number = 7
    _told = "the search meets the end of the range of instants, or a duration of -2^63 s is to be negated"


class InstantOutOfRange(Refusal):
    """8: an instant, a date or a time of day that there is not."""

    number = 8
    _told = (
        "an instant, a date or a time of day that there is not: instants go from -377705023201 s 0 ns "
        "to 253402207200 s 999999999 ns, dates from -9999-01-01 to 9999-12-31"
    )


class DurationMalformed(Refusal):
    """9: a duration's two numbers are of two signs, or out of their ranges."""

    number = 9
    _told = "a duration is malformed: its numbers are of two signs, its nanoseconds 10^9 or more, or it passes 64 bits"


class TooFewNumbers(Refusal):
    """10: the stretches do not fit the numbers lent to the listing.

    The calls of this package lend more numbers and ask again, so that they do not raise it.
    """

    number = 10
    _told = "the stretches do not fit the numbers that are lent to the listing"


class LogMalformed(Refusal):
    """11: a log of runs is not one."""

    number = 11
    _told = (
        "the log of runs is malformed: an odd number of numbers, more than 4096 runs, an offset below 0, a length "
        "below 1 s, a run that starts before the end of the one before it, or one that ends past the last instant"
    )


class WidthOutOfRange(Refusal):
    """12: the width of a window is below 1 s or above 34,560,000 s."""

    number = 12
    _told = "the width of a window is below 1 s or above 34560000 s (400 days)"


_KINDS: Tuple[Type[Refusal], ...] = (
    BookLayout,
    BookLimit,
    PackLayout,
    UnknownZone,
    ZoneUnusable,
    NoWorkingTime,
    OutOfRange,
    InstantOutOfRange,
    DurationMalformed,
    TooFewNumbers,
    LogMalformed,
    WidthOutOfRange,
)
BY_NUMBER: Dict[int, Type[Refusal]] = {kind.number: kind for kind in _KINDS}


def _zone_name(book: bytes, place: int) -> str:
    """The zone's name in the record that begins at a place of the book."""
    length = book[place + _NAME_LENGTH_AT]
    name = book[place + _NAME_AT : place + _NAME_AT + length].decode("ascii", "backslashreplace")
    return name if name and name.isprintable() else repr(name)


def _zone_sentence(number: int, place: int, book: bytes) -> str:
    """What is told of a zone that a record of the book names."""
    zone, record = _zone_name(book, place), f"(record at byte {place} of the book)"
    if number == UnknownZone.number:
        return f"zone {zone} is not in the pack {record}"
    return f"the file of zone {zone} in the pack is not usable {record}"


def refusal(number: int, place: int, book: bytes = b"") -> Refusal:
    """The exception of a refusal's number and place; with the book the zone's name is read from it."""
    kind = BY_NUMBER[number]
    if book and number in (UnknownZone.number, ZoneUnusable.number):
        return kind(place, _zone_sentence(number, place, book))
    return kind(place)
