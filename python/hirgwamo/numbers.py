"""The calls of the proved code on plain numbers, for all instants and durations that there are.

An instant is two whole numbers: seconds from 1970-01-01T00:00:00Z, rounded down, and nanoseconds from 0 to 999,999,999.
A duration is two whole numbers of one sign or zero: seconds, and nanoseconds below 10^9 in size. `FIRST` and `LAST` are
the first and the last instant.

Each call takes the bytes of a rule book and of a zone pack, or of one zone file, and numbers; it returns numbers, or
raises a `Refusal`. `answers` gives refusals as numbers too. A number outside signed 64 bits is refused as any other
number that is too large or too small: with 8 for an instant, a date or a time of day, with 9 for a duration, with 11
and 12 for a log and a width. What is no int (a float, a bool, a str) is a `TypeError`.

Nothing is kept from one call to the next, so any number of threads may call at once; Python's own lock is released
during a call. A call cannot be interrupted, and one over a long span can take seconds.
"""

from __future__ import annotations

import ctypes
from ctypes import c_int64
from typing import Any, Iterable, List, Optional, Sequence, Tuple, Union

from . import _library
from ._whole import Pair, whole_number
from .refusals import BY_NUMBER, TooFewNumbers, refusal

BytesLike = Union[bytes, bytearray, memoryview]
Stretch = Tuple[int, int, int, int]
MarkedStretch = Tuple[int, int, int, int, int, int]
QueryNumbers = Tuple[int, int, int, int, int]
AnswerNumbers = Tuple[int, int, int, int, int, int]

FIRST: Pair = (-377_705_023_201, 0)
LAST: Pair = (253_402_207_200, 999_999_999)

# The kinds of queries that `answers` takes.
BETWEEN, ADD, SUB, NEXT, PREVIOUS = range(5)

# The marks of local times. `hirgwamo.Mark` tells what they mean.
PLAIN, REPEATED, SKIPPED, BEYOND = range(4)

_LEAST, _MOST = -(2**63), 2**63 - 1  # signed 64 bits
_NO_DURATION: Pair = (1, -1)  # two signs: no duration

# How many numbers an answer, a stretch and a query have.
_VERDICT_SIZE = 1
_TIME_SIZE = 3
_INSTANT_SIZE = 3
_PERIOD_SIZE = 4
_COUNT_SIZE = 1
_STRETCH_SIZE = 4
_OFFSET_SIZE = 1
_CHANGE_SIZE = 3
_RESOLVED_SIZE = 2
_QUERY_SIZE = 5
_ANSWER_SIZE = 6
_MARKED_PERIOD_SIZE = 6
_MARKED_INSTANT_SIZE = 3

_FIRST_STRETCHES = 256  # how many stretches there is room for when a listing is first asked
_GROWTH = 4  # how many times as many the next time

_c = _library.load()


def version() -> Tuple[int, int, int]:
    """Major, minor and patch of the library's version."""
    return _library.version_parts(_c.hirgwamo_version())


# ---- what is given


def as_bytes(value: BytesLike, name: str) -> bytes:
    """The bytes of an argument, which nobody can change during a call."""
    if not isinstance(value, (bytes, bytearray, memoryview)):
        raise TypeError(f"{name} is of type {type(value).__name__}; give bytes, such as open(path, 'rb').read() gives")
    return value if type(value) is bytes else memoryview(value).tobytes()


def _bounded(value: int, name: str) -> int:
    """A number, or the nearest one of 64 bits, which too is no part of an instant, a date, a log or a width."""
    return min(max(whole_number(value, name), _LEAST), _MOST)


def _instant(sec: int, ns: int, name: str) -> Pair:
    return _bounded(sec, f"{name}_sec"), _bounded(ns, f"{name}_ns")


def _local(year: int, month: int, day: int, second: int, ns: int) -> Tuple[int, int, int, int, int]:
    date = _bounded(year, "year"), _bounded(month, "month"), _bounded(day, "day")
    return (*date, _bounded(second, "second"), _bounded(ns, "ns"))


def _duration(sec: int, ns: int, name: str) -> Pair:
    """A duration, or one that is refused where a number is outside 64 bits; the nearest inside may be a duration."""
    pair = whole_number(sec, f"{name}_sec"), whole_number(ns, f"{name}_ns")
    return pair if all(_LEAST <= number <= _MOST for number in pair) else _NO_DURATION


def _lent(book: BytesLike, pack: BytesLike) -> Tuple[bytes, int, bytes, int]:
    """Book and pack as the functions take them. Bytes of length 0 have an address too, so that NULL is never lent."""
    of_book, of_pack = as_bytes(book, "book"), as_bytes(pack, "pack")
    return of_book, len(of_book), of_pack, len(of_pack)


def _lent_file(file: BytesLike) -> Tuple[bytes, int]:
    of_file = as_bytes(file, "file")
    return of_file, len(of_file)


def _memory(length: int, numbers: Iterable[int] = ()) -> ctypes.Array[c_int64]:
    """Memory for so many numbers, one at least, so that it has an address."""
    return (c_int64 * max(length, 1))(*numbers)


# ---- the calls


def _unexpected(code: int) -> RuntimeError:
    return RuntimeError(f"the library returned {code}, which is no answer and no refusal")


def _asked(function: Any, size: int, book: bytes, *given: object) -> List[int]:
    """The numbers that a function answers; raises its refusal. `book` is where a refused record's zone is read."""
    answer = _memory(size)
    code: int = function(*given, answer, size)
    if code in BY_NUMBER:
        raise refusal(code, answer[0], book)
    if code:
        raise _unexpected(code)
    return answer[:]


def build(book: BytesLike, pack: BytesLike) -> None:
    """Returns where the book builds with the pack; else raises refusal 1 to 6."""
    lent = _lent(book, pack)
    _asked(_c.hirgwamo_build, _VERDICT_SIZE, lent[0], *lent)


def between(book: BytesLike, pack: BytesLike, a_sec: int, a_ns: int, b_sec: int, b_ns: int) -> Tuple[int, int, int]:
    """The working time from a to b, negative where b is earlier: seconds, nanoseconds, windows resolved."""
    lent = _lent(book, pack)
    given = (*_instant(a_sec, a_ns, "a"), *_instant(b_sec, b_ns, "b"))
    sec, ns, windows = _asked(_c.hirgwamo_between, _TIME_SIZE, lent[0], *lent, *given)
    return sec, ns, windows


def add(book: BytesLike, pack: BytesLike, t_sec: int, t_ns: int, d_sec: int, d_ns: int) -> Tuple[int, int, int]:
    """The instant that is d of working time after t: seconds, nanoseconds, windows resolved. A negative d goes back."""
    lent = _lent(book, pack)
    given = (*_instant(t_sec, t_ns, "t"), *_duration(d_sec, d_ns, "d"))
    sec, ns, windows = _asked(_c.hirgwamo_add, _INSTANT_SIZE, lent[0], *lent, *given)
    return sec, ns, windows


def sub(book: BytesLike, pack: BytesLike, t_sec: int, t_ns: int, d_sec: int, d_ns: int) -> Tuple[int, int, int]:
    """The instant that is d of working time before t: seconds, nanoseconds, windows resolved."""
    lent = _lent(book, pack)
    given = (*_instant(t_sec, t_ns, "t"), *_duration(d_sec, d_ns, "d"))
    sec, ns, windows = _asked(_c.hirgwamo_sub, _INSTANT_SIZE, lent[0], *lent, *given)
    return sec, ns, windows


def next_period(book: BytesLike, pack: BytesLike, t_sec: int, t_ns: int) -> Stretch:
    """The working period about t or the next one after it: start second, nanoseconds, end second, nanoseconds."""
    lent, at = _lent(book, pack), _instant(t_sec, t_ns, "t")
    start, start_ns, end, end_ns = _asked(_c.hirgwamo_next_period, _PERIOD_SIZE, lent[0], *lent, *at)
    return start, start_ns, end, end_ns


def previous_period(book: BytesLike, pack: BytesLike, t_sec: int, t_ns: int) -> Stretch:
    """The last working period that begins before t: start second, nanoseconds, end second, nanoseconds."""
    lent, at = _lent(book, pack), _instant(t_sec, t_ns, "t")
    start, start_ns, end, end_ns = _asked(_c.hirgwamo_previous_period, _PERIOD_SIZE, lent[0], *lent, *at)
    return start, start_ns, end, end_ns


def _marked_stretch(function: Any, book: BytesLike, pack: BytesLike, t_sec: int, t_ns: int) -> MarkedStretch:
    lent, at = _lent(book, pack), _instant(t_sec, t_ns, "t")
    told = _asked(function, _MARKED_PERIOD_SIZE, lent[0], *lent, *at)
    start, start_ns, end, end_ns, start_mark, end_mark = told
    return start, start_ns, end, end_ns, start_mark, end_mark


def next_period_marked(book: BytesLike, pack: BytesLike, t_sec: int, t_ns: int) -> MarkedStretch:
    """The numbers of `next_period`, then the start's mark and the end's mark."""
    return _marked_stretch(_c.hirgwamo_next_period_marked, book, pack, t_sec, t_ns)


def previous_period_marked(book: BytesLike, pack: BytesLike, t_sec: int, t_ns: int) -> MarkedStretch:
    """The numbers of `previous_period`, then the start's mark and the end's mark."""
    return _marked_stretch(_c.hirgwamo_previous_period_marked, book, pack, t_sec, t_ns)


def list_into(
    book: BytesLike, pack: BytesLike, a_sec: int, a_ns: int, b_sec: int, b_ns: int, room: int
) -> List[Stretch]:
    """As `list`, in memory for `room` numbers, four for each stretch; raises refusal 10 where these are too few."""
    lent = _lent(book, pack)
    given = (*_instant(a_sec, a_ns, "a"), *_instant(b_sec, b_ns, "b"))
    if whole_number(room, "room") < 0:
        raise ValueError(f"room is {room}; give 0 or more")
    memory = _memory(room)
    (count,) = _asked(_c.hirgwamo_list, _COUNT_SIZE, lent[0], *lent, *given, memory, room)
    parts = (memory[part : _STRETCH_SIZE * count : _STRETCH_SIZE] for part in range(_STRETCH_SIZE))
    return [(start, start_ns, end, end_ns) for start, start_ns, end, end_ns in zip(*parts)]


def list(book: BytesLike, pack: BytesLike, a_sec: int, a_ns: int, b_sec: int, b_ns: int) -> List[Stretch]:
    """All maximal working stretches from a to b, each start second, nanoseconds, end second, nanoseconds.

    Where the memory is too small for the stretches, more is taken and the call is made again.
    """
    room = _FIRST_STRETCHES * _STRETCH_SIZE
    while True:
        try:
            return list_into(book, pack, a_sec, a_ns, b_sec, b_ns, room)
        except TooFewNumbers:
            room *= _GROWTH


def hardest(book: BytesLike, pack: BytesLike, t_sec: int, t_ns: int, log: Sequence[int], width: int) -> Stretch:
    """The hardest stretch of a log of runs: the time's seconds and nanoseconds, then those of the window's start.

    The log is two numbers for each run, its offset from t and its length, in whole seconds; so is the width.
    """
    lent = _lent(book, pack)
    runs = [_bounded(number, f"log[{place}]") for place, number in enumerate(log)]
    given = (*_instant(t_sec, t_ns, "t"), _memory(len(runs), runs), len(runs), _bounded(width, "width"))
    sec, ns, start, start_ns = _asked(_c.hirgwamo_hardest, _STRETCH_SIZE, lent[0], *lent, *given)
    return sec, ns, start, start_ns


def offset(file: BytesLike, t_sec: int, t_ns: int) -> int:
    """The offset of a zone at t, in seconds east of Greenwich."""
    return _asked(_c.hirgwamo_offset, _OFFSET_SIZE, b"", *_lent_file(file), *_instant(t_sec, t_ns, "t"))[0]


def next_change(file: BytesLike, t_sec: int, t_ns: int) -> Optional[Pair]:
    """The next change of a zone's offset after t; None where the offset stays to the range's end."""
    given = (*_lent_file(file), *_instant(t_sec, t_ns, "t"))
    changes, sec, ns = _asked(_c.hirgwamo_next_change, _CHANGE_SIZE, b"", *given)
    return (sec, ns) if changes else None


def resolve(file: BytesLike, year: int, month: int, day: int, second: int, ns: int) -> Pair:
    """The instant of a local time: a date, a second of its day and nanoseconds.

    Years before 0 are negative, as in ISO 8601. Of a time that is read twice it is the earlier one; a time that is
    skipped moves on by the gap.
    """
    local = _local(year, month, day, second, ns)
    sec, nanoseconds = _asked(_c.hirgwamo_resolve, _RESOLVED_SIZE, b"", *_lent_file(file), *local)
    return sec, nanoseconds


def resolve_marked(file: BytesLike, year: int, month: int, day: int, second: int, ns: int) -> Tuple[int, int, int]:
    """The numbers of `resolve`, then the local time's mark."""
    local = _local(year, month, day, second, ns)
    sec, nanoseconds, mark = _asked(_c.hirgwamo_resolve_marked, _MARKED_INSTANT_SIZE, b"", *_lent_file(file), *local)
    return sec, nanoseconds, mark


# ---- many queries


def _query(query: QueryNumbers, place: int) -> QueryNumbers:
    """A query as the function takes it; a number outside 64 bits as one that is refused."""
    kind, t_sec, t_ns, sec, ns = query
    name = f"queries[{place}]"
    if whole_number(kind, f"{name} kind") not in (BETWEEN, ADD, SUB, NEXT, PREVIOUS):
        raise ValueError(f"{name}: {kind} is no kind of query; give BETWEEN, ADD, SUB, NEXT or PREVIOUS")
    other = _duration if kind in (ADD, SUB) else _instant
    return (kind, *_instant(t_sec, t_ns, f"{name} t"), *other(sec, ns, f"{name} second"))


def answers(book: BytesLike, pack: BytesLike, queries: Iterable[QueryNumbers]) -> List[AnswerNumbers]:
    """The answers to many queries of one book and pack, which is built once, by one call.

    A query is five numbers: its kind, an instant, and the other instant (BETWEEN), a duration (ADD, SUB) or two numbers
    that do not count (NEXT, PREVIOUS). An answer is six numbers: the refusal's number or 0; the refusal's place, or the
    windows resolved (0 for a period); then the answer's two or four numbers and zeros behind them. A refusal is not
    raised.
    """
    lent = _lent(book, pack)
    asked = [_query(query, place) for place, query in enumerate(queries)]
    size, room = _QUERY_SIZE * len(asked), _ANSWER_SIZE * len(asked)
    given, memory = _memory(size, (number for query in asked for number in query)), _memory(room)
    code: int = _c.hirgwamo_answers(*lent, given, size, memory, room)
    if code:
        raise _unexpected(code)
    parts = (memory[part:room:_ANSWER_SIZE] for part in range(_ANSWER_SIZE))
    return [(number, place, n0, n1, n2, n3) for number, place, n0, n1, n2, n3 in zip(*parts)]
