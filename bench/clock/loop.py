#!/usr/bin/env python3
"""Times a loop over days in Python, beside Hirgwamo called from Python, and prints a table.

usage: loop.py FOLDER LIBRARY ZONEINFO [MILLISECONDS]

FOLDER has the books and questions, as `clock write` makes them. LIBRARY is a shared library of Hirgwamo's functions for C, ZONEINFO the folder of zone
files. Batches of each for MILLISECONDS (20) of processor time in each of eight rounds; the best batch counts.

The loop is our own, since no package of Python that computes working hours could be had. It goes the plain way: for each local date it sees whether there
is a shift, takes its two ends as datetimes of the zone, cuts them to what was asked, and sums them up. It is for books of one shift that does not pass
midnight, and goes forward in time. Its answers must be Hirgwamo's; ends with 1 where they are not.
"""

import ctypes
import datetime
import pathlib
import platform
import struct
import sys
import time
from zoneinfo import ZoneInfo

BOOKS = ("office-utc", "office-berlin-30")
CALLS = ("between-1-week", "between-1-year", "add-8-h", "add-4000-h")
ROUNDS = 8
# Nanoseconds of processor time that a batch takes at least.
BATCH = 1_000_000
# Kinds of records of a book.
DEFAULT_ZONE, WORK, HOLIDAYS = 0, 1, 3
# Numbers of an answer.
SIZE = 3

UTC = datetime.timezone.utc
EPOCH = datetime.datetime(1970, 1, 1, tzinfo=UTC)
DAY = datetime.timedelta(days=1)


class Loop:
    """Working hours by a loop over days."""

    def __init__(self, zone, weekdays, start, end, holidays):
        self.zone, self.weekdays, self.start, self.end, self.holidays = zone, weekdays, start, end, holidays

    def shift(self, date):
        """The two ends of a date's shift, or None. In UTC: Python compares and subtracts datetimes of one zone by their local times."""
        if date.weekday() not in self.weekdays or date in self.holidays:
            return None
        start = datetime.datetime.combine(date, self.start, self.zone)
        end = datetime.datetime.combine(date, self.end, self.zone)
        return start.astimezone(UTC), end.astimezone(UTC)

    def between(self, a, b):
        total = datetime.timedelta(0)
        date, last = a.astimezone(self.zone).date(), b.astimezone(self.zone).date()
        while date <= last:
            shift = self.shift(date)
            if shift:
                start, end = max(shift[0], a), min(shift[1], b)
                if start < end:
                    total += end - start
            date += DAY
        return total

    def add(self, at, left):
        date = at.astimezone(self.zone).date()
        while True:
            shift = self.shift(date)
            if shift:
                start, end = max(shift[0], at), shift[1]
                if start < end:
                    if left <= end - start:
                        return start + left
                    left -= end - start
            date += DAY


class Proved:
    """Hirgwamo's functions by ctypes, one call for each question."""

    def __init__(self, library, book, pack):
        takes = [ctypes.c_char_p, ctypes.c_size_t] * 2 + [ctypes.c_int64] * 4 + [ctypes.POINTER(ctypes.c_int64), ctypes.c_size_t]
        for function in library.hirgwamo_between, library.hirgwamo_add:
            function.argtypes, function.restype = takes, ctypes.c_uint32
        self.library, self.lent = library, (book, len(book), pack, len(pack))

    def ask(self, function, *numbers):
        answer = (ctypes.c_int64 * SIZE)()
        returned = function(*self.lent, *numbers, answer, SIZE)
        if returned:
            sys.exit(f"loop.py: refusal {returned}")
        return length(answer[0], answer[1])

    def between(self, a, b):
        return self.ask(self.library.hirgwamo_between, *numbers_of(a - EPOCH), *numbers_of(b - EPOCH))

    def add(self, at, left):
        return EPOCH + self.ask(self.library.hirgwamo_add, *numbers_of(at - EPOCH), *numbers_of(left))


def length(second, nano):
    return datetime.timedelta(seconds=second, microseconds=nano // 1000)


def numbers_of(span):
    """The seconds and nanoseconds of a timedelta that is not negative."""
    return span.days * 86_400 + span.seconds, span.microseconds * 1000


def records(book):
    count, = struct.unpack_from(">I", book)
    places = struct.iter_unpack(">II", book[4:4 + 8 * count])
    return [book[at:at + size] for at, size in places]


def time_of_day(second):
    return (datetime.datetime.min + datetime.timedelta(seconds=second)).time()


def loop_of(book, zoneinfo):
    """The loop for a book's hours."""
    zone, shifts, holidays = UTC, [], set()
    for record in records(book):
        kind, rest = record[0], record[2 + record[1]:]
        if kind == DEFAULT_ZONE:
            with open(zoneinfo / record[2:].decode(), "rb") as file:
                zone = ZoneInfo.from_file(file)
        elif kind == WORK:
            shifts.append(struct.unpack(">BIIII", rest))
        elif kind == HOLIDAYS:
            holidays.update(datetime.date(*numbers) for numbers in struct.iter_unpack(">hBB", rest[2:]))
    (days, start, _, end, _), = shifts
    weekdays = frozenset(day for day in range(7) if days >> day & 1)
    return Loop(zone, weekdays, time_of_day(start), time_of_day(end), frozenset(holidays))


def question(line, clock):
    """A query line as a call without arguments."""
    kind, *numbers = line.split()
    a, b, c, d = map(int, numbers)
    at, other = EPOCH + length(a, b), length(c, d)
    if kind == "between":
        return lambda: clock.between(at, EPOCH + other)
    return lambda: clock.add(at, other)


def batch(call, count):
    """The time of a batch, and the last answer."""
    since = time.thread_time_ns()
    for _ in range(count):
        answer = call()
    return time.thread_time_ns() - since, answer


class Best:
    """The best batch of a call, in nanoseconds for one."""

    def __init__(self, call):
        self.call, self.count, self.time, self.answer = call, 1, float("inf"), call()
        while batch(call, self.count)[0] < BATCH:
            self.count *= 2

    def measure(self, answer):
        """One batch, whose answer must be this one. Its time."""
        spent, told = batch(self.call, self.count)
        self.time = min(self.time, spent / self.count)
        if told != answer:
            self.answer = told
        return spent


class Row:
    def __init__(self, book, call, loop, proved):
        self.book, self.call, self.each = book, call, (Best(loop), Best(proved))
        self.answer = self.each[1].answer

    def measure(self, budget):
        total = 0
        while total < budget * len(self.each):
            total += sum(best.measure(self.answer) for best in self.each)

    def is_fine(self):
        return all(best.answer == self.answer for best in self.each)

    def show(self):
        loop, proved = self.each
        print(f"| {self.book} | {self.call} | {loop.time:.0f} | {proved.time:.0f} | {loop.time / proved.time:.1f} |")
        if not self.is_fine():
            print(f"answers differ: {self.book} {self.call}: {loop.answer} by the loop, {proved.answer} by Hirgwamo")


def rows(folder, library, zoneinfo):
    """Of the books and questions in the folder those that the loop is for."""
    for book in BOOKS:
        for call in CALLS:
            place = folder / book
            if (place / f"{call}.txt").exists():
                line, rules = (place / f"{call}.txt").read_text(), (place / "book.bin").read_bytes()
                loop, proved = loop_of(rules, zoneinfo), Proved(library, rules, (place / "zones.bin").read_bytes())
                yield Row(book, call, question(line, loop), question(line, proved))


def main(folder, library, zoneinfo, milliseconds="20"):
    table = list(rows(pathlib.Path(folder), ctypes.CDLL(library), pathlib.Path(zoneinfo)))
    for _ in range(ROUNDS):
        for row in table:
            row.measure(float(milliseconds) * 1e6)
    if table:
        print(f"\nA loop of our own over days, in Python {platform.python_version()}: no package of Python that computes working hours could be had.\n")
        print("| Book | Call | loop, ns | Hirgwamo through ctypes, ns | loop / Hirgwamo |\n|" + "---|" * 5)
    for row in table:
        row.show()
    return 0 if all(row.is_fine() for row in table) else 1


if __name__ == "__main__":
    sys.exit(main(*sys.argv[1:]))
