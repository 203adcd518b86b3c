"""What the calls take: aware datetimes, timedeltas, whole numbers and bytes; all else is refused by name."""

import array
import unittest
from datetime import date, datetime, time, timedelta, timezone, tzinfo

from hirgwamo import Add, Between, Clock, Duration, Instant, NextPeriod, PreviousPeriod, Sub, Zone, numbers

from .stored import BERLIN, BERLIN_FILE, HOUR, MONDAY, NO_PACK, OFFICE, SAMPLE, at, instant_pair

NINE = at(MONDAY + 9 * HOUR)
HOURS = timedelta(hours=1)
NAIVE = datetime(2026, 1, 5, 9)


class Unknown(tzinfo):
    """A time zone that does not tell its offset: a datetime with it is naive."""

    def utcoffset(self, t):
        return None


class Fixed(tzinfo):
    """A time zone that is not of the standard library."""

    def __init__(self, offset):
        self.offset = offset

    def utcoffset(self, t):
        return self.offset


def calls():
    """Each call with one place for an instant: the argument's name, and a function of what is given there."""
    clock, zone = Clock(OFFICE, NO_PACK), Zone(BERLIN_FILE)
    return [
        ("a", lambda t: clock.between(t, NINE)),
        ("b", lambda t: clock.between(NINE, t)),
        ("t", lambda t: clock.add(t, HOURS)),
        ("t", lambda t: clock.sub(t, HOURS)),
        ("t", clock.next_period),
        ("t", clock.previous_period),
        ("t", clock.next_period_marked),
        ("t", clock.previous_period_marked),
        ("a", lambda t: clock.list(t, NINE)),
        ("b", lambda t: clock.list(NINE, t)),
        ("t", lambda t: clock.hardest(t, [], HOURS)),
        ("t", zone.offset),
        ("t", zone.next_change),
        ("a", lambda t: Between(t, NINE)),
        ("b", lambda t: Between(NINE, t)),
        ("t", lambda t: Add(t, HOURS)),
        ("t", lambda t: Sub(t, HOURS)),
        ("t", NextPeriod),
        ("t", PreviousPeriod),
    ]


class Instants(unittest.TestCase):
    def test_aware_is_taken(self):
        for _, call in calls():
            call(NINE)
            call(Instant.of(NINE))

    def test_naive_is_refused(self):
        for name, call in calls():
            for naive in (NAIVE, NAIVE.replace(tzinfo=Unknown())):
                with self.assertRaises(ValueError) as caught:
                    call(naive)
                self.assertTrue(str(caught.exception).startswith(f"{name} is a naive datetime, 2026-01-05T09:00:00"), caught.exception)
                self.assertIn(f"write {name}.replace(tzinfo=timezone.utc)", str(caught.exception))

    def test_other_types_are_refused(self):
        for name, call in calls():
            others = ((date(2026, 1, 5), "is a date, 2026-01-05"), ("2026-01-05T09:00:00Z", "is a str"), (None, "is of type NoneType"))
            for other, told in others:
                with self.assertRaises(TypeError) as caught:
                    call(other)
                self.assertTrue(str(caught.exception).startswith(f"{name} {told}"), caught.exception)
                self.assertIn("give a datetime, such as datetime(2026, 1, 5, 8, 0, tzinfo=timezone.utc)", str(caught.exception))
            for other in (MONDAY, float(MONDAY), True, time(9), timedelta(0), (MONDAY, 0)):
                self.assertRaises(TypeError, call, other)


class Durations(unittest.TestCase):
    def test_other_types_are_refused(self):
        clock = Clock(OFFICE, NO_PACK)
        for call in (clock.add, clock.sub, Add, Sub):
            for other in (3600, 3600.0, True, "1:00:00", None, NINE, (3600, 0)):
                with self.assertRaises(TypeError) as caught:
                    call(NINE, other)
                told = f"d is of type {type(other).__name__}; give a timedelta"
                self.assertTrue(str(caught.exception).startswith(told), caught.exception)

    def test_logs(self):
        clock = Clock(OFFICE, NO_PACK)
        half = timedelta(seconds=1.5)
        first, last = [(half, HOURS)], [(HOURS, HOURS), (3 * HOURS, half)]
        for log, width, name in ((first, HOURS, "log[0][0]"), (last, HOURS, "log[1][1]"), ([], half, "width")):
            with self.assertRaises(ValueError) as caught:
                clock.hardest(NINE, log, width)
            self.assertTrue(str(caught.exception).startswith(f"{name} is 0:00:01.500000, no whole number of seconds"), caught.exception)
        self.assertRaises(ValueError, clock.hardest, NINE, [(Duration(nanoseconds=1), HOURS)], HOURS)
        for log, width in (([(1, HOURS)], HOURS), ([(HOURS, 1.0)], HOURS), ([], 3600), ([HOURS], HOURS)):
            self.assertRaises(TypeError, clock.hardest, NINE, log, width)

    def test_queries(self):
        clock = Clock(OFFICE, NO_PACK)
        for wrong in (NINE, ("add", NINE, HOURS), None):
            self.assertRaises(TypeError, clock.answers, [wrong])


class Offsets(unittest.TestCase):
    """What an aware datetime shows, less its UTC offset, is its instant."""

    def instant(self, t):
        """The instant that the clock sees, as it comes back where it lies in working time."""
        always = bytes.fromhex("000000010000000C0000001301007F00000000000000000000000000000000")
        return instant_pair(Clock(always, NO_PACK).next_period(t).start)

    def test_fixed(self):
        self.assertEqual(self.instant(at(MONDAY, 123_456_789)), (MONDAY, 123_456_789))
        offsets = [timedelta(hours=14), timedelta(hours=-12), timedelta(hours=5, minutes=45), timedelta(seconds=1)]
        for offset in [*offsets, timedelta(hours=23, minutes=59), timedelta(hours=-23, minutes=-59)]:
            shown = datetime(2026, 1, 5, 0, 0, 0, 7, timezone(offset))
            seconds = MONDAY - (offset.days * 86_400 + offset.seconds)
            self.assertEqual(self.instant(shown), (seconds, 7_000))
            self.assertEqual(self.instant(shown.replace(tzinfo=Fixed(offset))), (seconds, 7_000))

    def test_parts_of_a_second(self):
        rows = [(1, (MONDAY - 1, 999_999_000)), (500_000, (MONDAY - 1, 500_000_000)), (-1, (MONDAY, 1_000)), (-999_999, (MONDAY, 999_999_000))]
        for microseconds, expected in rows:
            zone = timezone(timedelta(microseconds=microseconds))
            self.assertEqual(self.instant(datetime(2026, 1, 5, tzinfo=zone)), expected)
            self.assertEqual(self.instant(datetime(2026, 1, 5, tzinfo=Fixed(timedelta(microseconds=microseconds)))), expected)
            with_nanoseconds = Instant(2026, 1, 5, tzinfo=zone, nanosecond=7)
            self.assertEqual(self.instant(with_nanoseconds), (expected[0], expected[1] + 7))

    def test_fold(self):
        first, second = (datetime(2026, 10, 25, 2, 30, tzinfo=BERLIN, fold=fold) for fold in (0, 1))
        one_utc = 1_792_888_200  # 2026-10-25T00:30:00Z
        self.assertEqual([self.instant(first), self.instant(second)], [(one_utc, 0), (one_utc + HOUR, 0)])
        self.assertEqual(self.instant(Instant.of(second).replace(nanosecond=3)), (one_utc + HOUR, 3))

    def test_ends_of_datetime(self):
        """An offset leads out of the years that a datetime has; the numbers of the instant are right all the same."""
        clock, numbers_of_year_1 = Clock(OFFICE, NO_PACK), -62_135_596_800
        first = datetime(1, 1, 1, tzinfo=timezone(timedelta(hours=14)))
        told = numbers.between(OFFICE, NO_PACK, numbers_of_year_1 - 14 * HOUR, 0, MONDAY, 0)
        self.assertEqual(clock.between(first, at(MONDAY)).numbers(), told[:2])
        last = datetime(9999, 12, 31, 12, tzinfo=timezone(timedelta(hours=23)))
        self.assertEqual(clock.between(last, last), timedelta(0))

    def test_answers_are_in_utc(self):
        clock = Clock(OFFICE, NO_PACK)
        t = NINE.astimezone(BERLIN)
        told = [clock.add(t, HOURS), clock.sub(t, -HOURS), *clock.next_period(t), *clock.previous_period(t)]
        told += [*clock.next_period_marked(t)[:2], *clock.previous_period_marked(t)[:2]]
        for answer in [*told, *clock.list(t, t + HOURS)[0], clock.hardest(t, [], HOURS).start]:
            self.assertIs(answer.tzinfo, timezone.utc)


class WholeNumbers(unittest.TestCase):
    def test_other_types_are_refused(self):
        book, pack = OFFICE, NO_PACK
        forms = [
            (numbers.between, (0, 0, 0, 0), ("a_sec", "a_ns", "b_sec", "b_ns")),
            (numbers.list, (0, 0, 0, 0), ("a_sec", "a_ns", "b_sec", "b_ns")),
            (numbers.add, (0, 0, 0, 0), ("t_sec", "t_ns", "d_sec", "d_ns")),
            (numbers.sub, (0, 0, 0, 0), ("t_sec", "t_ns", "d_sec", "d_ns")),
            (numbers.next_period, (0, 0), ("t_sec", "t_ns")),
            (numbers.previous_period, (0, 0), ("t_sec", "t_ns")),
            (numbers.next_period_marked, (0, 0), ("t_sec", "t_ns")),
            (numbers.previous_period_marked, (0, 0), ("t_sec", "t_ns")),
        ]
        for call, given, names in forms:
            call(book, pack, *given)
            for place, name in enumerate(names):
                for other in (0.0, True, False, "0", None, 1j):
                    with self.assertRaises(TypeError) as caught:
                        call(book, pack, *given[:place], other, *given[place + 1 :])
                    self.assertTrue(str(caught.exception).startswith(f"{name} is of type {type(other).__name__}"), caught.exception)

    def test_logs_widths_rooms_and_queries(self):
        for other in (0.0, True, "0", None):
            self.assertRaises(TypeError, numbers.hardest, OFFICE, NO_PACK, 0, 0, [0, other], 60)
            self.assertRaises(TypeError, numbers.hardest, OFFICE, NO_PACK, 0, 0, [], other)
            self.assertRaises(TypeError, numbers.list_into, OFFICE, NO_PACK, 0, 0, 0, 0, other)
            for place in range(5):
                query = [numbers.ADD, 0, 0, 0, 0]
                query[place] = other
                self.assertRaises(TypeError, numbers.answers, OFFICE, NO_PACK, [query])
        self.assertRaises(ValueError, numbers.list_into, OFFICE, NO_PACK, 0, 0, 0, 0, -1)
        self.assertRaises(ValueError, numbers.answers, OFFICE, NO_PACK, [(numbers.ADD, 0, 0)])


class Bytes(unittest.TestCase):
    def test_bytes_like(self):
        book, pack = (SAMPLE / "book.bin").read_bytes(), (SAMPLE / "zones.bin").read_bytes()
        expected = Clock(book, pack).add(NINE, 40 * HOURS)
        for make in (bytes, bytearray, memoryview, lambda data: memoryview(b"".join(bytes([byte, 0]) for byte in data))[::2]):
            clock = Clock(make(book), make(pack))
            self.assertEqual((clock.book, clock.pack), (book, pack))
            self.assertEqual(clock.add(NINE, 40 * HOURS), expected)
            self.assertEqual(numbers.add(make(book), make(pack), MONDAY, 0, 1, 0), numbers.add(book, pack, MONDAY, 0, 1, 0))
            self.assertEqual(Zone(make(BERLIN_FILE)).file, BERLIN_FILE)

    def test_copied(self):
        book, pack, file = bytearray(OFFICE), bytearray(NO_PACK), bytearray(BERLIN_FILE)
        clock, zone = Clock(book, memoryview(pack)), Zone(file)
        book[:], file[:] = bytes(len(book)), bytes(len(file))
        pack[0] = 255
        self.assertEqual((clock.book, clock.pack, zone.file), (OFFICE, NO_PACK, BERLIN_FILE))
        self.assertEqual(clock.next_period(NINE).end, NINE + 8 * HOURS)
        book.clear()
        file.clear()

    def test_other_types_are_refused(self):
        for other in ("book.bin", 5, None, SAMPLE / "book.bin", [0, 0, 0, 0], array.array("b", [0] * 4)):
            for name, call in (("book", lambda x: Clock(x, NO_PACK)), ("pack", lambda x: Clock(OFFICE, x)), ("file", Zone)):
                with self.assertRaises(TypeError) as caught:
                    call(other)
                self.assertTrue(str(caught.exception).startswith(f"{name} is of type {type(other).__name__}"), caught.exception)
        self.assertRaises(TypeError, numbers.build, "book", NO_PACK)
        self.assertRaises(TypeError, numbers.offset, 5, 0, 0)

    def test_empty_bytes_have_an_address(self):
        from hirgwamo.numbers import _c, _lent, _memory

        seen = []

        class Spy:
            argtypes = _c.hirgwamo_build.argtypes

            def __call__(self, *given):
                seen.extend(given)
                return 0

        numbers._asked(Spy(), 0, b"", *_lent(b"", b""))
        book, book_len, pack, pack_len, answer, answer_len = seen
        for lent, kind in ((book, Spy.argtypes[0]), (pack, Spy.argtypes[2])):
            self.assertIsNotNone(kind(lent).value)
        self.assertEqual((book_len, pack_len, answer_len, len(answer)), (0, 0, 0, 1))
        self.assertEqual([len(_memory(length)) for length in (0, 1, 7)], [1, 1, 7])
