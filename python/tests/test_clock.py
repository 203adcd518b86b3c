"""The clock on datetimes: small examples whose answers are known, and nanoseconds."""

import unittest
from datetime import datetime, timedelta, timezone

from hirgwamo import BeyondDatetime, Clock, Duration, Hardest, Instant, Period, numbers

from .stored import HOUR, MONDAY, NO_PACK, OFFICE, SAMPLE, YEAR_1, at, duration_pair, instant_pair

NINE, SEVENTEEN = at(MONDAY + 9 * HOUR), at(MONDAY + 17 * HOUR)
HOURS, DAYS = timedelta(hours=1), timedelta(days=1)
TICK, BACK = Duration(nanoseconds=1), Duration(nanoseconds=-1)


class Examples(unittest.TestCase):
    clock = Clock(OFFICE, NO_PACK)  # Monday to Friday, 09:00 to 17:00 in UTC

    def test_between(self):
        self.assertEqual(self.clock.between(NINE, NINE + 7 * DAYS), 40 * HOURS)
        self.assertEqual(self.clock.between(NINE + 7 * DAYS, NINE), -40 * HOURS)
        self.assertEqual(self.clock.between(NINE - 2 * DAYS, NINE), timedelta(0))

    def test_add_and_sub(self):
        self.assertEqual(self.clock.add(NINE, 9 * HOURS), NINE + DAYS + HOURS)
        self.assertEqual(self.clock.add(NINE, 8 * HOURS), SEVENTEEN)
        self.assertEqual(self.clock.sub(SEVENTEEN, 9 * HOURS), SEVENTEEN - 3 * DAYS - HOURS)
        self.assertEqual(self.clock.add(SEVENTEEN, -9 * HOURS), self.clock.sub(SEVENTEEN, 9 * HOURS))
        self.assertEqual(self.clock.sub(NINE, -9 * HOURS), self.clock.add(NINE, 9 * HOURS))

    def test_periods(self):
        self.assertEqual(self.clock.next_period(NINE - HOURS), Period(NINE, SEVENTEEN))
        self.assertEqual(self.clock.next_period(NINE + HOURS), Period(NINE + HOURS, SEVENTEEN))
        self.assertEqual(self.clock.previous_period(NINE + HOURS), Period(NINE, NINE + HOURS))
        self.assertEqual(self.clock.previous_period(NINE), Period(NINE - 3 * DAYS, SEVENTEEN - 3 * DAYS))

    def test_list(self):
        expected = [Period(NINE + HOURS, SEVENTEEN), Period(NINE + DAYS, NINE + DAYS + HOURS)]
        self.assertEqual(self.clock.list(NINE + HOURS, NINE + DAYS + HOURS), expected)
        self.assertEqual(self.clock.list(NINE, NINE), [])
        years = self.clock.list(NINE, NINE + 2800 * DAYS)
        self.assertEqual((len(years), years[-1]), (2000, Period(NINE + 2797 * DAYS, SEVENTEEN + 2797 * DAYS)))

    def test_hardest(self):
        eight, log = NINE - HOURS, [(HOURS, timedelta(seconds=100)), (2 * HOURS, timedelta(seconds=100))]
        for width, time in ((3600, 100), (3650, 150), (3700, 200)):
            self.assertEqual(self.clock.hardest(eight, log, timedelta(seconds=width)), Hardest(timedelta(seconds=time), NINE))
        self.assertEqual(self.clock.hardest(eight, iter(log), HOURS).start, NINE)
        self.assertEqual(self.clock.hardest(eight, [], HOURS), Hardest(Duration(0), eight))

    def test_sample(self):
        clock = Clock((SAMPLE / "book.bin").read_bytes(), (SAMPLE / "zones.bin").read_bytes())
        summer = timezone(timedelta(hours=2))
        reported = datetime(2026, 4, 2, 16, 30, tzinfo=summer)  # Friday and Monday are holidays
        self.assertEqual(clock.add(reported, 8 * HOURS), datetime(2026, 4, 7, 14, 30, tzinfo=summer))

    def test_kept(self):
        self.assertEqual((self.clock.book, self.clock.pack), (OFFICE, NO_PACK))
        self.assertEqual(repr(self.clock), f"<Clock: a book of {len(OFFICE)} bytes, a pack of 4 bytes>")
        with self.assertRaises(AttributeError):
            self.clock.book = b""
        with self.assertRaises(AttributeError):
            self.clock.other = 1


class Nanoseconds(unittest.TestCase):
    clock = Clock(OFFICE, NO_PACK)

    def test_add(self):
        self.assertEqual(instant_pair(self.clock.add(NINE, TICK)), (MONDAY + 9 * HOUR, 1))
        self.assertEqual(instant_pair(self.clock.add(NINE, Duration(nanoseconds=1999))), (MONDAY + 9 * HOUR, 1999))
        self.assertEqual(instant_pair(self.clock.add(NINE + HOURS, BACK)), (MONDAY + 10 * HOUR - 1, 999_999_999))
        self.assertEqual(instant_pair(self.clock.add(SEVENTEEN, TICK)), (MONDAY + 33 * HOUR, 1))
        self.assertEqual(instant_pair(self.clock.add(Instant.of(NINE) + TICK, HOURS)), (MONDAY + 10 * HOUR, 1))

    def test_sub(self):
        self.assertEqual(instant_pair(self.clock.sub(SEVENTEEN, TICK)), (MONDAY + 17 * HOUR - 1, 999_999_999))
        self.assertEqual(instant_pair(self.clock.sub(NINE, BACK)), (MONDAY + 9 * HOUR, 1))
        self.assertEqual(instant_pair(self.clock.sub(SEVENTEEN, Duration(seconds=1, nanoseconds=1))), (MONDAY + 17 * HOUR - 2, 999_999_999))

    def test_between(self):
        later = Instant.of(NINE) + TICK
        self.assertEqual(duration_pair(self.clock.between(NINE, later)), (0, 1))
        self.assertEqual(duration_pair(self.clock.between(later, NINE)), (0, -1))
        self.assertEqual(duration_pair(self.clock.between(later, NINE + HOURS)), (HOUR - 1, 999_999_999))
        self.assertEqual(duration_pair(self.clock.between(NINE + HOURS, later)), (1 - HOUR, -999_999_999))
        self.assertEqual(self.clock.between(NINE, later), TICK)
        self.assertNotEqual(self.clock.between(NINE, later), timedelta(0))

    def test_periods_lists_and_logs(self):
        later = Instant.of(NINE) + TICK
        self.assertEqual(self.clock.next_period(later).start, later)
        self.assertEqual(self.clock.previous_period(later), Period(Instant.of(NINE), later))
        self.assertEqual(self.clock.list(NINE, later), [Period(Instant.of(NINE), later)])
        self.assertEqual(instant_pair(self.clock.hardest(later, [], HOURS).start), (MONDAY + 9 * HOUR, 1))
        log = [(timedelta(0), timedelta(seconds=1))]
        self.assertEqual(duration_pair(self.clock.hardest(Instant.of(SEVENTEEN) - TICK, log, HOURS).time), (0, 1))

    def test_there_and_back(self):
        for amount in (1, 999, 1000, 1001, 123_456_789, 10**9 + 1, 28_800 * 10**9 + 7):
            d = Duration(nanoseconds=amount)
            self.assertEqual(self.clock.between(NINE, self.clock.add(NINE, d)), d)
            self.assertEqual(self.clock.between(SEVENTEEN, self.clock.sub(SEVENTEEN, d)), -d)


class BeforeTheYear1(unittest.TestCase):
    clock = Clock(OFFICE, NO_PACK)
    first = at(YEAR_1)

    def beyond(self, expected, call, *given):
        with self.assertRaises(BeyondDatetime) as caught:
            call(*given)
        self.assertEqual((caught.exception.seconds, caught.exception.nanoseconds), tuple(expected))
        self.assertIn(f"{expected[0]} s {expected[1]} ns", str(caught.exception))

    def test_calls(self):
        book, day = (OFFICE, NO_PACK), (YEAR_1, 0)
        self.beyond(numbers.sub(*book, *day, 3600, 1)[:2], self.clock.sub, self.first, HOURS + TICK)
        self.beyond(numbers.add(*book, *day, -3600, 0)[:2], self.clock.add, self.first, -HOURS)
        self.beyond(numbers.previous_period(*book, *day)[:2], self.clock.previous_period, self.first)
        early = datetime(1, 1, 1, tzinfo=timezone(timedelta(hours=14)))
        self.beyond((YEAR_1 - 14 * HOUR, 0), self.clock.hardest, early, [], HOURS)

    def test_numbers(self):
        for instant in (numbers.FIRST, (YEAR_1 - 10**9, 1)):
            told = numbers.add(OFFICE, NO_PACK, *instant, 3600, 0)
            self.assertTrue(numbers.FIRST <= told[:2] < (YEAR_1, 0))
            self.assertEqual(numbers.between(OFFICE, NO_PACK, *instant, *told[:2])[:2], (3600, 0))
