"""Duration and Instant: nothing is lost, and they are the timedelta and the datetime that they say they are."""

import copy
import pickle
import random
import unittest
from datetime import date, datetime, timedelta, timezone, tzinfo

from hirgwamo import BeyondDatetime, Duration, Instant

from .stored import BERLIN, DAY, EPOCH, MONDAY, YEAR_1, YEAR_10000

NANO = 10**9
EIGHT = datetime(2026, 1, 5, 8, tzinfo=timezone.utc)
TICK = Duration(nanoseconds=1)
BACK = Duration(nanoseconds=-1)


def total(d):
    """A duration in nanoseconds, by its parts."""
    return ((d.days * DAY + d.seconds) * 10**6 + d.microseconds) * 1000 + getattr(d, "nanoseconds", 0)


def since(t):
    """The nanoseconds from 1970 of an instant in UTC, by its parts."""
    days = date(t.year, t.month, t.day).toordinal() - EPOCH.toordinal()
    seconds = days * DAY + t.hour * 3600 + t.minute * 60 + t.second
    return (seconds * 10**6 + t.microsecond) * 1000 + getattr(t, "nanosecond", 0)


def amounts(count):
    """Nanoseconds of both signs: small ones, some about whole microseconds and seconds, and some at random."""
    rng = random.Random("amounts")
    some = [sign * (unit + less) for sign in (1, -1) for unit in (0, 1000, NANO, DAY * NANO) for less in (-1, 0, 1, 999)]
    return some + [rng.randint(-(10 ** rng.randint(1, 19)), 10 ** rng.randint(1, 19)) for _ in range(count)]


def copies(one):
    """Copies of all kinds: shallow, deep, and by each protocol of pickle."""
    return [copy.copy(one), copy.deepcopy(one), *(pickle.loads(pickle.dumps(one, k)) for k in range(pickle.HIGHEST_PROTOCOL + 1))]


class DurationTest(unittest.TestCase):
    def test_parts_and_numbers(self):
        for amount in amounts(200):
            d = Duration(nanoseconds=amount)
            self.assertEqual(total(d), amount)
            self.assertEqual(d.total_nanoseconds(), amount)
            self.assertTrue(0 <= d.nanoseconds <= 999 and 0 <= d.microseconds < 10**6 and 0 <= d.seconds < DAY)
            sec, ns = d.numbers()
            self.assertEqual(sec * NANO + ns, amount)
            self.assertTrue(abs(ns) < NANO and sec * ns >= 0)
            self.assertEqual(total(Duration.of_numbers(sec, ns)), amount)
        self.assertEqual(BACK.numbers(), (0, -1))
        self.assertEqual((BACK.days, BACK.seconds, BACK.microseconds, BACK.nanoseconds), (-1, DAY - 1, 999_999, 999))

    def test_sums_differences_and_order(self):
        pairs = [*zip(amounts(100), reversed(amounts(100)))]
        for left, right in pairs + [(amount, amount + more) for amount in amounts(3) for more in (0, 1)]:
            a, b = Duration(nanoseconds=left), Duration(nanoseconds=right)
            made = [a + b, a - b, -a, abs(a), +a]
            self.assertEqual([total(d) for d in made], [left + right, left - right, -left, abs(left), left])
            self.assertEqual([type(d) for d in made], [Duration] * 5)
            told = [a == b, a != b, a < b, a <= b, a > b, a >= b, bool(a)]
            self.assertEqual(told, [left == right, left != right, left < right, left <= right, left > right, left >= right, left != 0])

    def test_with_timedelta(self):
        for left, right in zip(amounts(100), reversed(amounts(100))):
            a, whole = Duration(nanoseconds=left), right // 1000 * 1000
            b = timedelta(microseconds=right // 1000)
            made = [a + b, b + a, a - b, b - a]
            self.assertEqual([total(d) for d in made], [left + whole, whole + left, left - whole, whole - left])
            self.assertEqual([type(d) for d in made], [Duration] * 4)
            self.assertEqual([a == b, b == a, a != b, b != a], [left == whole] * 2 + [left != whole] * 2)
            self.assertEqual([a < b, b > a, a <= b, b >= a], [left < whole] * 2 + [left <= whole] * 2)
            self.assertEqual([a > b, b < a, a >= b, b <= a], [left > whole] * 2 + [left >= whole] * 2)
        self.assertEqual(total(sum([TICK, TICK], timedelta(microseconds=1))), 1002)

    def test_products_and_quotients(self):
        d = Duration(nanoseconds=7)
        made = [d * 3, 3 * d, d * 0.5, d / 2, d // 2, -d // 2, d / 2.0, d % Duration(nanoseconds=4)]
        self.assertEqual([total(one) for one in made], [21, 21, 4, 4, 3, -4, 4, 3])
        self.assertEqual([total(Duration(nanoseconds=5) / 2), total(Duration(nanoseconds=-5) / 2)], [2, -2])
        self.assertEqual([d // Duration(nanoseconds=2), d / Duration(nanoseconds=2)], [3, 3.5])
        self.assertEqual(divmod(d, Duration(nanoseconds=2)), (3, TICK))
        micro = timedelta(microseconds=1)
        self.assertEqual([micro // d, micro / Duration(nanoseconds=8), total(micro % d)], [142, 125.0, 6])
        self.assertEqual(divmod(micro, d), (142, Duration(nanoseconds=6)))
        self.assertEqual(Duration(seconds=1, nanoseconds=1) / timedelta(seconds=2), 0.5000000005)
        wrongs = [lambda: d * d, lambda: d * "2", lambda: d / "2", lambda: d // 2.0, lambda: d % 2]
        for wrong in [*wrongs, lambda: d + 1, lambda: 1 - d, lambda: d < 1, lambda: divmod(d, 1)]:
            self.assertRaises(TypeError, wrong)
        self.assertEqual([d == 7, d != 7], [False, True])

    def test_hash(self):
        self.assertEqual(hash(Duration(hours=1)), hash(timedelta(hours=1)))
        self.assertEqual({timedelta(hours=1): "hour"}[Duration(hours=1)], "hour")
        self.assertEqual(len({Duration(nanoseconds=k) for k in range(1000)} | {timedelta(0)}), 1000)
        self.assertEqual(hash(Duration(nanoseconds=1001)), hash(Duration(microseconds=1, nanoseconds=1)))
        self.assertNotEqual(hash(TICK), hash(timedelta(0)))

    def test_written_and_copied(self):
        texts = {0: "0:00:00", 1: "0:00:00.000000001", -1: "-1 day, 23:59:59.999999999", 1500: "0:00:00.000001500"}
        texts.update({NANO: "0:00:01", 1000: "0:00:00.000001"})
        for amount, text in texts.items():
            self.assertEqual(str(Duration(nanoseconds=amount)), text)
        for amount in amounts(20):
            d = Duration(nanoseconds=amount)
            for again in (eval(repr(d)), *copies(d)):
                self.assertIs(type(again), Duration)
                self.assertEqual(total(again), amount)
        self.assertEqual(Duration(seconds=1, nanoseconds=1).total_seconds(), 1.000000001)

    def test_made_as_a_timedelta(self):
        made = Duration(1, 2, 3, 4, 5, 6, 7, nanoseconds=8)
        self.assertEqual(made - timedelta(1, 2, 3, 4, 5, 6, 7), Duration(nanoseconds=8))
        self.assertEqual(made.whole_microseconds(), timedelta(1, 2, 3, 4, 5, 6, 7))
        self.assertIs(type(made.whole_microseconds()), timedelta)
        self.assertEqual(BACK.whole_microseconds(), timedelta(microseconds=-1))
        self.assertEqual(Duration.max - Duration.of(timedelta.max), Duration(nanoseconds=999))
        self.assertEqual([Duration.min, Duration.resolution], [timedelta.min, TICK])
        for wrong in ({"seconds": 1.5}, {"nanoseconds": 1.0}, {"days": True}, {"nanoseconds": "1"}, {"hours": None}):
            self.assertRaises(TypeError, Duration, **wrong)
        self.assertRaises(OverflowError, lambda: Duration.max + TICK)

    def test_subclass_with_nanoseconds(self):
        class Other(timedelta):
            nanoseconds = 7

        self.assertEqual(total(Duration.of(Other(seconds=1))), NANO + 7)
        self.assertEqual(total(TICK + Other(seconds=1)), NANO + 8)
        Other.nanoseconds = 1000
        self.assertRaises(ValueError, Duration.of, Other(seconds=1))


class Odd(tzinfo):
    """A time zone whose offset has microseconds; it asks its argument as some do."""

    def utcoffset(self, t):
        t.replace(tzinfo=None)
        return timedelta(hours=1, microseconds=1)

    def dst(self, t):
        return timedelta(0)

    def tzname(self, t):
        return "Odd"


class InstantTest(unittest.TestCase):
    def test_parts_and_numbers(self):
        rng = random.Random("instants")
        for _ in range(200):
            sec, ns = rng.randrange(YEAR_1, YEAR_10000), rng.choice([0, 1, 999, 1000, NANO - 1, rng.randrange(NANO)])
            t = Instant.of_numbers(sec, ns)
            self.assertEqual(since(t), sec * NANO + ns)
            self.assertEqual(t.numbers(), (sec, ns))
            self.assertIs(t.tzinfo, timezone.utc)
        self.assertEqual(Instant.of_numbers(-1, NANO - 1).isoformat(), "1969-12-31T23:59:59.999999999+00:00")
        self.assertEqual([Instant.of_numbers(YEAR_1), Instant.of_numbers(YEAR_10000 - 1, NANO - 1)], [Instant.min, Instant.max])

    def test_beyond_datetime(self):
        for sec, side in ((YEAR_1 - 1, "before the year 1"), (YEAR_10000, "after the year 9999")):
            with self.assertRaises(BeyondDatetime) as caught:
                Instant.of_numbers(sec, 5)
            self.assertIsInstance(caught.exception, OverflowError)
            self.assertEqual((caught.exception.seconds, caught.exception.nanoseconds), (sec, 5))
            self.assertIn(f"{sec} s 5 ns", str(caught.exception))
            self.assertIn(side, str(caught.exception))
            again = pickle.loads(pickle.dumps(caught.exception))
            self.assertEqual((again.seconds, again.nanoseconds, str(again)), (sec, 5, str(caught.exception)))

    def test_sums_and_differences(self):
        start = Instant.of(EIGHT) + Duration(nanoseconds=500)
        for amount in amounts(100):
            d = Duration(nanoseconds=amount)
            for later in (start + d, d + start, start - -d):
                self.assertIs(type(later), Instant)
                self.assertEqual(since(later), since(start) + amount)
            self.assertEqual([total(start + d - start), total(start - (start + d))], [amount, -amount])
            self.assertEqual([total(start + d - EIGHT), total(EIGHT - (start + d))], [amount + 500, -amount - 500])
            self.assertEqual(since(start - d), since(start) - amount)
        self.assertEqual(since(start + timedelta(days=1)), since(start) + DAY * NANO)
        self.assertEqual(since(timedelta(days=1) + start), since(start) + DAY * NANO)
        self.assertEqual(since(start - timedelta(days=1)), since(start) - DAY * NANO)
        naive = datetime(2026, 1, 5)
        for wrong in (lambda: start - naive, lambda: naive - start, lambda: start + 1, lambda: 1 - start, lambda: start + start):
            self.assertRaises(TypeError, wrong)

    def test_duration_and_plain_datetime(self):
        self.assertEqual(since(TICK + EIGHT), since(EIGHT) + 1)
        self.assertEqual(since(Instant.of(EIGHT) - TICK), since(EIGHT) - 1)
        self.assertEqual(Duration(hours=1) + EIGHT, EIGHT + timedelta(hours=1))
        self.assertEqual(Duration(hours=1) + datetime(2026, 1, 5), datetime(2026, 1, 5, 1))
        self.assertRaises(ValueError, lambda: TICK + datetime(2026, 1, 5))
        self.assertEqual(EIGHT + TICK, EIGHT)  # Python does not ask the Duration, as the module's text says

    def test_order(self):
        rows = [EIGHT, Instant.of(EIGHT) + TICK, Instant.of(EIGHT) + 2 * TICK, EIGHT + timedelta(microseconds=1)]
        rows += [Instant.of(rows[-1]) + TICK, rows[-1].astimezone(BERLIN) + timedelta(days=1)]
        for left, a in enumerate(rows):
            for right, b in enumerate(rows):
                told = [a == b, a != b, a < b, a <= b, a > b, a >= b]
                self.assertEqual(told, [left == right, left != right, left < right, left <= right, left > right, left >= right], (a, b))
        self.assertEqual(Instant.of(EIGHT), EIGHT)
        self.assertEqual(hash(Instant.of(EIGHT)), hash(EIGHT))
        self.assertEqual(len({*rows}), len(rows))
        self.assertEqual([rows[1] == date(2026, 1, 5), rows[1] != date(2026, 1, 5), rows[1] == 5], [False, True, False])
        self.assertNotEqual(rows[1], datetime(2026, 1, 5, 8))
        one, day, naive = rows[1], date(2026, 1, 5), datetime(2026, 1, 5)
        for wrong in (lambda: one < day, lambda: day <= one, lambda: one > naive, lambda: naive >= one, lambda: one >= 5):
            self.assertRaises(TypeError, wrong)

    def test_written_and_copied(self):
        t = Instant.of(EIGHT) + TICK
        self.assertEqual(str(t), "2026-01-05 08:00:00.000000001+00:00")
        self.assertEqual(f"{t} {t:%H:%M}", "2026-01-05 08:00:00.000000001+00:00 08:00")
        self.assertEqual(str(Instant.of(EIGHT)), str(EIGHT))
        self.assertEqual(Instant.of(EIGHT).isoformat(timespec="nanoseconds"), "2026-01-05T08:00:00.000000000+00:00")
        self.assertEqual(t.isoformat(timespec="minutes"), EIGHT.isoformat(timespec="minutes"))
        second_time = Instant(2026, 10, 25, 2, 30, tzinfo=timezone(timedelta(hours=1)), fold=1, nanosecond=999)
        for one in (t, second_time, Instant.min, Instant.max):
            for again in copies(one):
                self.assertEqual((type(again), again, again.nanosecond, again.fold), (Instant, one, one.nanosecond, one.fold))
            self.assertEqual(Instant.fromisoformat(one.isoformat()).numbers(), one.numbers())
        import datetime as module

        self.assertEqual(eval(repr(t), {"Instant": Instant, "datetime": module}), t)

    def test_read(self):
        self.assertEqual(Instant.fromisoformat("2026-01-05T08:00:00.1234567+00:00").numbers(), (MONDAY + 8 * 3600, 123_456_700))
        self.assertEqual(Instant.fromisoformat("2026-01-05T09:00:00.000001+01:00:00.000002").numbers(), (MONDAY + 8 * 3600 - 1, 999_999_000))
        self.assertRaisesRegex(ValueError, "more than nine digits", Instant.fromisoformat, "2026-01-05T08:00:00.1234567891+00:00")
        for wrong in ("2026-01-05T08:00:00", "2026-01-05T08:00:00.000000001", "2026-01-05"):
            self.assertRaises(ValueError, Instant.fromisoformat, wrong)
        self.assertRaises(TypeError, Instant.fromisoformat, 5)

    def test_replaced_and_moved(self):
        t = Instant.of(EIGHT) + TICK
        moved = t.astimezone(BERLIN)
        self.assertEqual((moved.hour, moved.nanosecond, moved.tzinfo), (9, 1, BERLIN))
        self.assertEqual(moved - t, timedelta(0))
        self.assertEqual((t.replace(hour=3).hour, t.replace(hour=3).nanosecond), (3, 1))
        self.assertEqual(t.replace(nanosecond=0), EIGHT)
        self.assertRaises(ValueError, t.replace, tzinfo=None)
        naive = t.replace(tzinfo=None, nanosecond=0)
        self.assertEqual((type(naive), naive), (datetime, datetime(2026, 1, 5, 8)))
        if hasattr(copy, "replace"):
            self.assertEqual(copy.replace(t, hour=3), t.replace(hour=3))
        self.assertEqual((type(t.whole_microseconds()), t.whole_microseconds()), (datetime, EIGHT))

    def test_aware_alone(self):
        class Unknown(tzinfo):
            def utcoffset(self, t):
                return None

        for tzinfo_given in (None, Unknown()):
            self.assertRaises(ValueError, Instant, 2026, 1, 5, tzinfo=tzinfo_given)
        self.assertRaises(ValueError, Instant.of, datetime(2026, 1, 5))
        self.assertRaises(TypeError, Instant.of, date(2026, 1, 5))
        self.assertRaises(ValueError, Instant.now)
        for nanosecond in (-1, 1000, 2**64):
            self.assertRaises(ValueError, Instant, 2026, 1, 5, tzinfo=timezone.utc, nanosecond=nanosecond)
        for nanosecond in (1.0, True, "1", None):
            self.assertRaises(TypeError, Instant, 2026, 1, 5, tzinfo=timezone.utc, nanosecond=nanosecond)
        self.assertIs(type(Instant.now(timezone.utc)), Instant)
        self.assertIs(type(Instant.now(BERLIN)), Instant)
        for pair in ((0, -1), (0, NANO)):
            self.assertRaises(ValueError, Instant.of_numbers, *pair)
        for pair in ((0.0, 0), (0, 1.0), (True, 0)):
            self.assertRaises(TypeError, Instant.of_numbers, *pair)

    def test_odd_time_zone(self):
        t = Instant(2026, 1, 5, 9, 0, 0, 1, Odd(), nanosecond=5)
        self.assertEqual(t.numbers(), (MONDAY + 8 * 3600, 5))
        self.assertEqual((t.utcoffset(), t.dst(), t.tzname()), (timedelta(hours=1, microseconds=1), timedelta(0), "Odd"))
        self.assertEqual(t.astimezone(timezone.utc), Instant.of(EIGHT) + 5 * TICK)
        self.assertEqual(hash(t.replace(nanosecond=0)), hash(EIGHT))
        self.assertEqual([t.timestamp(), t.timetuple().tm_hour, t.utctimetuple().tm_hour], [EIGHT.timestamp(), 9, 8])

    def test_subclass_with_nanosecond(self):
        class Other(datetime):
            nanosecond = 7

        other = Other(2026, 1, 5, 8, tzinfo=timezone.utc)
        self.assertEqual(since(Instant.of(other)), since(EIGHT) + 7)
        self.assertEqual(total(Instant.of(EIGHT) - other), -7)
