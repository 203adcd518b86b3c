"""The calls on a zone file: stored answers, and Python's zoneinfo as a second opinion."""

import io
import unittest
from collections import Counter
from datetime import date, datetime, timedelta, timezone
from zoneinfo import ZoneInfo

from hirgwamo import BeyondDatetime, Instant, InstantOutOfRange, Mark, Refusal, Zone, numbers

from .stored import BERLIN_FILE, DAY, QUESTION, YEAR_1, ZONE_CALLS, at, has_datetime, instant_pair, zone_questions

CALLS = {"offset": numbers.offset, "change": numbers.next_change, "resolve": numbers.resolve, "resolve_marked": numbers.resolve_marked}
START = datetime(1970, 1, 1, tzinfo=timezone.utc)
STEP = timedelta(days=11, hours=7, minutes=13)
NEAR = [timedelta(hours=hours, minutes=30) for hours in range(-4, 4)]


def by_numbers(file, call, given):
    try:
        told = CALLS[call](file, *given)
    except Refusal as refusal:
        return f"no {refusal.number} {refusal.place}"
    return "never" if told is None else str(told) if call == "offset" else " ".join(map(str, told))


def local_time(year, month, day, second, ns):
    """The naive datetime of a local time, without the nanoseconds below its microsecond; None where there is none."""
    try:
        return datetime(year, month, day) + timedelta(seconds=second, microseconds=ns // 1000) if 0 <= second < DAY and 0 <= ns < 10**9 else None
    except (ValueError, OverflowError):
        return None


def by_local_time(zone, call, local, nanosecond):
    if call == "resolve":
        return "{} {}".format(*instant_pair(zone.resolve(local, nanosecond)))
    instant, mark = zone.resolve_marked(local, nanosecond)
    return "{} {} {:d}".format(*instant_pair(instant), mark)


def by_datetimes(file, call, given):
    """The answer of a Zone as the same words; None where a datetime cannot hold what is given."""
    try:
        zone = Zone(file)
        if call in ("resolve", "resolve_marked"):
            local = local_time(*given)
            return local and by_local_time(zone, call, local, given[-1] % 1000)
        if not has_datetime(*given):
            return None
        if call == "offset":
            offset = zone.offset(at(*given))
            return str(offset.days * DAY + offset.seconds)
        change = zone.next_change(at(*given))
        return "never" if change is None else "{} {}".format(*instant_pair(change))
    except Refusal as refusal:
        return f"no {refusal.number} {refusal.place}"


def files():
    """The stored zone files of the tz database, by the name of their footer's rule."""
    asked = {file for file, _, _, answer in zone_questions() if not answer.startswith("no 5")}
    return sorted(file for file in asked if b"<-02>2<-01>" not in file[-40:])  # zoneinfo of older Pythons does not read that footer


class Stored(unittest.TestCase):
    def test_numbers(self):
        seen = Counter()
        for file, call, given, answer in zone_questions():
            self.assertEqual(by_numbers(file, call, given), answer, (call, given))
            seen[call] += 1
            seen[answer[:4]] += 1
            if call == "resolve_marked" and not answer.startswith("no"):
                seen["mark " + answer.split(" ")[2]] += 1
        self.assertTrue(all(seen[word] for word in ("offset", "change", "resolve", "neve", "no 5", "no 8")), seen)
        self.assertTrue(all(seen[f"mark {mark:d}"] for mark in Mark), seen)
        self.assertEqual(seen["offset"] + seen["change"] + seen["resolve"], 521)
        self.assertEqual(seen["resolve_marked"], seen["resolve"])

    def test_datetimes(self):
        seen = Counter()
        for file, call, given, answer in zone_questions():
            told = by_datetimes(file, call, given)
            if told is not None:
                self.assertEqual(told, answer, (call, given))
                seen[call] += 1
        self.assertTrue(all(seen[call] > 120 for call in CALLS), seen)


class AgainstZoneinfo(unittest.TestCase):
    def setUp(self):
        self.pairs = [(Zone(file), ZoneInfo.from_file(io.BytesIO(file))) for file in files()]
        self.assertEqual(len(self.pairs), 5)

    def times(self, first, last):
        t = datetime(first, 1, 1, tzinfo=timezone.utc)
        while t.year <= last:
            yield t
            t += STEP

    def changes(self, zone, year):
        """All changes of a zone from 1970 to a year."""
        t, later = START, zone.next_change(START)
        while later is not None and later.year < year:
            self.assertLess(t, later)
            yield later
            t, later = later, zone.next_change(later)

    def test_offsets(self):
        for zone, other in self.pairs:
            for t in [*self.times(1970, 2037), *self.times(2090, 2110)]:
                self.assertEqual(zone.offset(t), t.astimezone(other).utcoffset())
                self.assertEqual(zone.offset(t.astimezone(other)), t.astimezone(other).utcoffset())

    def test_changes(self):
        count = 0
        for zone, other in self.pairs:
            for t in self.changes(zone, 2110):
                whole = t.whole_microseconds()
                before, after = ((whole + less).astimezone(other).utcoffset() for less in (timedelta(seconds=-1), timedelta(0)))
                self.assertNotEqual(before, after)
                self.assertEqual((zone.offset(t - Instant.resolution), zone.offset(t)), (before, after))
                count += 1
        self.assertGreater(count, 500)

    def test_local_times(self):
        for zone, other in self.pairs:
            shown = [(t + less).astimezone(other).replace(tzinfo=None, fold=0) for t in self.changes(zone, 2045) for less in NEAR]
            self.assertTrue(shown or zone.next_change(START) is None)
            for local in shown:
                expected = local.replace(tzinfo=other).astimezone(timezone.utc)
                self.assertEqual(zone.resolve(local), expected)

    def test_marks(self):
        """Where fold changes the offset, a time was skipped (the greater one comes later) or comes twice."""
        seen = Counter()
        for zone, other in self.pairs:
            before = [(t - timedelta(seconds=1)).whole_microseconds().astimezone(other) for t in self.changes(zone, 2045)]
            for local in (shown.replace(tzinfo=None, fold=0) + less for shown in before for less in NEAR):
                first, second = (local.replace(tzinfo=other, fold=fold).utcoffset() for fold in (0, 1))
                expected = Mark.PLAIN if first == second else Mark.SKIPPED if first < second else Mark.REPEATED
                told = zone.resolve_marked(local)
                self.assertEqual(told, (zone.resolve(local), expected), local)
                seen[told.mark] += 1
        self.assertTrue(seen[Mark.PLAIN] > 1000 and seen[Mark.SKIPPED] > 100 and seen[Mark.REPEATED] > 100, seen)


class Zones(unittest.TestCase):
    zone = Zone(BERLIN_FILE)

    def test_examples(self):
        winter, summer = datetime(2026, 1, 5, tzinfo=timezone.utc), datetime(2026, 7, 1, tzinfo=timezone.utc)
        self.assertEqual([self.zone.offset(winter), self.zone.offset(summer)], [timedelta(hours=1), timedelta(hours=2)])
        self.assertIs(type(self.zone.offset(winter)), timedelta)
        self.assertEqual(self.zone.next_change(winter), datetime(2026, 3, 29, 1, tzinfo=timezone.utc))
        self.assertEqual(self.zone.resolve(datetime(2026, 7, 1, 12)), datetime(2026, 7, 1, 10, tzinfo=timezone.utc))
        self.assertEqual(self.zone.resolve(datetime(2026, 10, 25, 2, 30)), datetime(2026, 10, 25, 0, 30, tzinfo=timezone.utc))
        self.assertEqual(self.zone.resolve(datetime(2026, 3, 29, 2, 30)), datetime(2026, 3, 29, 1, 30, tzinfo=timezone.utc))
        self.assertIsNone(self.zone.next_change(at(*numbers.LAST)))
        self.assertEqual((self.zone.file, repr(self.zone)), (BERLIN_FILE, f"<Zone: a file of {len(BERLIN_FILE)} bytes>"))

    def test_nanoseconds(self):
        noon = datetime(2026, 7, 1, 12, 0, 0, 1)
        self.assertEqual(instant_pair(self.zone.resolve(noon, 7))[1], 1_007)
        self.assertEqual(instant_pair(self.zone.resolve(noon))[1], 1_000)
        change = self.zone.next_change(noon.replace(tzinfo=timezone.utc))
        self.assertEqual(self.zone.offset(change - Instant.resolution), timedelta(hours=2))
        self.assertEqual(self.zone.next_change(change - Instant.resolution), change)
        for nanosecond in (-1, 1000):
            self.assertRaises(ValueError, self.zone.resolve, noon, nanosecond)
        self.assertRaises(TypeError, self.zone.resolve, noon, 1.0)

    def test_refused(self):
        noon = datetime(2026, 7, 1, 12)
        for call in (self.zone.resolve, self.zone.resolve_marked):
            with self.assertRaises(ValueError) as caught:
                call(noon.replace(tzinfo=timezone.utc))
            self.assertTrue(str(caught.exception).startswith("local is an aware datetime"), caught.exception)
            self.assertRaises(ValueError, call, noon.replace(fold=1))
            for other in (date(2026, 7, 1), "2026-07-01T12:00", None, 5):
                with self.assertRaises(TypeError) as caught:
                    call(other)
                self.assertTrue(str(caught.exception).startswith("local is "), caught.exception)
        self.assertRaises(InstantOutOfRange, self.zone.offset, datetime(9999, 12, 31, tzinfo=timezone.utc))
        for place in range(5):
            given = [2026, 7, 1, 0, 0]
            for far in (2**63, 2**64 + given[place], -(2**64)):
                given[place] = far
                self.assertRaises(InstantOutOfRange, numbers.resolve, BERLIN_FILE, *given)
                self.assertRaises(InstantOutOfRange, numbers.resolve_marked, BERLIN_FILE, *given)
            given[place] = 1.0
            self.assertRaises(TypeError, numbers.resolve, BERLIN_FILE, *given)
            self.assertRaises(TypeError, numbers.resolve_marked, BERLIN_FILE, *given)
        for call in (numbers.offset, numbers.next_change):
            self.assertRaises(InstantOutOfRange, call, BERLIN_FILE, 2**64, 0)
            self.assertRaises(InstantOutOfRange, call, BERLIN_FILE, 0, 2**64)
            self.assertRaises(TypeError, call, BERLIN_FILE, 0.0, 0)
            self.assertRaises(TypeError, call, BERLIN_FILE, 0, True)

    def test_before_the_year_1(self):
        east = at(YEAR_1).replace(tzinfo=None)
        expected = numbers.resolve(BERLIN_FILE, 1, 1, 1, 0, 5)
        for call in (self.zone.resolve, self.zone.resolve_marked):
            with self.assertRaises(BeyondDatetime) as caught:
                call(east, 5)
            self.assertEqual((caught.exception.seconds, caught.exception.nanoseconds), expected)
        self.assertLess(expected[0], YEAR_1)


class Data(unittest.TestCase):
    def test_the_stored_files_are_whole(self):
        """Where a file lies is read from questions.bin; all of zones.bin is used, so that no file is left out by mistake."""
        data = (ZONE_CALLS / "data" / "questions.bin").read_bytes()
        ends = {place + length for _, place, length, *_ in QUESTION.iter_unpack(data)}
        self.assertEqual(max(ends), (ZONE_CALLS / "data" / "zones.bin").stat().st_size)
