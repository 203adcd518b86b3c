"""Marks: worked examples on datetimes and on numbers, and those of docs/FORMATS.md as they are printed there."""

import re
import unittest
from datetime import datetime, timedelta, timezone

from hirgwamo import Clock, Instant, Mark, MarkedInstant, MarkedPeriod, Period, Refusal, Zone, numbers

from .stored import BERLIN, BERLIN_FILE, DAY, HOUR, MONDAY, NO_PACK, OFFICE, ROOT, at, directory, zone_of_pack

MINUTE = 60
ALL_DAYS, SUNDAY = 0x7F, 0x40
WORK, BREAK = 1, 2

# A zone file whose footer rules throughout: two blocks of one type and no transition, then the rule of Central Europe.
BLOCK = b"TZif2" + bytes(15 + 4 * 4) + (1).to_bytes(4, "big") + (4).to_bytes(4, "big") + (3600).to_bytes(4, "big") + bytes(2) + b"CET\0"
CET_FILE = BLOCK + BLOCK + b"\nCET-1CEST,M3.5.0,M10.5.0/3\n"
CET_PACK = directory(b"\3CET" + CET_FILE)
IN_CET = b"\0\3CET"

MARCH = 1_774_747_800  # 2026-03-29T01:30:00Z, which the local time 02:30 becomes, for it is skipped
OCTOBER = 1_792_888_200  # 2026-10-25T00:30:00Z, the first time that the clock shows 02:30
SATURDAY = 1_774_699_200  # 2026-03-28T12:00:00Z
BREAK_BEFORE = 1_774_143_000  # 2026-03-22T01:30:00Z, a week before MARCH: a break begins
NEAR_THE_END = 253_402_120_800  # 9999-12-29T22:00:00Z


def hours(kind, days, start, end):
    """A record of work or of a break in the default zone, from a second of the day to another."""
    return bytes([kind, 0, days]) + b"".join(second.to_bytes(4, "big") + bytes(4) for second in (start, end))


HALF_PAST_2, HALF_PAST_3, FOUR, SIX = 150 * MINUTE, 210 * MINUTE, 4 * HOUR, 6 * HOUR
SUNDAYS = directory(IN_CET, hours(WORK, ALL_DAYS, 0, 0), hours(BREAK, SUNDAY, HALF_PAST_2, FOUR))
COINCIDING = directory(IN_CET, hours(WORK, SUNDAY, HALF_PAST_3, SIX), hours(WORK, SUNDAY, HALF_PAST_2, SIX))
ALWAYS = directory(hours(WORK, ALL_DAYS, 0, 0))


class LocalTimes(unittest.TestCase):
    def test_examples(self):
        zone = Zone(CET_FILE)
        rows = [
            (datetime(2026, 3, 29, 2, 30), MARCH, Mark.SKIPPED),
            (datetime(2026, 3, 29, 1, 59, 59), MARCH - HOUR // 2 - 1, Mark.PLAIN),
            (datetime(2026, 3, 29, 3), MARCH - HOUR // 2, Mark.PLAIN),
            (datetime(2026, 10, 25, 2, 30), OCTOBER, Mark.REPEATED),
            (datetime(2026, 10, 25, 2), OCTOBER - HOUR // 2, Mark.REPEATED),
            (datetime(2026, 10, 25, 3), OCTOBER + 3 * HOUR // 2, Mark.PLAIN),
        ]
        for local, second, mark in rows:
            told = zone.resolve_marked(local)
            self.assertEqual(told, MarkedInstant(at(second), mark), local)
            self.assertIs(type(told.instant), Instant)
            self.assertIs(type(told.mark), Mark)
            self.assertEqual(told.instant, zone.resolve(local))
        self.assertEqual(Zone(BERLIN_FILE).resolve_marked(datetime(2026, 10, 25, 2, 30), 7).instant.nanosecond, 7)

    def test_beyond(self):
        self.assertEqual(numbers.resolve_marked(CET_FILE, 9999, 12, 31, 0, 0), (*numbers.LAST, numbers.BEYOND))
        self.assertEqual(numbers.resolve_marked(CET_FILE, -9999, 1, 1, 0, 0), (*numbers.FIRST, numbers.BEYOND))
        self.assertEqual(Zone(CET_FILE).resolve_marked(datetime(9999, 12, 31)).mark, Mark.BEYOND)


class Periods(unittest.TestCase):
    def period(self, told, start, end, start_mark, end_mark):
        self.assertEqual(told, MarkedPeriod(at(start), at(end), start_mark, end_mark))
        self.assertEqual([type(mark) for mark in told[2:]], [Mark, Mark])

    def test_a_break_that_is_skipped(self):
        clock = Clock(SUNDAYS, CET_PACK)
        break_end = BREAK_BEFORE + HOUR + HOUR // 2
        self.period(clock.next_period_marked(at(SATURDAY)), SATURDAY, MARCH, Mark.PLAIN, Mark.SKIPPED)
        self.period(clock.next_period_marked(at(BREAK_BEFORE)), break_end, MARCH, Mark.PLAIN, Mark.SKIPPED)
        for t in (MARCH, MARCH + 200):
            self.period(clock.previous_period_marked(at(t)), break_end, MARCH, Mark.PLAIN, Mark.SKIPPED)
        self.period(clock.previous_period_marked(at(MARCH - 1)), break_end, MARCH - 1, Mark.PLAIN, Mark.PLAIN)
        after = MARCH + HOUR // 2  # 04:00 is 02:00Z on that day, and the next break begins at 00:30Z a week later
        self.period(clock.next_period_marked(at(MARCH)), after, MARCH + 7 * DAY - HOUR, Mark.PLAIN, Mark.PLAIN)

    def test_a_break_that_comes_twice(self):
        noon = OCTOBER - 4 * HOUR - HOUR // 2
        self.period(Clock(SUNDAYS, CET_PACK).next_period_marked(at(noon)), noon, OCTOBER, Mark.PLAIN, Mark.REPEATED)

    def test_starts_that_coincide(self):
        clock, end = Clock(COINCIDING, CET_PACK), MARCH + 5 * HOUR // 2
        for t in (SATURDAY, MARCH):
            self.period(clock.next_period_marked(at(t, zone=BERLIN)), MARCH, end, Mark.SKIPPED, Mark.PLAIN)
        self.period(clock.next_period_marked(at(MARCH + 1)), MARCH + 1, end, Mark.PLAIN, Mark.PLAIN)
        self.period(clock.previous_period_marked(at(end)), MARCH, end, Mark.SKIPPED, Mark.PLAIN)

    def test_the_last_shift(self):
        told = numbers.next_period_marked(ALWAYS, NO_PACK, NEAR_THE_END, 0)
        self.assertEqual(told, (NEAR_THE_END, 0, *numbers.LAST, numbers.PLAIN, numbers.BEYOND))

    def test_the_office(self):
        clock, saturday = Clock(OFFICE, NO_PACK), at(MONDAY + 5 * DAY + 10 * HOUR)
        told = clock.next_period_marked(saturday)
        self.period(told, MONDAY + 7 * DAY + 9 * HOUR, MONDAY + 7 * DAY + 17 * HOUR, Mark.PLAIN, Mark.PLAIN)
        self.assertEqual(Period(*told[:2]), clock.next_period(saturday))
        back = clock.previous_period_marked(saturday)
        self.period(back, MONDAY + 4 * DAY + 9 * HOUR, MONDAY + 4 * DAY + 17 * HOUR, Mark.PLAIN, Mark.PLAIN)

    def test_nanoseconds(self):
        clock, later = Clock(OFFICE, NO_PACK), at(MONDAY + 9 * HOUR, 1)
        self.assertEqual(clock.next_period_marked(later).start, later)
        self.assertEqual(clock.previous_period_marked(later).end, later)

    def test_refused(self):
        for call, name in ((numbers.next_period_marked, "next_period"), (numbers.previous_period_marked, "previous_period")):
            for given in ((b"", NO_PACK, 0, 0), (SUNDAYS, NO_PACK, 0, 0), (OFFICE, NO_PACK, 0, 10**9), (OFFICE, b"", 0, 0)):
                with self.assertRaises(Refusal) as expected:
                    getattr(numbers, name)(*given)
                with self.assertRaises(type(expected.exception)) as caught:
                    call(*given)
                self.assertEqual((caught.exception.place, str(caught.exception)), (expected.exception.place, str(expected.exception)))


def documented():
    """Of docs/FORMATS.md: the pack, the book of the section on marks, and that section."""
    text = (ROOT / "docs" / "FORMATS.md").read_text()
    packs, section = (re.search(rf"^## {title}$(.*?)^## ", text, re.MULTILINE | re.DOTALL)[1] for title in ("The zone pack", "Marks"))
    pack, book = (bytes.fromhex(re.search(r"(?:^    [0-9A-F ]+\n)+", part, re.MULTILINE)[0]) for part in (packs, section))
    return pack, book, section


class Documented(unittest.TestCase):
    def test_local_times(self):
        pack, _, section = documented()
        rows = re.findall(r"^\| (\d+)-(\d+)-(\d+) (\d+):(\d+)(?::(\d+))? \| ([\d ]+) \|", section, re.MULTILINE)
        self.assertEqual(len(rows), 6)
        for *date, hour, minute, second, answer in rows:
            time = int(hour) * HOUR + int(minute) * MINUTE + int(second or 0)
            told = numbers.resolve_marked(zone_of_pack(pack)[1], *map(int, date), time, 0)
            self.assertEqual(" ".join(map(str, told)), answer, date)

    def test_periods(self):
        pack, book, section = documented()
        calls = {"next": numbers.next_period_marked, "previous": numbers.previous_period_marked}
        rows = re.findall(r"^\| (next|previous) from (\d+).*? \| ([\d ]+) \|", section, re.MULTILINE)
        self.assertEqual(len(rows), 5)
        for call, second, answer in rows:
            self.assertEqual(" ".join(map(str, calls[call](book, pack, int(second), 0))), answer, (call, second))
        second, answer = re.search(r"office of document 01, next from (\d+) is ([\d ]+)\.", section).groups()
        self.assertEqual(" ".join(map(str, calls["next"](OFFICE, NO_PACK, int(second), 0))), answer)

    def test_names(self):
        names = re.findall(r"^\| (\d) \| (\w+) \|", documented()[2], re.MULTILINE)
        self.assertEqual(names, [(str(mark.value), mark.name.lower()) for mark in Mark])


class Marks(unittest.TestCase):
    def test_order(self):
        self.assertEqual([*Mark], [Mark.PLAIN, Mark.REPEATED, Mark.SKIPPED, Mark.BEYOND])
        self.assertEqual([int(mark) for mark in Mark], [0, 1, 2, 3])
        self.assertIs(max(Mark.SKIPPED, Mark.REPEATED), Mark.SKIPPED)

    def test_shown(self):
        start = datetime(2026, 3, 28, 12, tzinfo=timezone.utc)
        told = Clock(SUNDAYS, CET_PACK).next_period_marked(start)
        self.assertEqual((told.start, told.end - told.start, told.end_mark.name), (start, timedelta(hours=13, minutes=30), "SKIPPED"))
