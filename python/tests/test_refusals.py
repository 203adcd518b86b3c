"""Each refusal is an exception of its own, with its number, its place and a sentence."""

import pickle
import unittest
from datetime import datetime, timedelta, timezone

import hirgwamo
from hirgwamo import Add, Between, Clock, Duration, Refusal, Zone, numbers
from hirgwamo.refusals import BY_NUMBER

from .stored import HOUR, MONDAY, NO_PACK, OFFICE, at, directory

UTC_BOOK = bytes.fromhex("00 00 00 01 00 00 00 0C 00 00 00 05 00 03 55 54 43")  # the default zone is "UTC"
BAD_FILE = bytes.fromhex("00 00 00 01 00 00 00 0C 00 00 00 08 03 55 54 43 54 5A 69 66")  # the file of "UTC" is "TZif"
NO_WORK = bytes(4)
LAST_SEC, LAST_NS = numbers.LAST
WORK = OFFICE[12:]


def zoned(name):
    """A book of office hours in the default zone and in a zone of that name; the second record begins at byte 39."""
    return directory(WORK, bytes([1, len(name)]) + name + WORK[2:])


class Raised(unittest.TestCase):
    def refusal(self, number, place, sentence, call, *given):
        with self.assertRaises(Refusal) as caught:
            call(*given)
        told = caught.exception
        self.assertIs(type(told), BY_NUMBER[number])
        self.assertEqual((told.number, told.place), (number, place))
        self.assertIn(sentence, str(told))
        self.assertEqual(str(told), told.sentence)
        again = pickle.loads(pickle.dumps(told))
        self.assertEqual((type(again), again.place, str(again)), (type(told), place, str(told)))


class Refusals(Raised):
    def test_1_book_layout(self):
        self.refusal(1, 0, "the book breaks its layout", Clock, bytes(3), NO_PACK)
        self.refusal(1, 0, "the book breaks its layout", numbers.next_period, b"", b"", 0, 0)

    def test_2_book_limit(self):
        self.refusal(2, 0, "the book passes a limit", Clock, directory(*[WORK] * 17), NO_PACK)

    def test_3_pack_layout(self):
        self.refusal(3, 0, "the pack breaks its layout", Clock, OFFICE, b"")

    def test_4_zone_absent(self):
        self.refusal(4, 12, "zone UTC is not in the pack (record at byte 12 of the book)", Clock, UTC_BOOK, NO_PACK)
        self.refusal(4, 39, "zone Europe/Berlin is not in the pack (record at byte 39 of the book)", Clock, zoned(b"Europe/Berlin"), NO_PACK)
        self.refusal(4, 39, "zone '\\n' is not in the pack (record at byte 39 of the book)", Clock, zoned(b"\n"), NO_PACK)
        self.refusal(4, 39, "zone \\xff is not in the pack (record at byte 39 of the book)", numbers.between, zoned(b"\xff"), NO_PACK, 0, 0, 0, 0)

    def test_5_zone_unusable(self):
        self.refusal(5, 12, "the file of zone UTC in the pack is not usable (record at byte 12 of the book)", Clock, UTC_BOOK, BAD_FILE)
        self.refusal(5, 0, "the zone file is not usable", Zone, b"TZif")
        self.refusal(5, 0, "the zone file is not usable", Zone, b"")
        self.refusal(5, 0, "the zone file is not usable", numbers.resolve, b"", 2026, 1, 1, 0, 0)
        self.refusal(5, 0, "the zone file is not usable", numbers.resolve_marked, b"", 2026, 1, 1, 0, 0)

    def test_6_no_working_time(self):
        self.refusal(6, 0, "no working time", Clock, NO_WORK, NO_PACK)

    def test_7_out_of_range(self):
        self.refusal(7, 0, "the search meets the end of the range", Clock(OFFICE, NO_PACK).add, at(*numbers.LAST), timedelta(hours=1))
        self.refusal(7, 0, "-2^63 s is to be negated", numbers.sub, OFFICE, NO_PACK, MONDAY, 0, -(2**63), 0)
        self.refusal(7, 0, "the search meets the end of the range", numbers.add, OFFICE, NO_PACK, MONDAY, 0, 2**63 - 1, 0)

    def test_8_instant_out_of_range(self):
        late = datetime(9999, 12, 31, tzinfo=timezone.utc)
        self.refusal(8, 0, "an instant, a date or a time of day that there is not", Clock(OFFICE, NO_PACK).next_period, late)
        self.refusal(8, 0, "an instant", numbers.next_period, OFFICE, NO_PACK, LAST_SEC + 1, 0)
        self.refusal(8, 0, "an instant", numbers.previous_period, OFFICE, NO_PACK, 0, 10**9)
        self.refusal(8, 0, "an instant", Clock(OFFICE, NO_PACK).next_period_marked, late)
        self.refusal(8, 0, "an instant", numbers.previous_period_marked, OFFICE, NO_PACK, 0, 10**9)

    def test_9_duration_malformed(self):
        self.refusal(9, 0, "a duration is malformed", numbers.add, OFFICE, NO_PACK, MONDAY, 0, 1, -1)
        self.refusal(9, 0, "a duration is malformed", numbers.sub, OFFICE, NO_PACK, MONDAY, 0, 0, 10**9)

    def test_10_too_few_numbers(self):
        given = (OFFICE, NO_PACK, MONDAY, 0, MONDAY + 24 * HOUR, 0)
        self.refusal(10, 0, "the stretches do not fit", numbers.list_into, *given, 3)
        self.assertEqual(numbers.list_into(*given, 4), [(MONDAY + 9 * HOUR, 0, MONDAY + 17 * HOUR, 0)])
        self.assertEqual(numbers.list(*given), numbers.list_into(*given, 4))

    def test_11_log_malformed(self):
        hour = timedelta(hours=1)
        self.refusal(11, 0, "the log of runs is malformed", Clock(OFFICE, NO_PACK).hardest, at(MONDAY), [(hour, hour), (hour, hour)], hour)
        self.refusal(11, 0, "the log of runs is malformed", numbers.hardest, OFFICE, NO_PACK, MONDAY, 0, [0], 60)

    def test_12_width_out_of_range(self):
        for width in (timedelta(0), timedelta(days=400, seconds=1), timedelta(seconds=-1)):
            self.refusal(12, 0, "the width of a window", Clock(OFFICE, NO_PACK).hardest, at(MONDAY), [], width)
        self.refusal(12, 0, "the width of a window", numbers.hardest, OFFICE, NO_PACK, MONDAY, 0, [], 0)


class Classes(unittest.TestCase):
    def test_one_class_for_each_number(self):
        names = "BookLayout BookLimit PackLayout UnknownZone ZoneUnusable NoWorkingTime OutOfRange InstantOutOfRange"
        names += " DurationMalformed TooFewNumbers LogMalformed WidthOutOfRange"
        for number, name in enumerate(names.split(), 1):
            kind = getattr(hirgwamo, name)
            self.assertEqual((kind.number, BY_NUMBER[number], kind.__bases__), (number, kind, (Refusal,)))
            self.assertTrue(str(kind()))
        self.assertEqual(len(BY_NUMBER), 12)


class OutsideSixtyFourBits(Raised):
    """Numbers that a C function would see cut to 64 bits: these are refused as what they are."""

    FAR = (2**63, 2**64, 2**64 + MONDAY, -(2**63) - 1, -(2**64), 10**30)

    def test_instants(self):
        for far in self.FAR:
            for given in ((far, 0), (MONDAY, far)):
                for call in (numbers.next_period, numbers.previous_period, numbers.next_period_marked, numbers.previous_period_marked):
                    self.refusal(8, 0, "an instant", call, OFFICE, NO_PACK, *given)
                for call in (numbers.between, numbers.list):
                    self.refusal(8, 0, "an instant", call, OFFICE, NO_PACK, *given, 0, 0)
                    self.refusal(8, 0, "an instant", call, OFFICE, NO_PACK, 0, 0, *given)
                for call in (numbers.add, numbers.sub):
                    self.refusal(8, 0, "an instant", call, OFFICE, NO_PACK, *given, 0, 0)
                self.refusal(8, 0, "an instant", numbers.hardest, OFFICE, NO_PACK, *given, [], 60)

    def test_durations(self):
        for far in self.FAR:
            for given in ((far, 0), (0, far), (far, far)):
                self.refusal(9, 0, "a duration is malformed", numbers.add, OFFICE, NO_PACK, MONDAY, 0, *given)
                self.refusal(9, 0, "a duration is malformed", numbers.sub, OFFICE, NO_PACK, MONDAY, 0, *given)

    def test_logs_and_widths(self):
        for far in self.FAR:
            for log in ([far, 1], [0, far], [0, 1, far, 1]):
                self.refusal(11, 0, "the log", numbers.hardest, OFFICE, NO_PACK, MONDAY, 0, log, 60)
            self.refusal(12, 0, "the width", numbers.hardest, OFFICE, NO_PACK, MONDAY, 0, [0, 1], far)

    def test_order_of_refusals(self):
        far = 2**64
        self.refusal(6, 0, "no working time", numbers.add, NO_WORK, NO_PACK, far, 0, far, 0)
        self.refusal(8, 0, "an instant", numbers.add, OFFICE, NO_PACK, far, 0, far, 0)
        self.refusal(11, 0, "the log", numbers.hardest, OFFICE, NO_PACK, MONDAY, 0, [far], far)

    def test_queries(self):
        far = 2**64 + MONDAY
        queries = [(numbers.BETWEEN, far, 0, MONDAY, 0), (numbers.BETWEEN, MONDAY, 0, far, 0), (numbers.ADD, MONDAY, 0, far, 0)]
        queries += [(numbers.SUB, MONDAY, 0, 0, far), (numbers.NEXT, far, 0, 0, 0), (numbers.PREVIOUS, 0, far, 0, 0)]
        queries += [(numbers.NEXT, MONDAY, 0, far, far)]
        told = numbers.answers(OFFICE, NO_PACK, queries)
        self.assertEqual([answer[0] for answer in told], [8, 8, 9, 9, 8, 8, 0])
        for kind in (5, -1, 2**64, 2**64 + 1):
            self.assertRaises(ValueError, numbers.answers, OFFICE, NO_PACK, [(kind, 0, 0, 0, 0)])


class ManyQueries(unittest.TestCase):
    def test_refusals_stand_among_answers(self):
        clock, late = Clock(OFFICE, NO_PACK), datetime(9999, 12, 31, tzinfo=timezone.utc)
        nine = at(MONDAY + 9 * HOUR)
        one, two, three = clock.answers([Add(nine, timedelta(hours=1)), Between(nine, late), Between(nine, nine)])
        self.assertEqual((one, three), (nine + timedelta(hours=1), Duration(0)))
        self.assertEqual((type(two), two.number, two.place), (hirgwamo.InstantOutOfRange, 8, 0))
        self.assertEqual(clock.answers([]), [])
        self.assertEqual(numbers.answers(OFFICE, NO_PACK, []), [])

    def test_a_book_that_is_refused(self):
        told = numbers.answers(UTC_BOOK, NO_PACK, [(numbers.NEXT, 0, 0, 0, 0), (numbers.ADD, 0, 0, 1, -1)])
        self.assertEqual(told, [(4, 12, 0, 0, 0, 0)] * 2)
