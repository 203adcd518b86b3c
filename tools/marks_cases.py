#!/usr/bin/env python3
"""Writes stored local times, periods and blocks with their marks, for the program `test_replay_marks`.

usage: tools/marks_cases.py VECTORS OUT

VECTORS has the vectors of document 02: folders with book.bin, zones.bin, calls.txt and answers.txt, of which the lines `resolve`, `next`, `previous` and
`blocks` are taken. A folder whose book has records that compare/second.py does not read (kinds 4 and 5) gives its lines `resolve` alone, which ask its
default zone. OUT gets marks.bin; compare/marks.py tells its layout. The answers come from compare/second.py, not from the code that is to be compared; those
of VECTORS and of crates/laws_marks/specs/Examples.antt must be the same. No zone file of a machine is used, so the same VECTORS give the same data. What is in the repository was
made by

    tools/marks_cases.py VECTORS crates/test_replay_marks/data
"""
import sys
from pathlib import Path

sys.dont_write_bytecode = True
sys.path.insert(0, str(Path(__file__).resolve().parent.parent / "compare"))
import marks  # noqa: E402
import second  # noqa: E402
from generate import FIRST_S, LAST_S, MON, default, holidays, join, pack_record, shift, tzif  # noqa: E402
from marks import BLOCKS, NEXT, PREVIOUS, RESOLVE, WEEK, clamped, split  # noqa: E402
from second import BEYOND, DAY, FIRST, LAST, NANO, PLAIN, REPEATED, SKIPPED, WINDOW  # noqa: E402

RANDOM = ("2034", 40)  # seed and number of the random cases
MOST = 250_000  # bytes
HOUR = 3600
LATE = 999_999_999
LEAST_I64, MOST_I64 = -(2**63), 2**63 - 1
SPRING, AUTUMN = 1774746000, 1792890000  # 2026-03-29T01:00Z and 2026-10-25T01:00Z, when Central Europe changes
NEW_YORK = 1772953200  # 2026-03-08T07:00Z, when New York changes
HALF = SPRING + 1800  # what 02:30 and 03:30 of 29 March are in Central Europe
AGAIN = AUTUMN - 1800  # the first 02:30 of 25 October
LIMIT = 366 * DAY
ALL, SUNDAY = 0x7F, 0x40
OFFICE = bytes.fromhex("000000010000000C0000001301001F00007E90000000000000EF1000000000")
NO_PACK = bytes(4)


def work(name, days, start, end, kind=1):
    return shift(kind, name, days, (start, 0), (end, 0))


def pause(name, days, start, end):
    return work(name, days, start, end, 2)


def packed(*zones):
    return join([pack_record(*zone) for zone in zones])


# ---- zones

UTC = (b"UTC", tzif([0]))
CET = (b"CET", tzif([3600], (), b"CET-1CEST,M3.5.0,M10.5.0/3"))
EST = (b"EST", tzif([-18000, -14400], [(NEW_YORK - 364 * DAY, 1)], b"EST5EDT,M3.2.0,M11.1.0"))
NUUK = (b"Nuuk", tzif([-7200], (), b"<-02>2<-01>,M3.5.0/-1,M10.5.0/0", b"3"))
HOWE = (b"Howe", tzif([37800], (), b"<+1030>-10:30<+11>-11,M10.1.0,M4.1.0"))
MIDNIGHT = (b"Midnight", tzif([0], (), b"AAA0BBB,M3.5.0/0,M10.5.0/1"))  # 00:00 is skipped in March and comes twice in October
ONCE = (b"Once", tzif([3600, 7200], [(SPRING, 1), (SPRING + 600, 0)]))  # jumps over 02:30 of 29 March and reads it once, as Examples.antt has it
OVER = (b"Over", tzif([0, 7200, 3600, 9000], [(MON, 1), (MON + 600, 2), (MON + 1200, 3)]))  # jumps over some times twice
THRICE = (b"Thrice", tzif([7200, 3600, 0], [(MON, 1), (MON + 1800, 2)]))
APART = (b"Apart", tzif([-93599, 93599], [(MON + 20 * HOUR, 1)]))  # a jump of more than two days
BACK = (b"Back", tzif([93599, -93599], [(MON + 20 * HOUR, 1)]))  # the same back
DAILY = (b"Daily", tzif([0, 3600], [(MON + place * DAY + HOUR, 1 - place % 2) for place in range(14)]))  # 01:00 is left out and comes twice in turn
LATE_BACK = (b"LateBack", tzif([0, -7200], [(LAST_S + 600, 1)]))  # comes twice: once in the range, once behind it
LATE_ON = (b"LateOn", tzif([0, 7200], [(LAST_S - 1800, 1)]))  # left out: some times resolve in the range, some behind it
EARLY_BACK = (b"EarlyBack", tzif([7200, 0], [(FIRST_S - 1800, 1)]))  # comes twice: once before the range, once in it
EARLY_ON = (b"EarlyOn", tzif([0, 7200], [(FIRST_S - 600, 1)]))  # left out: some times resolve before the range, some in it
ENDS_BACK = (b"EndsBack", tzif([3600, -3600, 3600], [(FIRST_S + HOUR, 1), (LAST_S - HOUR, 2)]))
WEST, EAST = (b"West", tzif([-93599])), (b"East", tzif([93599]))


def local(seconds, nano=0):
    """The question for a local second from 1970 on."""
    day = max(second.FIRST_DATE, min(second.LAST_DATE, seconds // DAY))
    return [RESOLVE, *marks.date_of(day), seconds % DAY, nano]


def about_local(*seconds):
    """Local times about each, a second before and behind, and nanoseconds."""
    return [local(at + more, nano) for at in seconds for more, nano in ((-1, LATE), (0, 0), (0, 1), (1, 0))]


def each_local(low, high, step):
    return [local(at) for at in range(low, high, step)]


def zone_files():
    """Local times of zone files: skipped, repeated, both, neither; at both ends of the range; and what is refused."""
    yield CET, about_local(SPRING + 3600, SPRING + 7200, AUTUMN + 3600, AUTUMN + 7200) + each_local(SPRING, SPRING + 4 * HOUR, 1800)
    yield EST, about_local(NEW_YORK - 18000, NEW_YORK - 14400) + about_local(NEW_YORK - 364 * DAY - 18000)
    yield NUUK, about_local(SPRING - 7200, SPRING - 3600, AUTUMN - 7200, AUTUMN - 3600)
    yield HOWE, each_local(AUTUMN - 21 * DAY + 12 * HOUR, AUTUMN - 21 * DAY + 17 * HOUR, 1800)
    yield ONCE, each_local(SPRING + 3600 - 600, SPRING + 7200 + 1800, 300) + [local(SPRING + 7200 - 600 - 1), local(SPRING + 3600 + 600)]
    yield OVER, each_local(MON - 600, MON + 9000 + 1800, 600)
    yield THRICE, each_local(MON - 600, MON + 9600, 600)
    yield APART, each_local(MON - 12 * HOUR, MON + 60 * HOUR, 3 * HOUR) + about_local(MON + 20 * HOUR - 93599, MON + 20 * HOUR + 93599)
    yield BACK, each_local(MON - 12 * HOUR, MON + 60 * HOUR, 3 * HOUR) + about_local(MON + 20 * HOUR - 93599, MON + 20 * HOUR + 93599)
    yield DAILY, about_local(MON + HOUR, MON + 2 * HOUR, MON + DAY + HOUR, MON + DAY + 2 * HOUR)
    for zone in (LATE_BACK, LATE_ON):
        yield zone, each_local(LAST_S - 3 * HOUR, LAST_S + 3 * HOUR, 1800) + about_local(LAST_S)
    for zone in (EARLY_BACK, EARLY_ON, ENDS_BACK):
        yield zone, each_local(FIRST_S - 3 * HOUR, FIRST_S + 4 * HOUR, 1800) + about_local(FIRST_S, FIRST_S + HOUR)
    dates = [(-9999, 1, 1), (-9999, 1, 2), (9999, 12, 30), (9999, 12, 31)]
    ends = [[RESOLVE, *date, time, nano] for date in dates for time, nano in ((0, 0), (DAY - 1, LATE))]
    for zone in (UTC, WEST, EAST):
        yield zone, ends + about_local(FIRST_S, LAST_S)
    wrong = [(2026, 2, 29, 0, 0), (2026, 13, 1, 0, 0), (2026, 0, 1, 0, 0), (2026, 1, 0, 0, 0), (2026, 4, 31, 0, 0), (10_000, 1, 1, 0, 0), (-10_000, 12, 31, 0, 0)]
    wrong += [(2026, 1, 1, DAY, 0), (2026, 1, 1, -1, 0), (2026, 1, 1, 0, NANO), (2026, 1, 1, 0, -1), (LEAST_I64, 1, 1, 0, 0), (2026, MOST_I64, 1, 0, 0)]
    wrong += [(2026, 1, 2**32 + 1, 0, 0), (2024, 2, 29, 2**32, 0), (2024, 2, 29, 0, LEAST_I64), (2024, 2, 29, DAY - 1, LATE)]
    yield UTC, [[RESOLVE, *numbers] for numbers in wrong]
    for file in (b"", b"TZif", CET[1][:-1], tzif([0, 93_600])):
        yield (b"", file), [local(MON), [RESOLVE, 2026, 2, 30, 0, 0]]


# ---- what is asked about an instant

WINDOWS = [(-6 * HOUR, 6 * HOUR)]
OFF = (0, 6 * HOUR * NANO, WINDOW)  # how far off periods are asked for


def about(*instants, windows=WINDOWS, off=OFF):
    """Periods from an instant (in nanoseconds) and towards it, and blocks of windows about it."""
    asked = []
    for at_ in instants:
        for way, kind in ((1, NEXT), (-1, PREVIOUS)):
            asked += [[kind, *split(clamped(at_ - way * back))] for back in off]
        for low, high in windows:
            low = clamped(at_ + low * NANO)
            asked.append([BLOCKS, *split(low), *split(clamped(max(low, at_ + high * NANO)))])
    return asked


def at(*seconds):
    return [second_ * NANO for second_ in seconds]


# ---- the worked examples of crates/laws_marks/specs/Examples.antt

LOCAL_TIMES = [
    ([2026, 3, 29, 9000, 0], [1774747800, 0, SKIPPED]),
    ([2026, 10, 25, 9000, 0], [1792888200, 0, REPEATED]),
    ([2026, 3, 29, 7199, 0], [1774745999, 0, PLAIN]),
    ([2026, 3, 29, 10800, 0], [1774746000, 0, PLAIN]),
    ([2026, 10, 25, 7200, 0], [1792886400, 0, REPEATED]),
    ([2026, 10, 25, 10799, 0], [1792889999, 0, REPEATED]),
    ([2026, 10, 25, 10800, 0], [1792893600, 0, PLAIN]),
    ([9999, 12, 31, 0, 0], [253402207200, LATE, BEYOND]),
    ([-9999, 1, 1, 0, 0], [-377705023201, 0, BEYOND]),
    ([2026, 2, 29, 0, 0], None),
]
SUNDAYS = [
    (NEXT, 1774699200, [1774699200, 0, 1774747800, 0, PLAIN, SKIPPED]),
    (NEXT, 1774747800, [1774749600, 0, 1775349000, 0, PLAIN, PLAIN]),
    (NEXT, 1774143000, [1774148400, 0, 1774747800, 0, PLAIN, SKIPPED]),
    (PREVIOUS, 1774747800, [1774148400, 0, 1774747800, 0, PLAIN, SKIPPED]),
    (PREVIOUS, 1774748000, [1774148400, 0, 1774747800, 0, PLAIN, SKIPPED]),
    (PREVIOUS, 1774747799, [1774148400, 0, 1774747799, 0, PLAIN, PLAIN]),
    (NEXT, 1792872000, [1792872000, 0, 1792888200, 0, PLAIN, REPEATED]),
]
COINCIDING = [
    (NEXT, 1774699200, [1774747800, 0, 1774756800, 0, SKIPPED, PLAIN]),
    (NEXT, 1774747800, [1774747800, 0, 1774756800, 0, SKIPPED, PLAIN]),
    (NEXT, 1774747801, [1774747801, 0, 1774756800, 0, PLAIN, PLAIN]),
]
ALWAYS = [(NEXT, 253402120800, [253402120800, 0, 253402207200, LATE, PLAIN, BEYOND])]
SUNDAY_BREAKS = [work(b"CET", ALL, 0, 0), pause(b"CET", SUNDAY, 9000, 14400)]
TWO_STARTS = [work(b"CET", SUNDAY, 12600, 21600), work(b"CET", SUNDAY, 9000, 21600)]
ROUND_THE_CLOCK = join([work(b"", ALL, 0, 0)])


def examples():
    """The examples, which second.py must answer so."""
    expected = [(b"", CET[1], [[RESOLVE, *numbers] for numbers, _ in LOCAL_TIMES], [told for _, told in LOCAL_TIMES])]
    expected.append((b"", ONCE[1], [[RESOLVE, 2026, 3, 29, 9000, 0]], [[1774747800, 0, PLAIN]]))
    for book, pack, rows in ((join(SUNDAY_BREAKS), packed(CET), SUNDAYS), (join(TWO_STARTS), packed(CET), COINCIDING), (ROUND_THE_CLOCK, NO_PACK, ALWAYS)):
        expected.append((book, pack, [[kind, given, 0] for kind, given, _ in rows], [told for _, _, told in rows]))
    for book, pack, questions, answers in expected:
        case = marks.Case(vars(second), book, pack)
        for question, told in zip(questions, answers):
            if case.answer(question) != ((0, 0, told) if told else (8, 0, [0] * 3)):
                sys.exit(f"{question}: second.py answers otherwise than the example")
    return [case[:3] for case in expected]


# ---- books


def coinciding():
    """Ends that coincide, in both orders of the book: skipped and plain, repeated and plain, skipped and repeated; of work and of breaks. They lie at what 02:30
    and 03:30 of 29 March are in Central Europe."""
    fold = (b"Fold", tzif([3600, 0], [(HALF + 600, 1)]))  # 02:30 comes twice there, first at that instant
    times = {b"CET": 9000, b"Fold": 9000, b"": 5400}
    near = about(*at(HALF), windows=[(-HOUR, HOUR)], off=(0, 2 * HOUR * NANO))
    for one, other in ((b"CET", b""), (b"Fold", b""), (b"CET", b"Fold"), (b"CET", b"CET")):
        first, last = times[one], times[other] + (3600 if one == other else 0)
        pack = packed(*(zone for zone in (CET, fold) if zone[0] in (one, other)))
        for place, rules in enumerate(([(one, first), (other, last)], [(other, last), (one, first)])):
            (early, start), (late, end) = rules
            yield join([work(early, ALL, start, start + 2 * HOUR), work(late, ALL, end, end + 2 * HOUR + 600)]), pack, near
            yield join([work(early, ALL, start - 4800, start), work(late, ALL, end - 5100, end)]), pack, near
            off = work(b"", ALL, 3 * HOUR, 2 * HOUR + 3599)
            cuts = [pause(early, ALL, start, start + 1500), pause(late, ALL, end, end + 2100)]
            cuts_before = [pause(early, ALL, start - 1800, start), pause(late, ALL, end - 1860, end)]
            yield join([off, *(cuts if place else cuts_before)]), pack, near
            yield join([off, *(cuts_before if place else cuts)]), pack, near


def october():
    """The same where a local time comes twice, and one rule inside of another."""
    records = [work(b"CET", ALL, 9000, 6 * HOUR), work(b"", ALL, 1800, 5 * HOUR), work(b"CET", ALL, 7200, 9000), pause(b"CET", ALL, 4 * HOUR, 4 * HOUR + 60)]
    yield join(records), packed(CET), about(*at(AGAIN, AUTUMN - 3600), windows=[(-HOUR, HOUR), (-DAY, 2 * DAY)])
    records = [work(b"CET", SUNDAY, 9000, 10000), work(b"CET", SUNDAY, 9600, 12 * HOUR), pause(b"CET", SUNDAY, 9500, 9700), pause(b"CET", SUNDAY, 9700, 9900)]
    yield join(records), packed(CET), about(*at(AGAIN, SPRING + 2000), windows=[(-2 * HOUR, 5 * HOUR)])


def touching():
    """Gaps that only touch: work keeps its own mark, whether it is the work's or the gap's end that was skipped. And work that ends where other work begins and a break too."""
    pack, near = packed(CET), about(*at(HALF), off=(0, 1, 6 * HOUR * NANO))
    for end, start in ((9000, 12600), (12600, 9000)):
        yield join([work(b"CET", ALL, HOUR, end), pause(b"CET", ALL, start, 5 * HOUR)]), pack, near
        yield join([work(b"CET", ALL, start, 5 * HOUR), pause(b"CET", ALL, HOUR, end)]), pack, near
        joined = [work(b"CET", ALL, HOUR, end), work(b"CET", ALL, start, 5 * HOUR)]
        yield join(joined + [pause(b"", ALL, 5400, 6000)]), pack, near
        yield join(joined + [pause(b"", ALL, 4800, 5400)]), pack, near
        yield join(joined[:1] + [work(b"", ALL, 5400, 4 * HOUR), pause(b"CET", ALL, start, 5 * HOUR)]), pack, near
    nothing = work(b"CET", SUNDAY, 9000, 12600)  # ends on 29 March where it starts
    yield join([nothing, work(b"CET", SUNDAY, 9000, 12660)]), pack, near
    yield join([nothing, work(b"", SUNDAY, 4000, 5400)]), pack, near
    yield join([nothing, work(b"", SUNDAY, 5400, 7000), work(b"CET", 0x01, 0, 60)]), pack, near
    turned = work(b"CET", SUNDAY, 10500, 10800)  # ends on 29 March before it starts
    yield join([turned, work(b"", SUNDAY, 0, 3600), pause(b"CET", SUNDAY, 10200, 11100)]), pack, near


def gap_edges():
    """A break whose two edges have different marks, in work round the clock; breaks that overlap; breaks and holidays whose edges coincide or touch."""
    always = work(b"", ALL, 0, 0)
    for start, end in ((9000, 14400), (3600, 9000), (7200, 10799)):
        yield join([always, pause(b"CET", SUNDAY, start, end)]), packed(CET), about(*at(HALF, AGAIN))
    yield join([always, pause(b"CET", SUNDAY, 9000, 14400), pause(b"CET", SUNDAY, 12600, 16000), pause(b"CET", SUNDAY, 3600, 9000)]), packed(CET), about(*at(HALF))
    days = [([(2026, 3, 28), (2026, 3, 29)], SPRING - HOUR), ([(2026, 10, 24), (2026, 10, 25)], AUTUMN - 2 * HOUR)]
    for dates, instant in days:  # 00:00 of the second date in Midnight, in October the first
        time, near = instant % DAY, about(*at(instant), off=(0, 6 * HOUR * NANO))
        for records in (
            [holidays(b"Midnight", dates[:1])],
            [holidays(b"Midnight", dates[1:])],
            [holidays(b"Midnight", dates)],
            [holidays(b"Midnight", dates[:1]), pause(b"", ALL, time, 2 * HOUR)],
            [holidays(b"Midnight", dates[1:]), pause(b"", ALL, 12 * HOUR, time)],
            [holidays(b"Midnight", dates[1:]), pause(b"", ALL, time, 2 * HOUR)],
            [holidays(b"Midnight", dates[:1]), pause(b"", ALL, 12 * HOUR, time)],
            [holidays(b"", dates[1:]), pause(b"Midnight", ALL, 0, 7200)],
            [holidays(b"", dates[:1]), pause(b"Midnight", ALL, 12 * HOUR, 0)],
        ):
            yield join([always, *records]), packed(MIDNIGHT), near


def borders():
    """Windows with a border on an end that was skipped or came twice, at both sides; work over the border too."""
    days = [(-WEEK, 0), (0, WEEK), (-DAY, 0), (0, DAY), (-HOUR, 1), (-1, HOUR)]
    nights = [work(b"CET", SUNDAY | 0x20, 22 * HOUR, 9000), pause(b"CET", SUNDAY, HOUR, 5400), holidays(b"", [(2026, 3, 27), (2026, 10, 23)])]
    yield join(nights), packed(CET), about(*at(HALF, AGAIN), windows=days)
    mornings = [work(b"CET", SUNDAY, 9000, 11 * HOUR), work(b"EST", SUNDAY, 9000, 11 * HOUR)]
    yield join(mornings), packed(CET, EST), about(*at(HALF, AGAIN, NEW_YORK + 1800), windows=days)
    over = [work(b"CET", SUNDAY, HOUR, 9000), work(b"", SUNDAY, HOUR, 12 * HOUR), pause(b"CET", ALL, 9000, 4 * HOUR), pause(b"", SUNDAY, 5400, 9000)]
    yield join(over), packed(CET), about(*at(HALF, AGAIN), windows=days)
    yield join(over[:2]), packed(CET), about(*at(HALF, AGAIN), windows=days[2:], off=(0, WINDOW))
    over = [work(b"CET", SUNDAY, 9000, 12 * HOUR), work(b"", SUNDAY, 1, 12 * HOUR)]
    yield join(over), packed(CET), about(*at(HALF, AGAIN), windows=days[2:], off=(0, WINDOW))
    over = [work(b"", ALL, 0, 0), pause(b"CET", SUNDAY, 9000, 12 * HOUR), pause(b"", 0x20, 3 * HOUR, 4 * HOUR)]
    yield join(over), packed(CET), about(*at(HALF, AGAIN), windows=days[2:])
    weekly = [work(b"CET", SUNDAY, 9000, 12 * HOUR), holidays(b"", [(2026, 3, 22), (2026, 4, 5), (2026, 10, 18), (2026, 11, 1)])]
    far = [[kind, instant + way * off, 0] for instant in (HALF, AGAIN) for way, kind in ((-1, NEXT), (1, PREVIOUS)) for off in (8 * DAY, 13 * DAY, 14 * DAY)]
    yield join(weekly), packed(CET), far


def limits():
    """Periods that the search limit cuts, where it just does, and where it moves nothing: up to a holiday whose start was skipped or comes twice, or from one whose
    end did, and round the clock."""
    off = [(LIMIT + 14 * DAY) * NANO + more for more in (0, 1, -1, DAY * NANO, 3 * DAY * NANO, 6 * DAY * NANO)]
    for march, october_ in ((29, 24), (28, 25)):
        records = [work(b"", ALL, 0, 0), holidays(b"Midnight", [(2026, 3, march), (2026, 10, october_)])]
        yield join(records), packed(MIDNIGHT), about(*at(SPRING - HOUR, AUTUMN - 2 * HOUR), windows=[], off=off)
    yield ROUND_THE_CLOCK, NO_PACK, about(LAST, FIRST, LAST - LIMIT * NANO, FIRST + LIMIT * NANO, windows=[], off=(0, 1, -1, DAY * NANO))


def range_ends():
    """Both ends of the range: ends beyond it, ends at its very instants that are plain, skipped or repeated there, two of them in both orders; ends without a next date."""
    noon, three = 12 * HOUR, 15 * HOUR
    late, early = LAST_S % DAY, FIRST_S % DAY
    ends = {"plain": (b"", 0), "skipped": (b"LateOn", 0), "repeated": (b"LateBack", 0), "beyond": (b"LateOn", 1800)}
    starts = {"plain": (b"", 0), "skipped": (b"EarlyOn", 0), "repeated": (b"EndsBack", 3600), "beyond": (b"EarlyOn", -300)}
    couples = [(one, other) for one in ends for other in ends if one != other]
    for one, other in couples:
        rules = [shift(1, name, ALL, (noon + place, 0), (late + more, LATE)) for place, (name, more) in enumerate((ends[one], ends[other]))]
        yield join(rules), packed(LATE_ON, LATE_BACK), [[PREVIOUS, *split(LAST)], [BLOCKS, *split(LAST - NANO), *split(LAST)]]
        rules = [shift(1, name, ALL, (early + more, 0), (three + place, 0)) for place, (name, more) in enumerate((starts[one], starts[other]))]
        yield join(rules), packed(EARLY_ON, ENDS_BACK), [[NEXT, *split(FIRST)], [BLOCKS, *split(FIRST), *split(FIRST + NANO)]]
    days = [(-WEEK, 0), (0, WEEK), (-HOUR, HOUR), (0, 0)]
    near = about(FIRST, LAST, windows=days)
    last_dates, first_dates = [(9999, 12, 30), (9999, 12, 31)], [(-9999, 1, 1), (-9999, 1, 2)]
    yield ROUND_THE_CLOCK, NO_PACK, near
    for zone in (WEST, EAST, ENDS_BACK):
        name = zone[0]
        yield join([work(name, ALL, 22 * HOUR, 6 * HOUR), pause(name, ALL, 23 * HOUR, 23 * HOUR + 60)]), packed(zone), about(FIRST, LAST, windows=[(-2 * DAY, 2 * DAY)])
        yield join([work(b"", ALL, 0, 0), holidays(name, last_dates + first_dates)]), packed(zone), about(FIRST, LAST, LAST - DAY * NANO, FIRST + DAY * NANO)
        yield join([work(name, SUNDAY, 0, 0), holidays(name, last_dates[1:] + first_dates[:1])]), packed(zone), about(FIRST, LAST)
    for zone in (LATE_BACK, LATE_ON, EARLY_BACK, EARLY_ON):
        edge, time = (LAST, late) if zone in (LATE_BACK, LATE_ON) else (FIRST, early)
        yield join([work(zone[0], ALL, time + more, time + more + 600) for more in (-3600, -1800, -600, 0, 1200, 3600)]), packed(zone), about(edge, windows=[(-3 * HOUR, 3 * HOUR)])
    overnight = [work(b"", ALL, 20 * HOUR, 19 * HOUR), pause(b"", ALL, 21 * HOUR, 21 * HOUR + 60)]
    yield join(overnight), NO_PACK, about(LAST, LAST - 2 * HOUR * NANO)
    cut = [work(b"", ALL, 0, 0), shift(2, b"", ALL, (20 * HOUR, 0), (late, LATE)), holidays(b"East", last_dates)]
    yield join(cut), packed(EAST), about(LAST, LAST - 3 * DAY * NANO)


def far_jumps():
    """Zones with jumps of a day and more: pieces at a border that only one of the two windows shows, ends between them that have marks, and windows that show what
    longer ones do not."""
    jump = 1767599489
    zone = (b"Z", tzif([-75000, 75000], [(jump, 1), (jump + 1, 0), (jump + 150000, 1)]))
    records = [work(b"Z", ALL, 16888, 17489), work(b"Z", ALL, 39689, 39689), work(b"Z", 0x2D, 40289, 40289), holidays(b"UTC", [(2025, 12, 25), (2026, 1, 20)])]
    yield join(records), packed(zone, UTC), about(*at(jump, jump - WEEK, jump + WEEK), windows=[(-WEEK, 0), (0, WEEK)])
    changes = [(1767614751, 1), (1767701151, 0), (1767787551, 0), (1767873951, 1)]
    zone = (b"Z", tzif([-93599, 93599], changes))
    records = [work(b"Z", ALL, 36351, 36351), work(b"Z", ALL, 50751, 0)]
    yield join(records), packed(zone), [[NEXT, 1766440801, 0], [PREVIOUS, 1768269599, 0]] + about(*at(1767614751))
    for zone in (APART, BACK, THRICE, OVER, DAILY):
        name = zone[0]
        yield join([work(name, 0x03, 12 * HOUR, 12 * HOUR), holidays(name, [(2026, 1, 7)])]), packed(zone), about(*at(MON, MON + 20 * HOUR))
        yield join([work(name, ALL, 1800, 5400), work(name, 0x01, 3600, 18 * HOUR), pause(name, ALL, 4000, 4600)]), packed(zone), about(*at(MON))
    yield join([work(b"", ALL, 0, 0), holidays(b"Apart", [(2026, 1, 6)])]), packed(APART), about(*at(MON + DAY), windows=[(-DAY, DAY)])  # a holiday that holds nothing
    mixed = [default(b"Nuuk"), work(b"", 0x60, 21 * HOUR, HOUR), work(b"Howe", ALL, 7200, 9000), work(b"EST", ALL, 9000, 10800), pause(b"Daily", ALL, HOUR, 2 * HOUR)]
    yield join(mixed), packed(NUUK, HOWE, EST, DAILY), about(*at(SPRING, AUTUMN, NEW_YORK))


def refused_books():
    """A book for each refusal of its own, 1 to 6; 4 and 5 with a place."""
    office = work(b"", 0x1F, 9 * HOUR, 17 * HOUR)
    yield bytes(3), NO_PACK
    yield b"", NO_PACK
    yield join([office] * 17), NO_PACK
    yield OFFICE, b""
    yield join([office, default(b"UTC")]), NO_PACK
    yield join([office, work(b"Bad", 0x1F, 0, HOUR)]), join([pack_record(b"Bad", b"TZif")])
    yield bytes(4), NO_PACK
    yield join([office, pause(b"", 0x1F, 9 * HOUR, 17 * HOUR)]), NO_PACK


def refusals():
    """What is refused before anything is searched, and what a search refuses."""
    wrong = [(FIRST_S - 1, LATE), (LAST_S + 1, 0), (MON, -1), (MON, LATE + 1), (LEAST_I64, LEAST_I64), (MOST_I64, MOST_I64), (0, MOST_I64)]
    asked = [[kind, *given] for kind in (NEXT, PREVIOUS) for given in wrong]
    for book, pack in refused_books():
        yield book, pack, asked[:2] + [[NEXT, MON, 0], [PREVIOUS, MON, 0], [BLOCKS, MON, 0, MON + WEEK, 0]]
    yield OFFICE, NO_PACK, asked + about(FIRST, LAST, *at(MON + 9 * HOUR, MON + 17 * HOUR))
    # no work for more than a year: a break covers it while two zones agree, about 2026 and at both ends of the range
    for low, high in ((MON, MON + LIMIT + WEEK), (LAST_S - 2 * LIMIT, LAST_S + DAY), (FIRST_S - DAY, FIRST_S + 2 * LIMIT)):
        zone = (b"Gap", tzif([43_200, 0, 43_200], [(low, 1), (high, 2)]))
        records = [kind(name, ALL, 9000, 12600) for kind, name in ((work, b"UTC"), (pause, b"Gap"))]
        case = marks.Case(vars(second), join(records), packed(UTC, zone))
        schedule = case.schedule()
        schedule.limit = LAST - FIRST
        middle = clamped((low + high) // 2 * NANO)
        edges = []
        for sign in (1, -1):
            try:
                edges.append(schedule.period(sign, middle)[0 if sign > 0 else 1] - sign * LIMIT * NANO)
            except second.Refusal:
                edges.append(LAST - LIMIT * NANO if sign > 0 else FIRST + LIMIT * NANO)
        yield join(records), packed(UTC, zone), about(middle, windows=[(-HOUR, HOUR)]) + about(*edges, windows=[], off=(0, 1, -1, DAY * NANO))


# ---- the vectors of document 02


def default_file(book, pack):
    """The zone file of a book's default zone; that of UTC, which is built in, where it names none."""
    names = [record[2 : 2 + record[1]] for _, record in second.directory(book) if record[0] == 0]
    return second.Pack(pack).first[second.folded(names[-1])] if names else UTC[1]


def told_line(question, answer):
    """An answer as VECTORS tells it."""
    number, place, told = answer
    if number:
        return f"no {number} {place}"
    named = [3] if question[0] == RESOLVE else range(4, len(told) + 1, 3) if question[0] == BLOCKS else [5, 6]
    words = [second.MARKS[value] if place in named else str(value) for place, value in enumerate(told, 1)]
    return " ".join(["ok"] + words[question[0] == BLOCKS :])


KINDS = {b"resolve": RESOLVE, b"next": NEXT, b"previous": PREVIOUS, b"blocks": BLOCKS}


def vectors(folder):
    """The cases of VECTORS; prints how many lines of each kind are taken and left out."""
    cases, taken, left_out = [], [0] * 4, [0] * 4
    for path in sorted(path for path in folder.iterdir() if (path / "calls.txt").exists()):
        files = [(path / name).read_bytes() for name in ("book.bin", "zones.bin", "calls.txt", "answers.txt")]
        book, pack = files[:2]
        lines = [(line.split(b" "), told.decode()) for line, told in zip(*(data.split(b"\n") for data in files[2:]))]
        lines = [([KINDS[word[0]], *map(int, word[1:])], told) for word, told in lines if word[0] in KINDS]
        parts = [(b"", default_file(book, pack), [pair for pair in lines if pair[0][0] == RESOLVE])]
        rest = [pair for pair in lines if pair[0][0] != RESOLVE]
        if any(record[0] > 3 for _, record in second.directory(book)):
            for question, _ in rest:
                left_out[question[0]] += 1
        else:
            parts.append((book, pack, rest))
        for *files, pairs in parts:
            case = marks.Case(vars(second), *files)
            for question, told in pairs:
                taken[question[0]] += 1
                if told_line(question, case.answer(question)) != told:
                    sys.exit(f"{path.name}: second.py answers otherwise than {told}")
            cases.append((*files, [question for question, _ in pairs]))
    for title, counts in (("all as expected", taken), ("left out", left_out)):
        print(f"vectors, {title}: " + ", ".join(f"{count} {word.decode()}" for word, count in zip(KINDS, counts)))
    return cases


def main(folder, out):
    cases = vectors(folder) + examples() + [(b"", zone[1], questions) for zone, questions in zone_files()]
    for made in (coinciding, october, touching, gap_edges, borders, limits, range_ends, far_jumps, refusals):
        cases += list(made())
    cases += [marks.case_of(RANDOM[0], place, "") for place in range(RANDOM[1])]
    data = b"".join(marks.case_data(*case) for case in cases)
    if len(data) > MOST:
        sys.exit(f"{len(data)} bytes are too many")
    seen = [(question[0], number) for _, _, questions, answers in marks.read_cases(data) for question, (number, _, _) in zip(questions, answers)]
    out.mkdir(parents=True, exist_ok=True)
    (out / "marks.bin").write_bytes(data)
    numbers = [number for _, number in seen]
    by_number = {number: numbers.count(number) for number in sorted(set(numbers)) if number}
    by_kind = ", ".join(f"{sum(kind == asked for asked, number in seen if not number)} {word.decode()}" for word, kind in KINDS.items())
    print(f"{len(data)} bytes, {len(cases)} cases, {len(seen)} questions, {numbers.count(0)} answers ({by_kind}); refusals by number: {by_number}")
    marks.show_marks(marks.marks_seen(data))


if __name__ == "__main__":
    if len(sys.argv) != 3 or sys.argv[1].startswith("-"):
        sys.exit(__doc__)
    main(Path(sys.argv[1]), Path(sys.argv[2]))
