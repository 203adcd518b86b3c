#!/usr/bin/env python3
"""Makes the zone files, the questions and the expected answers of the program test_zone_calls.

usage: tools/zone_questions.py ZONEINFO CRATE

ZONEINFO is a folder of compiled zone files (Debian's package tzdata installs one), CRATE the folder crates/test_zone_calls. data/zones.bin gets the files of the
zones named below and of one made here, in version 3 and in version 2, one behind the other; data/questions.bin the questions, 52 bytes each: which call, the file's place and length, 4 bytes each, then five
signed numbers of 8 bytes with 2^63 added, all big-endian. The expected lines go to CRATE/stdout.

The answers come from Python's zoneinfo, which reads the same files with code of its own. Its dates begin with the year 1, before every zone's first
transition: an earlier second has the offset of the year 1, and the day of an earlier date is counted 400 years at a time. The next change is looked for
between the table's transitions and then week by week to the range's end. A local time's mark is by how many seconds read it: every offset that the zone
has is tried. What is refused, and the range's ends, are written from document 01.
"""
import datetime, io, os, struct, sys
from zoneinfo import ZoneInfo
from zone_answers import EPOCH, by_zoneinfo, in_zone, parse

ZONES = ["Europe/Berlin", "America/New_York", "Asia/Kolkata", "Australia/Lord_Howe", "Pacific/Apia", "America/Nuuk"]
NUUK = b"<-02>2<-01>,M3.5.0/-1,M10.5.0/0"   # the footer of America/Nuuk, with a rule time of -1 hours, as version 3 alone allows it
FIRST, LAST, NANO = -377705023201, 253402207200, 10 ** 9
YEAR_ONE = int((datetime.datetime(1, 1, 3) - EPOCH).total_seconds())
DAY, WEEK = 86400, 604800
OFFSET, CHANGE, RESOLVE = 1, 2, 3
PLAIN, REPEATED, SKIPPED, BEYOND = 0, 1, 2, 3
NAMES = {OFFSET: "offset", CHANGE: "change", RESOLVE: "resolve"}


def ruled(version):
    """a file with one transition, at 0, from -12,416 s to -7,200 s, and the footer above"""
    head = b"TZif" + version + bytes(15)
    table = struct.pack(">qBiBBiBB", 0, 1, -12416, 0, 0, -7200, 0, 0) + b"-02\0"
    return head + struct.pack(">6I", *[0] * 6) + head + struct.pack(">6I", 0, 0, 0, 1, 2, 4) + table + b"\n" + NUUK + b"\n"


class Zone:
    def __init__(self, file, place):
        self.bytes = file
        self.place = place
        self.usable = file != ruled(b"2")
        self.zone = ZoneInfo.from_file(io.BytesIO(file))
        times, offsets, initial = parse(self.bytes)
        self.times = [t for t in times if t > YEAR_ONE]
        late = in_zone(self.zone)
        self.offset = lambda u: late(max(u, YEAR_ONE))
        # those of the table and, of the range's last year, those of the footer
        self.offsets = {initial, *offsets, *(self.offset(LAST - k * WEEK) for k in range(53))}

    def mark(self, local):
        """whether no second, one or more than one reads the local second"""
        reads = [o for o in self.offsets if self.offset(local - o) == o]
        return SKIPPED if not reads else PLAIN if len(reads) == 1 else REPEATED

    def next_change(self, u):
        """the first second after u, up to the last of the range, whose offset is another than a second before; None if there is none"""
        points = [t for t in self.times if t > u]
        start = max([u] + self.times)
        points += range(start + WEEK, LAST, WEEK)
        a = u
        for b in points + [LAST]:
            if self.offset(b) != self.offset(a):
                while b - a > 1:
                    middle = (a + b) // 2
                    a, b = (middle, b) if self.offset(middle) == self.offset(a) else (a, middle)
                return b
            a = b
        return None


def days(year, month, day):
    """the days from 1970-01-01 to a date; None where there is no such date"""
    cycles = 0
    while year < 1:
        year, cycles = year + 400, cycles + 1
    try:
        return (datetime.date(year, month, day) - EPOCH.date()).days - cycles * 146097
    except (ValueError, OverflowError):
        return None


def is_instant(sec, ns):
    return FIRST <= sec <= LAST and 0 <= ns < NANO


def resolved(zone, year, month, day, second, ns):
    date = days(year, month, day) if -9999 <= year <= 9999 else None
    if date is None or not (0 <= second < DAY and 0 <= ns < NANO):
        return "no 8 0"
    local = date * DAY + second
    sec = by_zoneinfo(zone.zone, local) if year > 0 else local - zone.offset(YEAR_ONE)
    if FIRST <= sec <= LAST:
        return f"{sec} {ns} {zone.mark(local)}"
    return f"{FIRST} 0 {BEYOND}" if year < 0 else f"{LAST} {NANO - 1} {BEYOND}"


def answer(zone, call, length, numbers):
    if length != len(zone.bytes) or not zone.usable:
        return "no 5 0"
    if call == RESOLVE:
        return resolved(zone, *numbers)
    if not is_instant(*numbers):
        return "no 8 0"
    if call == OFFSET:
        return f"{zone.offset(numbers[0])}"
    v = zone.next_change(numbers[0])
    return "never" if v is None else f"{v} 0"


def instants(zone):
    """about the first and the last transitions of the table, the changes of 2026 and 2100, the ends of the range and 1970"""
    yield from ((FIRST, 0), (-1, 5), (0, 0), (LAST, 999999999), (LAST - 40 * DAY, 0))
    some = zone.times[:2] + zone.times[-2:]
    for year in (2026, 2100):
        v = zone.next_change(int((datetime.datetime(year, 1, 1) - EPOCH).total_seconds()))
        some += [v] if v else []
    for v in some:
        yield from ((v - 1, 999999999), (v, 0), (v, 1))


LOCALS = [  # dates and seconds of the day: both sides of gaps and repeats, leap days, the ends of the calendar, years about 0
    (2026, 3, 29, 7199), (2026, 3, 29, 7200), (2026, 3, 29, 9000), (2026, 3, 29, 10800), (2026, 10, 25, 9000), (2026, 10, 25, 10800),
    (2026, 3, 28, 84600), (2026, 10, 24, 84600), (2026, 3, 8, 9000), (2026, 11, 1, 5400), (2026, 4, 5, 6600), (2026, 10, 4, 8100),
    (2011, 12, 30, 43200), (2000, 2, 29, 86399), (1900, 7, 1, 1),
    (1969, 12, 31, 86399), (2400, 2, 29, 0), (1, 1, 3, 0), (0, 2, 29, 43200), (-1, 12, 31, 86399), (-44, 3, 15, 36000), (-9996, 2, 29, 7),
    (-9999, 1, 1, 0), (-9999, 1, 3, 0), (9999, 12, 29, 86399), (9999, 12, 31, 86399),
]

NO_INSTANTS = [(FIRST - 1, 999999999), (LAST + 1, 0), (0, -1), (0, NANO), (-(2 ** 63), 0), (2 ** 63 - 1, 2 ** 63 - 1)]
NO_LOCALS = [
    (2026, 2, 29, 0, 0), (1900, 2, 29, 0, 0), (-9997, 2, 29, 0, 0), (2026, 13, 1, 0, 0), (2026, 0, 1, 0, 0), (2026, -3, 29, 0, 0), (2026, 4, 31, 0, 0),
    (2026, 3, 0, 0, 0), (2026, 3, -29, 0, 0), (10000, 1, 1, 0, 0), (-10000, 12, 31, 86399, 0), (2026, 3, 29, 86400, 0), (2026, 3, 29, -1, 0),
    (2026, 3, 29, 0, NANO), (2026, 3, 29, 0, -1), (-(2 ** 63), 1, 1, 0, 0), (2 ** 63 - 1, 2 ** 63 - 1, 2 ** 63 - 1, 2 ** 63 - 1, 2 ** 63 - 1),
]


NARROW = [(OFFSET, (0, 0)), (CHANGE, (1767225600, 0)), (RESOLVE, (2026, 3, 29, 9000, 0))]   # asked of the made file in version 2


def questions(zone):
    whole = len(zone.bytes)
    for numbers in instants(zone):
        yield OFFSET, whole, numbers
        yield CHANGE, whole, numbers
    for k, local in enumerate(LOCALS):
        yield RESOLVE, whole, (*local, 123456789 * (k % 3))


def refusals(zone):
    """the file is asked first: with numbers that are refused too it is 5"""
    whole = len(zone.bytes)
    for length in (0, 4, whole - 1):
        for numbers in ((0, 0), NO_INSTANTS[1]):
            yield OFFSET, length, numbers
            yield CHANGE, length, numbers
        for numbers in ((2026, 3, 29, 9000, 0), NO_LOCALS[0], NO_LOCALS[-1]):
            yield RESOLVE, length, numbers
    for numbers in NO_INSTANTS:
        yield OFFSET, whole, numbers
        yield CHANGE, whole, numbers
    for numbers in NO_LOCALS:
        yield RESOLVE, whole, numbers


def main(folder, crate):
    zones, data, lines, packed = [], b"", [], b""
    for file in [open(os.path.join(folder, name), "rb").read() for name in ZONES] + [ruled(b"3"), ruled(b"2")]:
        zones.append(Zone(file, len(data)))
        data += file
    asked = [(zone, q) for zone in zones[:-1] for q in questions(zone)] + [(zones[0], q) for q in refusals(zones[0])]
    asked += [(zones[-1], (call, len(zones[-1].bytes), numbers)) for call, numbers in NARROW]
    for zone, (call, length, numbers) in asked:
        packed += struct.pack(">III", call, zone.place, length) + struct.pack(">5Q", *(n + 2 ** 63 for n in (*numbers, 0, 0, 0)[:5]))
        lines.append(f"{NAMES[call]} {' '.join(map(str, numbers))}: {answer(zone, call, length, numbers)}")
    if max(len(data), len(packed)) > 65536:
        sys.exit("too many bytes")
    open(os.path.join(crate, "data", "zones.bin"), "wb").write(data)
    open(os.path.join(crate, "data", "questions.bin"), "wb").write(packed)
    open(os.path.join(crate, "stdout"), "w").write("".join(line + "\n" for line in lines))
    print(len(data), "bytes of zones,", len(asked), "questions")


if __name__ == "__main__":
    if len(sys.argv) != 3 or sys.argv[1].startswith("-"):
        sys.exit(__doc__)
    main(sys.argv[1], sys.argv[2])
