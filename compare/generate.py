#!/usr/bin/env python3
"""Makes cases for the comparison: books, packs and query lines.

Usage: generate.py SEED COUNT FOLDER [--zoneinfo DIR] [--only NUMBER]
                   [--family NAME] [--whole]

Writes FOLDER/NNNNN-FAMILY for each of COUNT cases, each with book.bin,
zones.bin (a few have none), queries.txt and listing.txt (lines for the
listing, which is not part of document 01's program). A case depends on SEED,
its number and the zone files found alone, so --only makes one again. With
--family all cases are of that family: one of FAMILIES, or one of APART
(`database`, `wide`), which no case is of without it. With --whole made-up zone
files have a first data block of one type, and a last transition that agrees
with the footer, as jiff wants it.

Real zones are taken from DIR, /usr/share/zoneinfo (Debian's tzdata) if not
told otherwise; without any, made-up ones stand in. second.py is used to aim
(where a zone changes, how much work there is), not to tell answers.
"""

import functools
import os
import random
import re
import struct
import sys

sys.dont_write_bytecode = True  # no cache beside the sources

import second
from second import DAY, FIRST, LAST, NANO, day_number

FIRST_S, LAST_S = FIRST // NANO, LAST // NANO
WEEK = 7 * DAY
BUILD = 978_307_200
MON = 1_767_571_200  # Monday 2026-01-05T00:00:00Z
EDGE_OFFSETS = [0, 3600, -3600, 1, -1, 19_800, 43_200, -43_200, 50_400, 86_399, 86_400]
EDGE_OFFSETS += [86_401, -86_399, -86_400, 89_999, -89_999, 93_599, -93_599]
REAL = ["Europe/Berlin", "America/New_York", "Asia/Kolkata", "Pacific/Apia", "Africa/Casablanca"]
REAL += ["America/Santiago", "Australia/Lord_Howe", "Europe/Dublin", "Asia/Gaza", "UTC", "Etc/GMT+12"]
REAL += ["Pacific/Kiritimati", "America/Nuuk", "Africa/Cairo", "Asia/Tehran", "Antarctica/Troll"]
REAL += ["Pacific/Chatham", "Asia/Jerusalem", "America/Juneau", "Asia/Manila", "Africa/Monrovia"]
DATABASE_LINES = 200
DATABASE_LONG = 2  # pairs of lines over decades
I64 = [-(2**63), 2**63 - 1, 2**63, -(2**63) - 1, 2**64, 2**31, -(2**31), 10**30]


# --------------------------------------------------------------------- zone files


def header(version, ut, std, leaps, times, types, letters):
    counts = struct.pack(">6I", ut, std, leaps, times, types, letters)
    return b"TZif" + version + bytes(15) + counts


WHOLE = "--whole" in sys.argv
LETTERS = b"AAA\0BBB\0"


def agreeing(types, changes, footer, version):
    """The last transition with a type that the footer gives there, as jiff wants
    it: changes, and the type's record and letters (none where nothing is to do)."""
    try:
        rules = second.read_footer(footer, version)
    except ValueError:
        return changes, b"", b""
    at = changes[-1][0] if changes else 0
    if not changes or abs(at) > LAST_S or len(types) > 255:
        return changes, b"", b""
    names = re.findall(rb"[A-Za-z]{3,}|(?<=<)[^>]+(?=>)", footer)
    daylight = rules.daylight is not None and rules.offset(at) == rules.daylight
    record = struct.pack(">iBB", rules.offset(at), daylight, len(LETTERS))
    return changes[:-1] + [(at, len(types))], record, names[1 if daylight else 0] + b"\0"


def tzif(types, changes=(), footer=b"", version=b"2", marks=0, old=0):
    """A TZif file: offsets of the types, (second, type) pairs, footer. `marks`
    adds indicators, `old` fills the first data block."""
    first, record, name = header(version, 0, 0, 0, 0, 0, 0), b"", b""
    if WHOLE:
        first = header(version, 0, 0, 0, 0, 1, 4) + bytes(6) + b"AAA\0"
        changes, record, name = agreeing(types, changes, footer, version)
    elif old:
        first = header(version, 1, 1, old, 2, 1, 4) + bytes(2 * 5 + 6 + 4 + 8 * old + 2)
    count = len(types) + (1 if record else 0)
    ut, std = (count if marks & 1 else 0), (count if marks & 2 else 0)
    data = header(version, ut, std, 0, len(changes), count, len(LETTERS + name))
    data += b"".join(struct.pack(">q", second) for second, _ in changes)
    data += bytes(kind for _, kind in changes)
    for place, offset in enumerate(types):
        data += struct.pack(">iBB", offset, place & 1, 4 * (place & 1))
    data += record + LETTERS + name + bytes(i & 1 for i in range(std)) + bytes(ut)
    return first + data + b"\n" + footer + b"\n"


def clock(seconds):
    """hh[:mm[:ss]] as short as it can be."""
    text = f"{seconds // 3600}"
    if seconds % 3600:
        text += f":{seconds // 60 % 60:02}"
    if seconds % 60:
        text += f":{seconds % 60:02}"
    return text


def west(offset):
    """An offset as a footer tells it."""
    return clock(-offset) if offset <= 0 else "-" + clock(offset)


def rule_text(rng):
    form = rng.random()
    if form < 0.35:
        day = f"M{rng.randint(1, 12)}.{rng.randint(1, 5)}.{rng.randint(0, 6)}"
    elif form < 0.65:
        day = f"J{rng.choice([1, 2, 31, 59, 60, 61, 364, 365, rng.randint(1, 365)])}"
    else:
        day = f"{rng.choice([0, 1, 58, 59, 60, 363, 364, 365, rng.randint(0, 365)])}"
    if rng.random() < 0.3:
        return day
    return day + "/" + clock(rng.choice([0, 1, 7200, 10_800, 86_400, 89_999, rng.randint(0, 89_999)]))


def footer_text(rng):
    if rng.random() < 0.15:
        return f"AAA{west(offset(rng, 89_999))}".encode()
    if rng.random() < 0.3:  # known good ones
        good = ["CET-1CEST,M3.5.0,M10.5.0/3", "EST5EDT,M3.2.0,M11.1.0", "<+1030>-10:30<+11>-11,M10.1.0,M4.1.0"]
        good += ["AAA0BBB,365/2,0/3", "AAA24:59:59BBB,365/24:59:59,365/24:59:58", "IST-1GMT0,M10.5.0,M3.5.0/1"]
        good += ["<-03>3<-02>,M3.5.0/24,M10.5.0/24", "AAA-24:59:59BBB,0/0,J365/23", "AAA5BBB,J60/0,59/24"]
        return rng.choice(good).encode()
    standard, daylight = offset(rng, 89_999), offset(rng, 89_999)
    if rng.random() < 0.5:
        daylight = standard + 3600
    if rng.random() < 0.3:  # ties: both changes on one day at one instant
        day, time = rng.choice(["J1", "0", "365", "J365", "J60", "59", "M2.5.0"]), rng.randint(0, 40_000)
        other = time - standard + daylight
        if 0 <= other <= 89_999 and abs(daylight) <= 89_999:
            return f"AAA{west(standard)}BBB{west(daylight)},{day}/{clock(time)},{day}/{clock(other)}".encode()
    told = "" if daylight == standard + 3600 and (rng.random() < 0.7 or daylight > 89_999) else west(daylight)
    return f"AAA{west(standard)}BBB{told},{rule_text(rng)},{rule_text(rng)}".encode()


WIDEST = 604_799  # 167:59:59, the latest rule time of version 3
WIDE_TIMES = [WIDEST, WIDEST - 59, WIDEST - 3599, 90_000, 93_600, 180_000, 432_000, 0, 1, 1800, 3600, 86_400, 89_999]
EARLY_DAYS = ["0", "1", "4", "6", "7", "J1", "J5", "J7", "M1.1.0"]
LATE_DAYS = ["358", "361", "364", "365", "J359", "J363", "J365", "M12.5.6"]


def wide_clock(rng, seconds):
    """A rule time of version 3: with a sign, and with three digits of hours, also
    where it needs neither."""
    text = clock(abs(seconds))
    if rng.random() < 0.1:
        hours, colon, rest = text.partition(":")
        text = hours.zfill(3) + colon + rest
    if rng.random() < 0.1 and ":" not in text:
        text += ":00"
    return ("-" if seconds < 0 else rng.choice(["", "", "", "+"])) + text


def wide_rule(rng):
    """A day, mostly near a year's end, and a time up to a week before or behind it."""
    form = rng.random()
    day = rng.choice(EARLY_DAYS + LATE_DAYS)
    if form < 0.2:
        day = f"M{rng.randint(1, 12)}.{rng.randint(1, 5)}.{rng.randint(0, 6)}"
    elif form < 0.3:
        day = f"{rng.randint(0, 365)}"
    time = rng.choice([1, -1]) * rng.choice(WIDE_TIMES + [rng.randint(0, WIDEST)])
    return day, time


def wide_rules(rng):
    """Two of them, now and then both early or both late, so that a year may be
    without a change for some of its days or have those of the next one."""
    form = rng.random()
    if form < 0.15:
        return [(rng.choice(EARLY_DAYS), -rng.randint(300_000, WIDEST)) for _ in range(2)]
    if form < 0.3:
        return [(rng.choice(LATE_DAYS), rng.randint(300_000, WIDEST)) for _ in range(2)]
    return wide_rule(rng), wide_rule(rng)


def wide_text(rng):
    """A footer that is good in version 3 alone, now and then with changes at one
    instant: of one year, or of a year and the next."""
    standard = offset(rng, 89_999)
    daylight = standard + 3600 if rng.random() < 0.6 else offset(rng, 89_999)
    told = "" if daylight == standard + 3600 else west(daylight)
    (start, early), (end, late) = wide_rules(rng)
    if rng.random() < 0.3:
        near = second.read_footer(f"AAA0BBB0,{start}/0,{end}/0".encode(), b"3")
        year = rng.choice([2023, 2024, 2025, 2026])
        begins, ends_ = near.of_year(year + rng.choice([0, 0, 1, -1]))[0][0], near.of_year(year)[1][0]
        tied = begins + early - standard - ends_ + daylight
        late = tied if abs(tied) <= WIDEST else late
    if 0 <= early <= 89_999 and 0 <= late <= 89_999:
        early = -early - 1
    return f"AAA{west(standard)}BBB{told},{start}/{wide_clock(rng, early)},{end}/{wide_clock(rng, late)}".encode()


def offset(rng, most=93_599):
    if rng.random() < 0.3:
        return rng.randint(-most, most)
    return rng.choice([o for o in EDGE_OFFSETS if abs(o) <= most])


def odd_zone(rng, about):
    """Changes close together, near `about`."""
    types = [offset(rng) for _ in range(rng.randint(1, 5))]
    if rng.random() < 0.4:  # all within a day, as demand 3 asks
        base = rng.randint(-40_000, 40_000)
        types = [base + rng.choice([0, 1, 3600, 43_200, 86_399, 86_400]) for _ in types]
        types = [max(-93_599, min(93_599, o)) for o in types]
    at = about + rng.choice([-WEEK, -2 * DAY, 0, rng.randint(-WEEK, WEEK)])
    changes = []
    for _ in range(rng.randint(1, 9)):
        changes.append((at, rng.randrange(len(types))))
        at += rng.choice([1, 2, 3600, 7200, DAY - 1, DAY, DAY + 1, 2 * DAY, WEEK, rng.randint(1, 9 * DAY)])
    if rng.random() < 0.1:
        changes.insert(0, (-(2**63), rng.randrange(len(types))))
    if rng.random() < 0.1:
        changes.append((2**63 - 1, rng.randrange(len(types))))
    footer = footer_text(rng) if rng.random() < 0.35 else b""
    return tzif(types, changes, footer, rng.choice([b"2", b"3"]), rng.randint(0, 3), rng.choice([0, 0, 1, 3]))


def footer_zone(rng, about):
    types = [offset(rng) for _ in range(rng.randint(1, 3))]
    changes = []
    if rng.random() < 0.4:
        starts = sorted({about + rng.randint(-400 * DAY, 400 * DAY) for _ in range(rng.randint(1, 3))})
        changes = [(second_, rng.randrange(len(types))) for second_ in starts]
    return tzif(types, changes, footer_text(rng), rng.choice([b"2", b"3"]), rng.randint(0, 3))


def real_zone(rng, folder, name):
    try:
        with open(os.path.join(folder, name), "rb") as file:
            data = file.read()
    except OSError:
        data = b""
    return data if data[:4] == b"TZif" and len(data) < 8_000 else footer_zone(rng, MON)


# --------------------------------------------------------------- books and packs


def join(records, rng=None):
    """A directory and its records, with idle bytes between them now and then."""
    def idle():
        return rng.randbytes(rng.randint(1, 5)) if rng and rng.random() < 0.15 else b""

    directory, rest, at = b"", b"", 4 + 8 * len(records)
    for record in records:
        space = idle()
        directory += struct.pack(">II", at + len(space), len(record))
        rest += space + record
        at += len(space) + len(record)
    return struct.pack(">I", len(records)) + directory + rest + idle()


def pack_record(name, file):
    return bytes([len(name)]) + name + file


def default(name):
    return bytes([0, len(name)]) + name


def shift(kind, name, days, start, end):
    return bytes([kind, len(name)]) + name + bytes([days]) + struct.pack(">4I", *start, *end)


def holidays(name, dates):
    body = struct.pack(">H", len(dates)) + b"".join(struct.pack(">hBB", *date) for date in dates)
    return bytes([3, len(name)]) + name + body


def time_of_day(rng):
    form = rng.random()
    if form < 0.5:
        second_ = rng.randrange(24) * 3600 + rng.choice([0, 0, 1800])
    elif form < 0.8:
        second_ = rng.choice([0, 0, 1, 7200, 9000, 10_800, 86_399, 43_200])
    else:
        second_ = rng.randrange(DAY)
    return second_, rng.choice([0, 0, 0, 0, 1, 999_999_999, rng.randrange(NANO)])


def date_near(rng, second_):
    """A date at most some days from an instant."""
    day = second_ // DAY + rng.choice([0, 0, 1, -1, 2, -2, rng.randint(-15, 15)])
    day = max(second.FIRST_DATE, min(second.LAST_DATE, day))
    year = second.year_of(day)
    month = 1
    while month < 12 and day_number(year, month + 1, 1) <= day:
        month += 1
    return year, month, day - day_number(year, month, 1) + 1


def days_of(rng):
    return rng.choice([0x1F, 0x1F, 0x7F, 0x7F, 0x60, 1 << rng.randrange(7), rng.randrange(128)])


def book_records(rng, names, abouts, most=4):
    """A book's records over some zone names; `abouts` are instants of note."""
    def name():
        return rng.choice(names + [b""]) if rng.random() < 0.6 else b""

    records = []
    for _ in range(rng.choice([1, 1, 1, 2, 3, most])):
        start, end = time_of_day(rng), time_of_day(rng)
        if rng.random() < 0.15:
            end = start
        records.append(shift(1, name(), days_of(rng), start, end))
    for _ in range(rng.choice([0, 0, 0, 1, 1, 2, most])):
        records.append(shift(2, name(), days_of(rng), time_of_day(rng), time_of_day(rng)))
    for _ in range(rng.choice([0, 0, 1, 1, 2])):
        dates = [date_near(rng, rng.choice(abouts)) for _ in range(rng.choice([0, 1, 2, 5, 9]))]
        if dates and rng.random() < 0.3:
            dates.append(rng.choice(dates))
        records.append(holidays(name(), dates))
    if names and rng.random() < 0.75:
        records.append(default(rng.choice(names)))
    if names and rng.random() < 0.1:
        records.append(default(rng.choice(names + [b"Not/There"])))
    rng.shuffle(records)
    return records


# ------------------------------------------------------------------- query lines


class Lenient(second.Pack):
    """A pack with UTC for each zone that is refused."""

    def zone(self, name, place):
        try:
            return super().zone(name, place)
        except second.Refusal:
            return second.UTC


def schedule_of(book, zones, lenient):
    """The second implementation's schedule, or None where it refuses the book."""
    usual = second.Pack
    second.Pack = Lenient if lenient else usual
    try:
        return second.Schedule(book, zones)
    except second.Refusal:
        return None
    finally:
        second.Pack = usual


class Lines:
    """Query lines about instants of note. Spans are kept short: a walk over
    the whole range may take the second implementation minutes."""

    def __init__(self, rng, abouts, most=3 * 365 * DAY):
        self.rng = rng
        self.abouts = abouts or [MON]
        self.most = most
        self.work = most * NANO  # the most that is added or taken off
        self.lenient = False  # fits books too whose zones are refused
        self.long = 0  # pairs of lines over decades
        self.lines = []

    def fit(self, book, zones):
        """Keeps durations to about three years of the book's working time."""
        schedule = schedule_of(book, zones, self.lenient)
        if schedule is None:
            return
        start = self.clamp(self.abouts[0] * NANO)
        time, _ = schedule.between(start, self.clamp(start + 52 * WEEK * NANO))
        self.work = 3 * time + 100

    def instant(self):
        rng = self.rng
        second_ = rng.choice(self.abouts)
        form = rng.random()
        if form < 0.35:
            second_ += rng.choice([0, 0, 1, -1, DAY, -DAY, WEEK, -WEEK, 11 * DAY, -11 * DAY])
        elif form < 0.6:
            second_ += rng.choice([-1, 1]) * (rng.randint(0, 4) * WEEK + rng.choice([0, 11 * DAY, 4 * DAY]))
        elif form < 0.95:
            second_ += rng.randint(-30 * DAY, 30 * DAY) // rng.choice([1, 3600, DAY]) * rng.choice([1, 3600])
        nano = rng.choice([0, 0, 0, 0, 1, 999_999_999, rng.randrange(NANO)])
        if rng.random() < 0.97:
            second_ = max(FIRST_S, min(LAST_S, second_))
        return second_ * NANO + nano

    def span(self):
        rng = self.rng
        form = rng.random()
        if form < 0.3:
            span = rng.randint(0, 5) * WEEK * NANO
        elif form < 0.5:
            span = rng.randint(0, 15 * DAY) * NANO
        elif form < 0.8:
            span = rng.randint(0, 400) * DAY * NANO
        else:
            span = rng.randint(0, self.most) * NANO
        return span + rng.choice([0, 0, 0, 1, -1, rng.randrange(NANO)])

    def put(self, word, *numbers):
        self.lines.append(" ".join([word, *map(str, numbers)]).encode())

    @staticmethod
    def split(instant):
        return instant // NANO, instant % NANO

    @staticmethod
    def signed(duration):
        sign = -1 if duration < 0 else 1
        return sign * (abs(duration) // NANO), sign * (abs(duration) % NANO)

    def clamp(self, instant):
        return max(FIRST, min(LAST, instant))

    def between(self, a=None, b=None):
        a = self.clamp(self.instant()) if a is None else a
        b = self.clamp(a + self.rng.choice([1, 1, 1, -1]) * self.span()) if b is None else b
        self.put("between", *self.split(a), *self.split(b))

    def move(self):
        rng = self.rng
        form = rng.random()
        if form < 0.1:
            time = rng.choice([0, 1, -1])
        elif form < 0.7:
            time = rng.randint(-400, 400) * rng.choice([1800, 3600, 8 * 3600]) * NANO
        else:
            time = rng.randint(-self.most, self.most) // 5 * NANO
        time += rng.choice([0, 0, 0, 1, -1, rng.randrange(NANO)])
        if abs(time) > self.work:
            time = time % self.work * rng.choice([1, -1])
        self.put(rng.choice(["add", "sub"]), *self.split(self.instant()), *self.signed(time))

    def any(self):
        form = self.rng.random()
        if form < 0.35:
            self.between()
        elif form < 0.7:
            self.move()
        else:
            self.put(self.rng.choice(["next", "previous"]), *self.split(self.instant()))

    def edge(self):
        """Numbers at the edges of what is refused."""
        rng = self.rng
        instant = rng.choice([FIRST_S, LAST_S, FIRST_S - 1, LAST_S + 1, MON, -(2**63), 2**63 - 1])
        nano = rng.choice([0, 999_999_999, 1_000_000_000, -1, 2**63 - 1, -(2**63)])
        word = rng.choice(["between", "add", "sub", "next", "previous"])
        if word in ("next", "previous"):
            self.put(word, instant, nano)
        elif word == "between":
            pair = [instant, nano, instant, rng.choice([0, 1, 999_999_999, 10**9])]
            self.put(word, *(pair if rng.random() < 0.5 else pair[2:] + pair[:2]))
        else:
            time = rng.choice([(-(2**63), 0), (-(2**63), -999_999_999), (-(2**63), 1), (0, -1), (1, -1)])
            time = rng.choice([time, (-1, 1), (0, 10**9), (0, -(10**9)), (0, 0), (-1, -999_999_999)])
            if instant in (MON, FIRST_S) and abs(time[0]) > 10**9:
                time = (-(2**63), time[1])
            self.put(word, instant, nano, *time)

    def damaged(self):
        """A line that is, or is nearly, malformed."""
        rng = self.rng
        self.any()
        line = self.lines.pop()
        fields = line.split(b" ")
        form = rng.randrange(14)
        if form == 0:
            line = line + b" "
        elif form == 1:
            line = b" " + line
        elif form == 2:
            line = line.replace(b" ", rng.choice([b"  ", b"\t", b"\r", b","]), 1)
        elif form == 3:
            line = line + b"\r"
        elif form == 4:
            fields[rng.randrange(1, len(fields))] = str(rng.choice(I64)).encode()
        elif form == 5:
            place = rng.randrange(1, len(fields))
            prefix = rng.choice([b"+", b"-", b"--", b"0", b"00000000000000000000000", b"-0", b"0x"])
            fields[place] = prefix + fields[place]
        elif form == 6:
            fields[rng.randrange(1, len(fields))] = rng.choice([b"", b"-", b"1e3", b"1.0", b"-0", b"\xd9\xa3", b"1_0"])
        elif form == 7:
            fields.pop()
        elif form == 8:
            fields.append(b"0")
        elif form == 9:
            fields[0] = rng.choice([b"Between", b"ADD", b"nex", b"previouss", b"", b"list", b"ok", b"sub\0"])
        elif form == 10:
            line = b""
        elif form == 11:
            place = rng.randrange(len(line))
            line = line[:place] + bytes([rng.choice([0, 32, 45, 48, 57, 58, 47, 128, 255])]) + line[place + 1 :]
        elif form == 12:
            line = line[: rng.randrange(len(line))]
        else:
            line = rng.randbytes(rng.randint(1, 30)).replace(b"\n", b"")
        self.lines.append(b" ".join(fields) if 4 <= form <= 9 else line)

    def far(self):
        """Two lines over decades."""
        rng = self.rng
        start = any_day(rng) * NANO + rng.choice([0, rng.randrange(DAY * NANO)])
        self.between(start, start + rng.choice([1, -1]) * rng.randint(0, 60 * 365 * DAY) * NANO)
        time = rng.choice([1, -1]) * rng.randint(0, 10 * self.work)
        self.put(rng.choice(["add", "sub"]), *self.split(start), *self.signed(time))

    def mixed(self, count):
        for _ in range(self.long):
            self.far()
        for _ in range(count):
            form = self.rng.random()
            if form < 0.9:
                self.any()
            elif form < 0.96:
                self.edge()
            else:
                self.damaged()
        return self.lines

    def listings(self, count):
        self.lines = []
        for _ in range(count):
            a = self.clamp(self.instant())
            b = self.clamp(a + self.rng.choice([1, 1, 1, 1, -1]) * min(self.span(), 60 * DAY * NANO))
            room = self.rng.choice([0, 3, 4, 7, 8, 40, 100_000, 100_000, 100_000])
            self.put("list", *self.split(a), *self.split(b), room)
        return self.lines


# ---------------------------------------------------------------------- families


def changes_of(file, about):
    """Where a zone file's offset changes, near an instant and near the build's."""
    try:
        zone = second.read_zone(file)
    except ValueError:
        return []
    found = zone.changes(about - 500 * DAY, about + 500 * DAY)
    return found[:40] + [s for s in zone.times if abs(s) < 10**12][-5:]


def about_any(rng):
    year = rng.choice([2026, 2026, 2001, 2024, 2025, 1970, 1900, 2000, 2038, 2100, 0, 1, -1, -4000, 5000])
    return rng.choice([MON, BUILD, day_number(year, 1, 1) * DAY, day_number(year, 1, 1) * DAY + rng.randrange(365) * DAY])


def make(rng, zones, about, count=40, most=3 * 365 * DAY, rules=4):
    """A case from zones (name, file): records, pack records and lines."""
    abouts = [about, about, BUILD]
    for _, file in zones:
        abouts += changes_of(file, about)
    names = [name for name, _ in zones]
    records = book_records(rng, names, abouts, rules)
    return records, [pack_record(*zone) for zone in zones], Lines(rng, abouts, most), count


def real(rng, folder):
    names = rng.sample(REAL, rng.choice([1, 1, 2, 3]))
    zones = [(name.encode(), real_zone(rng, folder, name)) for name in names]
    return make(rng, zones, about_any(rng))


@functools.cache
def database_names(folder):
    """The names of all zones below a folder, but for the copies that tzdata
    keeps in `posix` and `right`."""
    names = []
    for place, folders, files_ in os.walk(folder):
        if place == folder:
            folders[:] = [name for name in folders if name not in ("posix", "right")]
        for name in files_:
            path = os.path.join(place, name)
            with open(path, "rb") as file:
                if file.read(4) == b"TZif":
                    names.append(os.path.relpath(path, folder))
    return sorted(names)


def spelled(rng, name):
    """A name, now and then in other cases: a pack is searched without regard to it."""
    return rng.choice([name.upper(), name.lower(), name.swapcase()]) if rng.random() < 0.1 else name


def parts_of(rng, total, most):
    """`total` cut into at most `most` parts."""
    cuts = sorted(rng.randint(0, total) for _ in range(rng.randint(1, most) - 1))
    return [high - low for low, high in zip([0] + cuts, cuts + [total])]


def full_records(rng, names, abouts):
    """A book with any number of rules up to the limits."""
    def name():
        return spelled(rng, rng.choice(names + [b""]))

    def times():
        start, end = time_of_day(rng), time_of_day(rng)
        return start, start if rng.random() < 0.1 else end

    work, breaks = rng.choice([(16, 16), (rng.randint(1, 16), rng.randint(0, 16))])
    records = [shift(1, name(), days_of(rng), *times()) for _ in range(work)]
    for _ in range(breaks):
        start, _ = time_of_day(rng)
        records.append(shift(2, name(), days_of(rng), (start, 0), ((start + rng.randint(1, 3 * 3600)) % DAY, 0)))
    for size in parts_of(rng, rng.choice([0, 30, 512, rng.randint(0, 512)]), 8):
        spread = rng.choice([20, 300, 3_000])
        at = rng.choice(abouts)
        records.append(holidays(name(), [date_near(rng, at + rng.randint(-spread, spread) * DAY) for _ in range(size)]))
    records += [default(spelled(rng, rng.choice(names))) for _ in range(rng.choice([0, 1, 1, 3]))]
    rng.shuffle(records)
    return records


def always_records(rng, names, abouts):
    """Round the clock in one zone but for some holidays and breaks."""
    time = time_of_day(rng)
    name = rng.choice(names + [b""])
    records = [shift(1, name, rng.choice([0x7F, 0x7F, 0x3F]), time, time)]
    records.append(holidays(rng.choice(names), [date_near(rng, rng.choice(abouts)) for _ in range(rng.randint(0, 4))]))
    if rng.random() < 0.3:
        records.append(shift(2, rng.choice(names), 1 << rng.randrange(7), time_of_day(rng), time_of_day(rng)))
    return records + [default(rng.choice(names))] * rng.randint(0, 1)


def end_records(rng, names, abouts):
    """A plain book with holidays on the first and the last dates."""
    dates = [(-9999, 1, 1), (-9999, 1, 2), (-9999, 1, 3), (9999, 12, 31), (9999, 12, 30), (9999, 12, 29)]
    return book_records(rng, names, abouts) + [holidays(rng.choice(names + [b""]), rng.sample(dates, rng.randint(1, 6)))]


def any_day(rng):
    return day_number(rng.randint(1900, 2200), 1, 1) * DAY + rng.randrange(365) * DAY


def database(rng, folder):
    """Any zones of the database and books of all shapes, with many lines: the
    years 1900 to 2200 and both ends of the range. Never damaged, and none of
    FAMILIES."""
    if rng.random() < 0.15:
        return database_gap(rng, folder)
    names = rng.sample(database_names(folder), rng.choice([1, 1, 2, 3, 6]))
    zones = [(name.encode(), real_zone(rng, folder, name)) for name in names]
    shape = rng.choice([book_records] * 5 + [full_records, full_records, always_records, end_records])
    abouts = [any_day(rng) for _ in range(4)]
    if shape is end_records or rng.random() < 0.15:
        abouts = [FIRST_S, LAST_S, FIRST_S + rng.randint(0, 500) * DAY, LAST_S - rng.randint(0, 500) * DAY]
    for about in list(abouts):
        for _, file in zones:
            abouts += changes_of(file, about)
    records = shape(rng, [name for name, _ in zones], abouts)
    lines = Lines(rng, abouts)
    lines.long, lines.lenient = DATABASE_LONG, True
    return records, [pack_record(*zone) for zone in zones], lines, DATABASE_LINES - 2 * DATABASE_LONG


@functools.cache
def calm_spans(folder):
    """Of each zone of the database the spans without a change of 367 days or
    more, 1900 to 2200: (name, start, end, offset), and its offset at the build."""
    spans, builds_ = [], {}
    for name in database_names(folder):
        zone = second.read_zone(real_zone(None, folder, name)) if is_usable(folder, name) else None
        if zone is None or not zone.steady(BUILD - 20 * DAY, BUILD + 30 * DAY):
            continue
        builds_[name] = zone.offset(BUILD)
        edges = zone.changes(day_number(1900, 1, 1) * DAY, day_number(2200, 1, 1) * DAY)
        for start, end in zip(edges, edges[1:]):
            if end - start >= 367 * DAY:
                spans.append((name, start, end, zone.offset(start)))
    return spans, builds_


def is_usable(folder, name):
    with open(os.path.join(folder, name), "rb") as file:
        data = file.read()
    try:
        second.read_zone(data)
    except ValueError:
        return False
    return len(data) < 8_000


def gap_pair(rng, folder):
    """Two zones that differ at the build and agree for over a year: the span."""
    spans, builds_ = calm_spans(folder)
    while True:
        name, start, end, offset_ = rng.choice(spans)
        fits = []
        for other, low, high, same in spans:
            low, high = max(low, start), min(high, end)
            if same == offset_ and builds_[other] != builds_[name] and high - low >= 380 * DAY:
                fits.append((other, low, high))
        if fits:
            other, low, high = rng.choice(fits)
            return name, other, low, high


def database_gap(rng, folder):
    """Work in one zone, a break at the same times in another: no work while
    their offsets agree, for more or less than the search limit."""
    name, other, low, high = gap_pair(rng, folder)
    days = rng.choice([0x1F, 0x7F, 0x01])
    opens, closes = rng.randrange(0, 40_000), rng.randrange(40_001, 43_000)
    records = [shift(kind, zone.encode(), days, (opens, 0), (closes, 0)) for kind, zone in ((1, name), (2, other))]
    weeks = (high - low - 366 * DAY) // WEEK
    count = max(0, min(512, weeks + rng.choice([-1, 0, 0, 1, 2, -weeks])))
    dates = [(1_500 + place // 28, 1, 1 + place % 28) for place in range(count)]
    records.append(holidays(b"", dates))
    rng.shuffle(records)
    pack = [pack_record(zone.encode(), real_zone(rng, folder, zone)) for zone in (name, other)]
    limit = (366 + 7 * count) * DAY * NANO
    lines = Lines(rng, [low, high])
    work_end, work_start = gap_ends(join(records), join(pack), (low + high) // 2 * NANO)
    for wiggle in (-1, 0, 1, NANO, -NANO, 0):
        for at in (work_end + limit, work_start - limit, work_end, work_start):
            at = lines.clamp(at + wiggle)
            lines.put(rng.choice(["next", "previous"]), *lines.split(at))
            lines.put(rng.choice(["add", "sub"]), *lines.split(at), rng.choice([1, -1]) * rng.randint(1, 90_000), 0)
    return records, pack, lines, DATABASE_LINES - len(lines.lines)


def gap_ends(book, zones, inside):
    """Where the work before an instant ends, and where that after it starts."""
    try:
        schedule = second.Schedule(book, zones)
        schedule.limit = LAST - FIRST
        return schedule.period(-1, inside)[1], schedule.period(1, inside)[0]
    except second.Refusal:
        return inside, inside


def odd(rng, folder):
    about = rng.choice([MON, MON, BUILD, about_any(rng)])
    zones = [(b"Odd/%d" % i, odd_zone(rng, about)) for i in range(rng.choice([1, 1, 2]))]
    return make(rng, zones, about)


def footers(rng, folder):
    about = about_any(rng)
    zones = [(b"Foot%d" % i, footer_zone(rng, about)) for i in range(rng.choice([1, 1, 2]))]
    return make(rng, zones, about)


def ends(rng, folder):
    """Both ends of the range."""
    zones = [(b"End", tzif([offset(rng)], (), b""))]
    if rng.random() < 0.3:
        zones = [(b"End", footer_zone(rng, rng.choice([FIRST_S, LAST_S])))]
    elif rng.random() < 0.5:
        side = rng.choice([FIRST_S, LAST_S])
        zones = [(b"End", odd_zone(rng, side))]
    about = rng.choice([FIRST_S, LAST_S])
    if rng.random() < 0.3:  # a repeat or a jump over the end
        types = [offset(rng), offset(rng)]
        zones = [(b"End", tzif(types, [(about + rng.choice([-1, 1]) * rng.randint(0, 60_000), 1)]))]
    abouts = [about, about, FIRST_S, LAST_S, about + rng.randint(-9, 9) * DAY] + changes_of(zones[0][1], about)
    records = book_records(rng, [b"End"], abouts)
    if rng.random() < 0.3:
        years = [(-9999, 1, 1), (-9999, 1, 2), (-9999, 1, 3), (9999, 12, 31), (9999, 12, 30), (9999, 12, 29)]
        records.append(holidays(rng.choice([b"", b"End"]), rng.sample(years, rng.randint(1, 4))))
    lines = Lines(rng, abouts, 400 * DAY)
    for _ in range(6):  # towards the end with more than there is
        word = rng.choice(["add", "sub"])
        sign = 1 if (word == "add") == (about == LAST_S) else -1
        instant = about * NANO - (1 if about == LAST_S else -1) * rng.randint(0, 400 * DAY * NANO)
        lines.put(word, *lines.split(lines.clamp(instant)), sign * rng.choice([10**9, 2**63 - 1]), 0)
    return records, [pack_record(*zone) for zone in zones], lines, 34


def far_holidays(rng):
    """Holiday records far from all queries, and the search limit they make:
    repeats in a record count once, the same date in two records twice."""
    pool = [(1980, 1, day) for day in range(1, 8)]
    records, total = [], 0
    for _ in range(rng.choice([0, 0, 1, 2])):
        dates = [rng.choice(pool) for _ in range(rng.randint(0, 6))]
        records.append(holidays(b"", dates))
        total += len(set(dates))
    return records, (366 + 7 * total) * DAY


def exact_gaps(rng, folder):
    """A gap of the limit exactly, from a Monday's end to a Wednesday's start,
    with windows whose border falls on its end; or one longer or shorter."""
    records, limit = far_holidays(rng)
    week = MON + rng.randint(0, 50) * WEEK
    start, stop = week + DAY, week + limit + rng.choice([0, 0, 0, WEEK])
    opens, closes = rng.randrange(0, 40_000), rng.randrange(40_001, 43_000)
    late = rng.choice([0, 0, 0, 1, -1])  # nanoseconds that the gap is longer
    first, last = (opens, 0), (closes, 500)
    after = (closes, 500 + late)
    for kind, name in ((1, b""), (2, b"Gap")):
        records.append(shift(kind, name, 0x01, first, last))
        records.append(shift(kind, name, 0x04, after, (43_100, 0)))
    zone = tzif([43_200, 0], [(start, 1), (stop, 0)])
    work_end = (week + closes) * NANO + 500
    work_start = (stop + closes) * NANO + 500 + late
    lines = Lines(rng, [start, stop, work_end // NANO, work_start // NANO])
    for wiggle in (-1, 0, 1):
        for weeks in (0, 1, 2):
            hours = rng.choice([1, 20, 200]) * 3600
            lines.put("add", *lines.split(work_end - (5 + 7 * weeks) * DAY * NANO + wiggle), hours, 0)
            lines.put("sub", *lines.split(work_start + (5 + 7 * weeks) * DAY * NANO + wiggle), hours, 0)
        lines.put("next", *lines.split(work_end + wiggle))
        lines.put("previous", *lines.split(work_start + wiggle))
        lines.put("add", *lines.split(work_end + wiggle), 0, rng.choice([1, 2, 3]))
        lines.put("sub", *lines.split(work_start + wiggle), 0, rng.choice([1, 2, 3]))
    return records, [pack_record(b"Gap", zone)], lines, 6


def end_gaps(rng, folder):
    """No work for long at an end of the range: 6 or 7 by a nanosecond."""
    records, limit = far_holidays(rng)
    upper = rng.random() < 0.5
    change = (LAST_S - limit - 90 * DAY) if upper else (FIRST_S + limit + 90 * DAY)
    zone = tzif([43_200, 0], [(change, 1)]) if upper else tzif([0, 43_200], [(change, 1)])
    opens, closes = rng.randrange(0, 40_000), rng.randrange(40_001, 43_000)
    for kind, name in ((1, b""), (2, b"Gap")):
        records.append(shift(kind, name, 0x7F, (opens, 0), (closes, 0)))
    lines = Lines(rng, [change])
    for wiggle in (-1, 0, 1, NANO, -NANO, -40 * DAY * NANO, 40 * DAY * NANO):
        at = LAST - limit * NANO + wiggle if upper else FIRST + limit * NANO + wiggle
        lines.put("next", *lines.split(at))
        lines.put("previous", *lines.split(at))
        lines.put("add", *lines.split(at), rng.choice([1, -1]), 0)
        lines.put("sub", *lines.split(at), rng.choice([1, -1]), 0)
        lines.put(rng.choice(["add", "sub"]), *lines.split(at), -(2**63), rng.choice([0, -1]))
    return records, [pack_record(b"Gap", zone)], lines, 10


def always(rng, folder):
    """Round the clock, but for holidays and breaks: periods that are cut."""
    time = time_of_day(rng)
    days = rng.choice([0x7F, 0x7F, 0x7F, 0x3F])
    records = [shift(1, b"", days, time, time)]
    at = MON + rng.randint(0, 100) * DAY
    dates = [date_near(rng, at) for _ in range(rng.choice([0, 1, 1, 2, 3]))]
    records.append(holidays(rng.choice([b"", b"Fix"]), dates + dates[:1]))
    limit = (366 + 7 * len(set(dates))) * DAY
    if rng.random() < 0.3:
        records.append(shift(2, b"Fix", 0x01, time_of_day(rng), time_of_day(rng)))
    lines = Lines(rng, [at, at + limit, at - limit] + [day_number(*date) * DAY for date in dates])
    for _ in range(12):
        lines.put(rng.choice(["next", "previous"]), *lines.split(lines.instant()))
    return records, [pack_record(b"Fix", tzif([offset(rng)]))], lines, 15


def builds(rng, folder):
    """What build sees: 14 days from January 2001, holidays left out."""
    edge = BUILD + rng.choice([0, 7, 14, -7]) * DAY + rng.choice([0, 0, 1, -1, 43_200, -43_200])
    other = edge + rng.choice([7, 14, 21]) * DAY
    opens, closes = rng.choice([(0, 0), (0, 43_200), (32_400, 43_000), (86_399, 0)])
    days = rng.choice([0x7F, 0x1F, 0x01, 0x40, 0x00])
    if rng.random() < 0.5:  # a break hides the first week, the second or both
        edge, other = rng.choice([(-7, 7), (-7, 14), (0, 14), (7, 14), (0, 7)])
        edge, other = BUILD + edge * DAY, BUILD + other * DAY
        opens, closes, days = 32_400, 43_000, 0x7F
    zone = tzif([43_200, 0], [(edge, 1), (other, 0)])
    if rng.random() < 0.3:
        zone = odd_zone(rng, edge)
    records = [shift(1, b"", days, (opens, 0), (closes, 0))]
    if rng.random() < 0.7:
        records.append(shift(2, b"Gap", rng.choice([days, 0x7F]), (opens, 0), (closes, 0)))
    if rng.random() < 0.6:
        records.append(holidays(b"", [(2001, 1, day) for day in range(1, rng.choice([8, 16, 17, 31]))]))
    lines = Lines(rng, [BUILD, edge, other, BUILD + 14 * DAY])
    return records, [pack_record(b"Gap", zone)], lines, 14


def jumps(rng, folder):
    """Times jumped over twice, or jumped over and read later."""
    at = rng.choice([MON, MON, BUILD]) + rng.randint(0, 6) * DAY + rng.randrange(DAY)
    low = rng.choice([0, -3600, 36_000])
    high = low + rng.choice([3600, 7200, 40_000, 86_399])
    space = rng.choice([1, 600, 1800, 3600])
    between = low + rng.choice([0, 1, 600, -600, -1800])
    types = [low, high, between, between + rng.choice([high - low, 3600, 1])]
    types = [max(-93_599, min(93_599, o)) for o in types]
    changes = [(at, 1), (at + space, 2), (at + 2 * space, 3)]
    if rng.random() < 0.3:
        changes.append((at + 3 * space, 0))
    zone = tzif(types, changes)
    local = (at + low) % DAY
    records = []
    for _ in range(rng.randint(1, 3)):
        start = (local + rng.choice([0, 1, -1, 600, 1800, 2400, rng.randrange(7200)])) % DAY
        end = (local + rng.choice([0, 1, 600, 1800, 2400, 3600, rng.randrange(9000)])) % DAY
        records.append(shift(rng.choice([1, 1, 1, 2]), b"Jump", 0x7F, (start, rng.choice([0, 5])), (end, 0)))
    records.append(shift(1, rng.choice([b"", b"Jump"]), 0x1F, time_of_day(rng), time_of_day(rng)))
    return records, [pack_record(b"Jump", zone)], Lines(rng, [at, at, at + space]), 30


def gaps(rng, folder):
    """No work for over a year: a break covers all work while two zones agree.
    The search limit is met by a nanosecond."""
    holiday_records, limit = far_holidays(rng)
    start = MON + rng.randint(0, 50) * WEEK
    stop = start + rng.choice([limit // WEEK, limit // WEEK + 1, limit // WEEK + 2, 80]) * WEEK
    zone = tzif([43_200, 0], [(start, 1), (stop, 0)])
    opens, closes = rng.randrange(0, 40_000), rng.randrange(40_001, 43_000)
    days = rng.choice([0x1F, 0x7F, 0x01])
    records = [
        shift(1, b"", days, (opens, 0), (closes, 0)),
        shift(2, b"Gap", days, (opens, 0), (closes, 0)),
    ]
    records += holiday_records
    weekdays = [day for day in range(7) if days >> day & 1]
    work_end = start - WEEK + weekdays[-1] * DAY + closes
    work_start = stop + weekdays[0] * DAY + opens
    lines = Lines(rng, [start, stop, work_end, work_start])
    for wiggle in (-1, 0, 1, NANO, -NANO):
        before = (work_start - limit) * NANO + wiggle
        after = (work_end + limit) * NANO + wiggle
        for word in ("next", "previous"):
            lines.put(word, *lines.split(before if word == "next" else after))
        lines.put("add", *lines.split(before), 0, rng.randint(1, 999))
        lines.put("sub", *lines.split(after), rng.randint(1, 9000), 0)
        lines.put("add", *lines.split(work_end * NANO + wiggle), 1, 0)
        lines.put("sub", *lines.split(work_start * NANO + wiggle), 1, 0)
    return records, [pack_record(b"Gap", zone)], lines, 12


def skips(rng, folder):
    """Borders whose test span just touches a change or a holiday."""
    at = MON + rng.randint(0, 30) * DAY + rng.choice([0, 3600, 7200])
    to = rng.choice([3600, 7200, -3600, 0, 1])
    zone = tzif([3600, 3600 + to], [(at, 1)], b"", b"2")
    kind = rng.choice(["work", "break", "holiday", "date"])
    day = rng.choice([0x1F, 0x7F])
    records = [shift(1, b"Jump" if kind == "work" else b"", day, (32_400, 0), (61_200, 0))]
    if kind == "break":
        records.append(shift(2, b"Jump", day, (43_200, 0), (46_800, 0)))
    if kind == "holiday":
        records.append(holidays(b"Jump", [date_near(rng, at + 90 * DAY)]))
    if kind == "date":
        date = date_near(random.Random(0), at)
        at = day_number(*date) * DAY + rng.choice([0, DAY, -3600, DAY - 3600, -DAY, 2 * DAY])
        records.append(holidays(rng.choice([b"", b"Jump"]), [date]))
    lines = Lines(rng, [at])
    for reach in (11, -11, 10, -10, 9, -9, 12, -12, 13, -13):
        for wiggle in (-1, 0, 1):
            border = (at + reach * DAY) * NANO + wiggle
            weeks = rng.randint(1, 3)
            start, end = border - weeks * WEEK * NANO, border + rng.choice([1, 1, 2]) * WEEK * NANO
            form = rng.random()
            if form < 0.6:
                lines.between(start, end + rng.choice([0, 0, 0, -1, 1]))
            else:
                word, first = ("add", start) if form < 0.8 else ("sub", end)
                hours = rng.randint(1, 4) * 40 * 3600 + rng.choice([0, 0, -1, 1])
                lines.put(word, *lines.split(first), hours, 0)
    return records, [pack_record(b"Jump", zone)], lines, 8


def limits(rng, folder):
    """Books at or one past a limit."""
    more = rng.choice([0, 0, 1])
    kind = rng.randrange(6)
    office = shift(1, b"", 0x1F, (32_400, 0), (61_200, 0))
    records = [office]
    if kind == 0:
        records = [shift(1, b"", days_of(rng), time_of_day(rng), time_of_day(rng)) for _ in range(16 + more)]
    elif kind == 1:
        records += [shift(2, b"", days_of(rng), time_of_day(rng), time_of_day(rng)) for _ in range(16 + more)]
    elif kind == 2:
        records += [holidays(b"", [date_near(rng, MON)]) for _ in range(8 + more)]
    elif kind == 3:
        sizes = rng.choice([[512], [256, 256], [511, 1], [64] * 8])
        sizes[0] += more
        for size in sizes:
            dates = [date_near(rng, MON + rng.randint(0, 300) * DAY) for _ in range(size)]
            records.append(holidays(b"", dates))
    elif kind == 4:
        records += [default(rng.choice([b"", b"None", b"Fix"])) for _ in range(62 + more)] + [default(b"Fix")]
    else:
        records += [shift(1, b"", days_of(rng), time_of_day(rng), time_of_day(rng)) for _ in range(15)]
        records += [shift(2, b"", days_of(rng), time_of_day(rng), time_of_day(rng)) for _ in range(16)]
        records += [holidays(b"Fix", [date_near(rng, MON) for _ in range(64)]) for _ in range(8)]
        records += [default(b"Fix")] * (23 + more)
    if rng.random() < 0.25:  # breaks the layout, which is found first
        records.append(b"\x07\x00")
    return records, [pack_record(b"Fix", tzif([3600]))], Lines(rng, [MON], 200 * DAY), 12


def names_(rng, folder):
    """Names: case, repeats, absent, unusable, empty; refusals 4 and 5."""
    fix, broken = tzif([3600], (), b"AAA-2"), b"TZif"
    palette = [b"Fix", b"FIX", b"fiX", b"[a]", b"{a}", b"@", b"`", b"\xc4", b"\xe4", b"A" * 64, b"Bad", b"None", b""]
    if rng.random() < 0.4:  # one name, nearly or really the same
        pairs = [(b"[a]", b"{a}"), (b"@", b"`"), (b"Fix", b"fIX"), (b"\xc4", b"\xe4"), (b"A" * 64, b"a" * 64), (b"Z", b"Z ")]
        known, asked = rng.choice(pairs)
        records = [shift(1, asked, 0x1F, (32_400, 0), (61_200, 0))]
        return records, [pack_record(known, fix)], Lines(rng, [MON]), 4
    pack = [pack_record(rng.choice(palette[:-2]), rng.choice([fix, fix, broken, b""])) for _ in range(rng.randint(0, 6))]
    records = [shift(1, rng.choice(palette), 0x1F, (32_400, 0), (61_200, 0)) for _ in range(rng.randint(1, 2))]
    records += [shift(2, rng.choice(palette), 0x1F, (43_200, 0), (46_800, 0)) for _ in range(rng.randint(0, 2))]
    records += [holidays(rng.choice(palette), [(2026, 1, 5)]) for _ in range(rng.randint(0, 2))]
    records += [default(rng.choice(palette)) for _ in range(rng.randint(0, 3))]
    rng.shuffle(records)
    return records, pack, Lines(rng, [MON]), 6


def year_ends(rng, folder):
    """Footers whose changes lie at a year's end or about 1 March."""
    year = rng.choice([2022, 2023, 2024, 2025, 2026, 2028, 2000, 1900, 2100, -4, 0])
    days = ["0", "J1", "1", "364", "365", "J365", "J364"]
    about = day_number(year, 1, 1) * DAY
    if rng.random() < 0.35:
        days = ["J59", "J60", "J61", "58", "59", "60", "M2.5.%d" % rng.randrange(7), "M3.1.0"]
        about = day_number(year, 3, 1) * DAY
    standard = rng.choice([0, 3600, 50_400, -43_200, 89_999, -89_999, offset(rng, 89_999)])
    daylight = rng.choice([standard + 3600, standard + 3600, offset(rng, 89_999)])
    told = "" if daylight == standard + 3600 else west(daylight)
    times = [clock(rng.choice([0, 1, 7200, 10_800, 86_400, 89_998, 89_999])) for _ in range(2)]
    rules = [f",{rng.choice(days)}/{time}" for time in times]
    text = f"AAA{west(standard)}BBB{told}{rules[0]}{rules[1]}".encode()
    return make(rng, [(b"Year", tzif([offset(rng)], (), text))], about, 25)


def wide(rng, folder):
    """Rule times as version 3 has them and version 2 has not: changes up to
    eight days outside their year, footers that are just good or just not, and
    the same ones in version 2. None of FAMILIES."""
    year = rng.choice([2022, 2023, 2024, 2025, 2026, 2026, 2001, 2000, 1900, 2100, -4, 0, -9998, 9999])
    about = day_number(year, 1, 1) * DAY + rng.choice([0, rng.randint(-9, 9) * DAY, rng.randint(0, 9) * DAY, rng.randrange(365) * DAY])
    zones = []
    for place in range(rng.choice([1, 1, 2])):
        nearly = rng.random() < 0.25
        text = rng.choice(NEARLY_WIDE) if nearly else wide_text(rng)
        starts = {about + rng.randint(-400 * DAY, 400 * DAY) for _ in range(rng.choice([0, 0, 0, 1, 2]))}
        types = [offset(rng) for _ in range(rng.randint(1, 3))]
        changes = [(at, rng.randrange(len(types))) for at in sorted(starts)]
        version = b"2" if rng.random() < (0.4 if nearly else 0.05) else b"3"
        zones.append((b"Wide%d" % place, tzif(types, changes, text, version, rng.choice([0, 0, 2, 3]))))
    return make(rng, zones, about, 30)


def texts(rng, folder):
    """Footers that are hardly, or not quite, POSIX TZ strings."""
    zone = tzif([3600], (), rng.choice(BAD_FOOTERS))
    records = [default(b"Text"), shift(1, b"", 0x7F, time_of_day(rng), time_of_day(rng))]
    return records, [pack_record(b"Text", zone)], Lines(rng, [MON] + changes_of(zone, MON)), 5


def files(rng, folder):
    """Zone files with one thing at its limit, or past it."""
    types, changes = [3600, 7200, -3600], [(MON, 1), (MON + DAY, 2), (MON + 2 * DAY, 0)]
    file = tzif(types, changes, b"", b"2", 3, 1)
    start = file.rfind(b"TZif")
    times, kinds = start + 44, start + 44 + 9 * 3
    form = rng.randrange(16)

    def put(place, data):
        return file[:place] + data + file[place + len(data) :]

    if form == 0:
        file = put(rng.choice([4, start + 4]), rng.choice([b"2", b"3", b"4", b"1", b"\0"]))
    elif form == 1:
        file = put(kinds + 18 + 8 + rng.randrange(6), bytes([rng.choice([1, 2, 255])]))
    elif form == 2:
        file = put(kinds + 6 * rng.randrange(3) + 4, bytes([rng.choice([1, 2])]))
    elif form == 3:
        file = put(kinds + 6 * rng.randrange(3) + 5, bytes([rng.choice([7, 8])]))
    elif form == 4:
        file = put(times + 24 + rng.randrange(3), bytes([rng.choice([2, 3])]))
    elif form == 5:
        edge = rng.choice([93_599, 93_600, -93_599, -93_600, 2**31 - 1, -(2**31)])
        file = put(kinds + 6 * rng.randrange(3), struct.pack(">i", edge))
    elif form == 6:
        file = put(times + 8 * rng.randrange(3), struct.pack(">q", MON + rng.randint(0, 2) * DAY + rng.choice([0, 1, -1])))
    elif form == 7:  # a count one off, in either header
        place = rng.choice([0, start]) + 20 + 4 * rng.randrange(6)
        count = struct.unpack(">I", file[place : place + 4])[0]
        file = put(place, struct.pack(">I", max(0, count + rng.choice([1, -1]))))
    elif form == 8:
        file = put(rng.choice([0, start]) + 20 + 4 * rng.randrange(6), rng.choice([b"\xff" * 4, b"\x40\0\0\0", b"\x20\0\0\0"]))
    elif form == 9:
        count = rng.choice([2_047, 2_048, 2_049])
        file = tzif([0, 3600], [(MON + i * 3600, i % 2) for i in range(count)])
    elif form == 10:
        count = rng.choice([255, 256, 257])
        file = tzif([i * 60 for i in range(count)], [(MON, 255 if count > 255 else 254)])
    elif form == 11:
        file = rng.choice([file[:-1], file[:-2], file + b"\n", file + b"A", file[:-2] + b"\n", file[:-2] + b"A\n"])
    elif form == 12:
        file = put(rng.choice([5, start + 5]) + rng.randrange(15), b"\x07")
    elif form == 13:
        file = put(rng.choice([0, start]) + rng.randrange(4), b"t")
    elif form == 14:
        file = tzif(types, changes, b"", rng.choice([b"2", b"3"]), rng.randint(0, 3), rng.randint(0, 4))
    else:
        file = file[: rng.randrange(len(file))]
    records = [default(b"File"), shift(1, b"", 0x7F, time_of_day(rng), time_of_day(rng))]
    return records, [pack_record(b"File", file)], Lines(rng, [MON, MON + DAY]), 6


FAMILIES = [(real, 5), (odd, 5), (footers, 5), (ends, 4), (gaps, 2), (exact_gaps, 2), (end_gaps, 2), (always, 2)]
FAMILIES += [(builds, 3), (jumps, 3), (skips, 4), (limits, 2), (names_, 3), (year_ends, 4), (texts, 7), (files, 9)]
APART = [database, wide]  # run by name alone: in FAMILIES they would change the cases of every seed


# ------------------------------------------------------------------------ damage


def damage_bytes(rng, data, count=1):
    """Bytes changed, cut off, added, doubled."""
    for _ in range(count):
        form = rng.random()
        place = rng.randrange(len(data)) if data else 0
        if rng.random() < 0.5:
            place = min(place, rng.randrange(64))
        if form < 0.55 and data:
            value = rng.choice([0, 1, 2, 3, 4, 10, 63, 64, 65, 127, 128, 255, data[place] ^ 1, (data[place] + 1) % 256])
            data = data[:place] + bytes([value]) + data[place + 1 :]
        elif form < 0.7:
            data = data[: rng.choice([place, len(data) - 1, 3, 4])]
        elif form < 0.8:
            data += rng.randbytes(rng.randint(1, 4))
        elif form < 0.9:
            data = data[:place] + data[place + 1 :]
        else:
            data = data[:place] + rng.randbytes(1) + data[place:]
    return data


def damage_footer(rng, file):
    """A changed character in the footer, or in its grammar."""
    cut = file[:-1].rfind(b"\n")
    head, text = file[: cut + 1], file[cut + 1 : -1]
    if not text or rng.random() < 0.4:
        text = rng.choice(BAD_FOOTERS)
    else:
        place = rng.randrange(len(text))
        letter = bytes([rng.choice(b"+-,./:JM0123456789<>Aa \n\0")])
        text = rng.choice([text[:place] + letter + text[place + 1 :], text[:place] + letter + text[place:],
                           text[:place] + text[place + 1 :]])
    return head + text + b"\n"


BAD_FOOTERS = [b"AAA", b"AA0", b"AAA25", b"AAA24:60", b"AAA24:59:60", b"AAA24:59:59", b"AAA+24", b"AAA0BBB"]
BAD_FOOTERS += [b"AAA0BBB,J0,J1", b"AAA0BBB,J1,J366", b"AAA0BBB,0,366", b"AAA0BBB,M0.1.0,M1.1.0"]
BAD_FOOTERS += [b"AAA0BBB,M13.1.0,0", b"AAA0BBB,M1.0.0,0", b"AAA0BBB,M1.6.0,0", b"AAA0BBB,M1.1.7,0"]
BAD_FOOTERS += [b"AAA0BBB,0/25,1", b"AAA0BBB,0/-1,1", b"AAA0BBB,0/+1,1", b"AAA0BBB,0,1,", b"AAA0BBB,0", b"AAA0BBB,,0"]
BAD_FOOTERS += [b"AAA0BBB,0,1/+2", b"AAA0BBB,J1/+0,1", b"EST5EDT,M3.2.0/+2,M11.1.0", b"EST5EDT,M3.2.0,M11.1.0/-1"]
BAD_FOOTERS += [b"<AA>0", b"<AAA0", b"<A_A>0", b"<+01>-1", b"<A-1>1B2B3", b"AAA000", b"AAA0:0", b"AAA00:00:00:00"]
BAD_FOOTERS += [b"AAA0BBB,J001,M01.1.0", b"AAA0BBB,0001,1", b"AAA0BBB,J0001,1", b"AAA0BBB1,0/000,1", b":AAA0", b" AAA0"]
BAD_FOOTERS += [b"AAA0BBB25,0,1", b"AAA0BBB-24:59:59,0,1", b"AAA0BBB24:59:59,365/24:59:59,0/0", b"AAA1:5", b"AAA--1"]

# Footers for version 3: at a limit of a rule time, one beyond it, and of a form
# that is nearly that of one.
NEARLY_WIDE = [b"AAA0BBB,%s,%s" % pair for time in [b"167:59:59", b"-167:59:59", b"+167:59:59", b"168", b"-168", b"+168",
               b"167:60", b"-167:59:60", b"-0", b"-0:30", b"-0:00:01", b"+2", b"+0:30", b"-000", b"002", b"0002", b"-0002", b"1000",
               b"-", b"+", b"--1", b"+-1", b"-+1", b"- 1", b"-1:5", b"-1:", b"-:30", b"1-", b"24:59:59", b"25", b"-1", b"200"]
               for pair in [(b"0/" + time, b"100"), (b"M3.5.0", b"M10.5.0/" + time)]]
NEARLY_WIDE += [b"AAA25", b"AAA025", b"AAA-167", b"AAA0BBB-25,0/-1,1", b"AAA0BBB001,0/-1,1", b"AAA0BBB167,0/167,1"]
NEARLY_WIDE += [b"<-02>2<-01>,M3.5.0/-1,M10.5.0/0", b"EET-2EEST,M3.4.4/50,M10.4.4/50", b"IST-2IDT,M3.4.4/26,M10.5.0"]
NEARLY_WIDE += [b"AAA24:59:59BBB24:59:59,365/167:59:59,365/167:59:58", b"AAA-24:59:59BBB,0/-167:59:59,0/-167:59:58"]


def damaged(rng, records, pack):
    """Damages one of book, pack and a zone file; returns book and pack bytes."""
    form = rng.randrange(5)
    if form == 0:
        return damage_bytes(rng, join(records, rng), rng.choice([1, 1, 1, 2])), join(pack, rng)
    if form == 1:
        return join(records, rng), damage_bytes(rng, join(pack, rng), rng.choice([1, 1, 2]))
    if form == 2:
        place = rng.randrange(len(records))
        records = records[:place] + [damage_bytes(rng, records[place])] + records[place + 1 :]
        return join(records, rng), join(pack, rng)
    if pack:
        place = rng.randrange(len(pack))
        change = damage_bytes if form == 3 else damage_footer
        pack = pack[:place] + [change(rng, pack[place])] + pack[place + 1 :]
    return join(records, rng), join(pack, rng)


def family_of(title):
    """The family of a title, and None for none."""
    return {title_of(family): family for family in [family for family, _ in FAMILIES] + APART}.get(title)


def title_of(family):
    return family.__name__.strip("_")


def write_case(seed, place, folder, zoneinfo, family=None):
    rng = random.Random(f"{seed}/{place}")
    chosen = rng.choices([f for f, _ in FAMILIES], [w for _, w in FAMILIES])[0]
    family = family or chosen
    records, pack, lines, count = family(rng, zoneinfo)
    title = title_of(family)
    if family is not database and rng.random() < 0.2:
        book, zones = damaged(rng, records, pack)
        title += "-damaged"
        count = 8
        del lines.lines[4:]
    else:
        book, zones = join(records, rng), join(pack, rng)
    if rng.random() < 0.003:
        zones += bytes(65_537 - min(len(zones), 65_536) - rng.choice([0, 1]))
    lines.fit(book, zones)
    queries = lines.mixed(count)
    target = os.path.join(folder, f"{place:05}-{title}")
    os.makedirs(target, exist_ok=True)
    files = {"book.bin": book, "zones.bin": zones}
    if rng.random() < 0.01:
        del files[rng.choice(list(files))]
    files["queries.txt"] = b"\n".join(queries) + (b"\n" if rng.random() < 0.9 else b"")
    files["listing.txt"] = b"\n".join(lines.listings(6)) + b"\n"
    for name, data in files.items():
        with open(os.path.join(target, name), "wb") as file:
            file.write(data)


def main(arguments):
    def option(name, otherwise):
        if name not in arguments:
            return otherwise
        place = arguments.index(name)
        value = arguments[place + 1]
        del arguments[place : place + 2]
        return value

    zoneinfo = option("--zoneinfo", "/usr/share/zoneinfo")
    only = option("--only", None)
    title = option("--family", None)
    arguments = [argument for argument in arguments if argument != "--whole"]
    if len(arguments) != 3 or (title and not family_of(title)):
        sys.exit("usage: generate.py SEED COUNT FOLDER [--zoneinfo DIR] [--only NUMBER] [--family NAME] [--whole]")
    seed, count, folder = arguments[0], int(arguments[1]), arguments[2]
    for place in [int(only)] if only else range(count):
        write_case(seed, place, folder, zoneinfo, family_of(title))


if __name__ == "__main__":
    main(sys.argv[1:])
